//! answers FILE    writes the lines of FILE again, each with what it says the program writes computed here, in plain Rust.
//!
//! A line is the name of a program beside this file, its size N, and the numbers that it writes. Nothing here reads a program:
//! each answer is computed in another way than the program's if there is one.

use std::collections::{BTreeMap, BTreeSet, VecDeque};

/// 48271 i i modulo some number.
fn square(place: i64, modulus: i64) -> i64 {
    48271 * (place * place) % modulus
}

/// 2^31 - 1.
const PRIME: i64 = 2147483647;

/// The sum of numbers, each times its place, counted from `first`.
fn by_places(numbers: impl Iterator<Item = i64>, first: i64) -> i64 {
    numbers.zip(first..).fold(0i64, |sum, (number, place)| sum.wrapping_add(number.wrapping_mul(place)))
}

fn merge_sort(size: i64) -> Vec<i64> {
    let mut numbers: Vec<i64> = (0..size).map(|place| square(place, PRIME)).collect();
    numbers.sort();
    vec![numbers.iter().fold(0i64, |sum, number| sum.wrapping_mul(31).wrapping_add(*number))]
}

/// How many ways there are to fill the rows left, by bits for the columns and diagonals that are taken.
fn ways(full: u32, columns: u32, rising: u32, falling: u32) -> i64 {
    if columns == full {
        return 1;
    }
    let free = full & !(columns | rising | falling);
    let queens = (0..32).map(|bit| 1u32 << bit).filter(|queen| free & queen != 0);
    queens.map(|queen| ways(full, columns | queen, (rising | queen) << 1, (falling | queen) >> 1)).sum()
}

fn queens(size: i64) -> Vec<i64> {
    vec![ways((1 << size) - 1, 0, 0, 0)]
}

fn scan(size: i64) -> Vec<i64> {
    let sums = (0..size).scan(0, |sum, place| {
        *sum += square(place, 1009);
        Some(*sum)
    });
    vec![by_places(sums, 1)]
}

fn matrix(size: i64) -> Vec<i64> {
    let number = |place: i64| square(place, 2003) - 1000;
    let entry = |row: i64, column: i64| -> i64 {
        (0..size).map(|k| number(row * size + k) * number(size * size + column * size + k)).sum()
    };
    vec![by_places((0..size * size).map(|place| entry(place / size, place % size)), 1)]
}

fn tree_fold(size: i64) -> Vec<i64> {
    // (a node counts 3 times for each step to a first child above it, and 5 times for each to a second)
    let fold = |root: i64| -> i64 {
        (0..size).flat_map(|level| (0..1i64 << level).map(move |path| (level, path))).fold(0i64, |sum, (level, path)| {
            let number = (root << level) + path;
            let times = 3i64.wrapping_pow(level as u32 - path.count_ones()).wrapping_mul(5i64.wrapping_pow(path.count_ones()));
            sum.wrapping_add(number.wrapping_mul(times))
        })
    };
    vec![(1..=8).map(fold).fold(0, i64::wrapping_add)]
}

fn breadth_first(size: i64) -> Vec<i64> {
    let mut leads_to = vec![Vec::new(); size as usize];
    for edge in 0..8 * size {
        leads_to[(square(edge, PRIME) % size) as usize].push((edge / 8) as usize);
    }
    let mut distances = vec![-1; size as usize];
    let mut waiting = VecDeque::from([0]);
    distances[0] = 0;
    while let Some(node) = waiting.pop_front() {
        for &other in &leads_to[node] {
            if distances[other] < 0 {
                distances[other] = distances[node] + 1;
                waiting.push_back(other);
            }
        }
    }
    // (in the last round none is found)
    vec![distances.iter().max().unwrap() + 1, by_places(distances.iter().copied(), 0)]
}

fn histogram(size: i64) -> Vec<i64> {
    vec![size, (0..size).map(|place| square(place, PRIME) % 100 + 1).sum()]
}

fn dedup(size: i64) -> Vec<i64> {
    let keys: BTreeSet<i64> = (0..size)
        .map(|place| {
            let number = square(place, PRIME);
            let root = (number % 4000) * (number / 4000 % 4000) / 4000;
            48271 * root * root + 1
        })
        .collect();
    vec![keys.len() as i64, keys.iter().sum()]
}

fn frozen_table(size: i64) -> Vec<i64> {
    let numbers = (1..20000).scan(0, |number, place| {
        *number += square(place, 9) + 1;
        Some(*number)
    });
    let places: BTreeMap<i64, i64> = std::iter::once(0).chain(numbers).zip(1..).collect();
    vec![(0..size).filter_map(|query| places.get(&(square(query, PRIME) % 80000))).sum()]
}

fn sieve(size: i64) -> Vec<i64> {
    let is_prime = |number: i64| (2..).take_while(|divisor| divisor * divisor <= number).all(|divisor| number % divisor != 0);
    vec![(2..size).filter(|number| is_prime(*number)).count() as i64]
}

fn mandelbrot(size: i64) -> Vec<i64> {
    let (columns, one) = (3 * size / 2, 1i64 << 24);
    let iterations = |place: i64| -> i64 {
        let imaginary = place / columns * one * 2 / size - one;
        let real = place % columns * 3 * one / columns - 2 * one;
        let (mut x, mut y) = (0, 0);
        (0..200)
            .find(|_| {
                let (xx, yy) = (x * x / one, y * y / one);
                (x, y) = (xx - yy + real, x * y / (one / 2) + imaginary);
                xx + yy > 4 * one
            })
            .unwrap_or(200)
    };
    vec![by_places((0..size * columns).map(iterations), 1)]
}

#[derive(Clone, Copy)]
struct Body {
    place: [i64; 2],
    velocity: [i64; 2],
    mass: i64,
}

impl Body {
    fn moved(mut self, bodies: &[Body]) -> Body {
        for other in bodies {
            let away = [other.place[0] - self.place[0], other.place[1] - self.place[1]];
            let square = away[0] * away[0] + away[1] * away[1] + 100000000;
            for axis in 0..2 {
                self.velocity[axis] += away[axis] * other.mass / square;
            }
        }
        for axis in 0..2 {
            self.place[axis] += self.velocity[axis];
        }
        self
    }
}

fn bodies(size: i64) -> Vec<i64> {
    let number = |place: i64| square(place, PRIME) % 1000000;
    let mut bodies: Vec<Body> = (0..size)
        .map(|body| Body {
            place: [number(body), number(size + body)],
            velocity: [0, 0],
            mass: (square(body, 101) + 1) * 1000000,
        })
        .collect();
    for _ in 0..30 {
        bodies = bodies.iter().map(|body| body.moved(&bodies)).collect();
    }
    let along = |of: fn(&Body) -> i64| bodies.iter().map(of).collect::<Vec<_>>();
    let state = [along(|b| b.place[0]), along(|b| b.place[1]), along(|b| b.velocity[0]), along(|b| b.velocity[1])];
    vec![by_places(state.concat().into_iter(), 1)]
}

fn answer(name: &str, size: i64) -> Vec<i64> {
    match name {
        "merge_sort" => merge_sort(size),
        "queens" => queens(size),
        "scan" => scan(size),
        "matrix" => matrix(size),
        "tree_fold" => tree_fold(size),
        "breadth_first" => breadth_first(size),
        "histogram" => histogram(size),
        "dedup" => dedup(size),
        "frozen_table" => frozen_table(size),
        "sieve" => sieve(size),
        "mandelbrot" => mandelbrot(size),
        "bodies" => bodies(size),
        other => panic!("no program: {other}"),
    }
}

fn main() {
    let file = std::env::args().nth(1).expect("FILE, with a line for each answer");
    for line in std::fs::read_to_string(file).expect("a text").lines() {
        let words: Vec<&str> = line.split_whitespace().collect();
        let (name, size) = (words[0], words[1]);
        let numbers: Vec<String> = answer(name, size.parse().expect("a size")).iter().map(i64::to_string).collect();
        println!("{name} {size} {}", numbers.join(" "));
    }
}
