//! Two tasks of rayon's fill an array, and both write its middle: the sum is right, and there is a race.

use hhrec::{record, Logged};
use hhrec_rayon::join;

fn fill(squares: &Logged<u64>, from: usize, to: usize) {
    if to - from < 100 {
        (from..=to).for_each(|i| squares.set(i, (i * i) as u64));
    } else {
        let middle = from.midpoint(to);
        join(|| fill(squares, from, middle - 1), || fill(squares, middle, to));
    }
}

fn main() {
    let sum: u64 = record(|| {
        let squares = Logged::new(vec![0; 1001]);
        join(|| fill(&squares, 0, 500), || fill(&squares, 500, 1000));
        (0..squares.len()).map(|i| squares.get(i)).sum()
    });
    println!("{sum}");
}
