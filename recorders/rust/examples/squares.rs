//! Two tasks fill an array, and both write its middle: the sum is right, and there is a race.

use hhrec::{join, record, Logged};

fn fill(squares: &Logged<u64>, from: usize, to: usize) {
    for i in from..=to {
        squares.set(i, (i * i) as u64);
    }
}

fn main() {
    let sum: u64 = record(|| {
        let squares = Logged::new(vec![0; 1001]);
        join(|| fill(&squares, 0, 500), || fill(&squares, 500, 1000));
        (0..squares.len()).map(|i| squares.get(i)).sum()
    });
    println!("{sum}");
}
