//! The product of two matrices, some rows a task. The race: tasks share the row between them, in which both write the same.

use crate::for_each;
use hhrec::Logged;

const PARTS: usize = 8;

/// The product's last number.
pub fn run(size: usize, race: bool) -> u64 {
    let left = Logged::new((0..size * size).map(|i| (i % 5) as f64).collect());
    let right = Logged::new((0..size * size).map(|i| (i % 3) as f64).collect());
    let product = Logged::new(vec![0.0; size * size]);
    for_each(0, PARTS, 1, &|part| {
        let end = (part + 1) * size / PARTS + usize::from(race && part + 1 < PARTS);
        for row in part * size / PARTS..end {
            for column in 0..size {
                let sum = (0..size).map(|k| left.get(row * size + k) * right.get(k * size + column)).sum();
                product.set(row * size + column, sum);
            }
        }
    });
    product.get(size * size - 1) as u64
}
