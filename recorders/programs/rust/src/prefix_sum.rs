//! Prefix sums: sums of parts, their offsets, then each part. The race: one part is a place too long.

use crate::for_each;
use hhrec::Logged;

const PARTS: usize = 8;

/// The last prefix sum.
pub fn run(size: usize, race: bool) -> u64 {
    let numbers = Logged::new((0..size as u64).map(|i| i % 7).collect());
    let sums = Logged::new(vec![0u64; size]);
    let offsets = Logged::new(vec![0u64; PARTS + 1]);
    let start = |part: usize| part * size / PARTS;
    for_each(0, PARTS, 1, &|part| {
        let sum = (start(part)..start(part + 1)).map(|i| numbers.get(i)).sum();
        offsets.set(part + 1, sum);
    });
    for part in 0..PARTS {
        offsets.set(part + 1, offsets.get(part) + offsets.get(part + 1));
    }
    for_each(0, PARTS, 1, &|part| {
        let mut sum = offsets.get(part);
        for i in start(part)..start(part + 1) + usize::from(race && part == 1) {
            sum += numbers.get(i);
            sums.set(i, sum);
        }
    });
    sums.get(size - 1)
}
