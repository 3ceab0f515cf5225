//! Merge sort. The race: one level merges into a scratch array that starts a place too early.

use crate::join;
use hhrec::Logged;

const GRAIN: usize = 256;
const RACING_LENGTH: usize = 1024;

struct Sort {
    numbers: Logged<u32>,
    scratch: Logged<u32>,
    race: bool,
}

impl Sort {
    fn merge(&self, from: usize, middle: usize, to: usize) {
        let shift = usize::from(self.race && to - from == RACING_LENGTH && from > 0);
        let (mut left, mut right) = (from, middle);
        for at in from..to {
            let is_left = right == to || left < middle && self.numbers.get(left) <= self.numbers.get(right);
            let next = if is_left { &mut left } else { &mut right };
            self.scratch.set(at - shift, self.numbers.get(*next));
            *next += 1;
        }
        for at in from..to {
            self.numbers.set(at, self.scratch.get(at - shift));
        }
    }

    fn sort(&self, from: usize, to: usize) {
        let middle = from.midpoint(to);
        if to - from < 2 {
            return;
        }
        if to - from <= GRAIN {
            self.sort(from, middle);
            self.sort(middle, to);
        } else {
            join(|| self.sort(from, middle), || self.sort(middle, to));
        }
        self.merge(from, middle, to);
    }
}

/// How many numbers stand wrong.
pub fn run(size: usize, race: bool) -> u64 {
    let mut x = 1u32;
    let next = |_| {
        x = x.wrapping_mul(1_664_525).wrapping_add(1_013_904_223);
        x >> 8
    };
    let sort = Sort { numbers: Logged::new((0..size).map(next).collect()), scratch: Logged::new(vec![0; size]), race };
    sort.sort(0, size);
    (1..size).filter(|&i| sort.numbers.get(i - 1) > sort.numbers.get(i)).count() as u64
}
