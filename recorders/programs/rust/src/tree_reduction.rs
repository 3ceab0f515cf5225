//! The sum of a tree's leaves, kept in its nodes: node n has the children 2n and 2n + 1. The race: one node's right half
//! reads the left half's sum.

use crate::join;
use hhrec::Logged;

const GRAIN: usize = 5;
const RACING_NODE: usize = 512;

fn add_up(sums: &Logged<u64>, node: usize, depth: usize, race: bool) {
    if depth == 0 {
        return;
    }
    let left = || add_up(sums, 2 * node, depth - 1, race);
    let right = || {
        if race && node == RACING_NODE && sums.get(2 * node) == 1 {
            println!("the left half is done");
        }
        add_up(sums, 2 * node + 1, depth - 1, race);
    };
    if depth <= GRAIN {
        left();
        right();
    } else {
        join(left, right);
    }
    sums.set(node, sums.get(2 * node) + sums.get(2 * node + 1));
}

/// The sum of all leaves.
pub fn run(depth: usize, race: bool) -> u64 {
    let leaves = 1 << depth;
    let sums = Logged::new((0..2 * leaves).map(|node| if node < leaves { 0 } else { node as u64 }).collect());
    add_up(&sums, 1, depth, race);
    sums.get(1)
}
