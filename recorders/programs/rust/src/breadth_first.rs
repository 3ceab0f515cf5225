//! Breadth-first search of a grid, level by level. A cell is claimed by an atomic replacement; the race: by a read and a
//! write.

use crate::for_each;
use hhrec::Logged;

const GRAIN: usize = 64;
const UNSEEN: u32 = u32::MAX;

struct Search {
    width: usize,
    distances: Logged<u32>,
    frontier: [Logged<usize>; 2],
    counts: Logged<usize>,
    race: bool,
}

impl Search {
    fn claim(&self, cell: usize, level: u32) -> bool {
        if !self.race {
            return self.distances.replace(cell, UNSEEN, level);
        }
        let is_unseen = self.distances.get(cell) == UNSEEN;
        if is_unseen {
            self.distances.set(cell, level);
        }
        is_unseen
    }

    fn visit(&self, cell: usize, level: u32) {
        let side = level as usize % 2;
        if self.claim(cell, level) {
            let at = self.counts.update(side, |count| count + 1);
            self.frontier[side].set(at, cell);
        }
    }

    fn visit_neighbours(&self, cell: usize, level: u32) {
        let (row, column, width) = (cell / self.width, cell % self.width, self.width);
        if row > 0 {
            self.visit(cell - width, level);
        }
        if row + 1 < width {
            self.visit(cell + width, level);
        }
        if column > 0 {
            self.visit(cell - 1, level);
        }
        if column + 1 < width {
            self.visit(cell + 1, level);
        }
    }
}

/// How many levels there are.
pub fn run(width: usize, race: bool) -> u64 {
    let cells = width * width;
    let frontier = [Logged::new(vec![0; 4 * cells]), Logged::new(vec![0; 4 * cells])];
    let search = Search { width, distances: Logged::new(vec![UNSEEN; cells]), frontier, counts: Logged::new(vec![1, 0]), race };
    let middle = cells / 2 + width / 2;
    search.distances.set(middle, 0);
    search.frontier[0].set(0, middle);
    let mut level = 0;
    loop {
        let cells = &search.frontier[level as usize % 2];
        let count = search.counts.get(level as usize % 2);
        if count == 0 {
            return level.into();
        }
        level += 1;
        search.counts.set(level as usize % 2, 0);
        for_each(0, count, GRAIN, &|i| search.visit_neighbours(cells.get(i), level));
    }
}
