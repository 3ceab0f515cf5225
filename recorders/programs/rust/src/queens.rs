//! Ways to place queens on a board, in tasks for the first rows. The race: tasks of two columns of the third row use one board.

use crate::join;
use hhrec::Logged;

const TASK_ROWS: usize = 3;

struct Queens {
    size: usize,
    race: bool,
}

fn copy(board: &Logged<usize>) -> Logged<usize> {
    Logged::new((0..board.len()).map(|row| board.get(row)).collect())
}

impl Queens {
    fn is_free(&self, board: &Logged<usize>, row: usize, column: usize) -> bool {
        (0..row).all(|other| {
            let place = board.get(other);
            place != column && place.abs_diff(column) != row - other
        })
    }

    /// The ways with the row's queen in some columns.
    fn in_columns(&self, board: &Logged<usize>, row: usize, from: usize, to: usize) -> u64 {
        if to - from > 1 && row < TASK_ROWS {
            let middle = from.midpoint(to);
            let both = |left: &Logged<usize>, right: &Logged<usize>| {
                let (a, b) = join(|| self.in_columns(left, row, from, middle), || self.in_columns(right, row, middle, to));
                a + b
            };
            return if self.race && row == 2 && to - from == 2 {
                both(board, board)
            } else {
                both(&copy(board), &copy(board))
            };
        }
        let mut ways = 0;
        for column in (from..to).filter(|&column| self.is_free(board, row, column)) {
            board.set(row, column);
            ways += self.from_row(board, row + 1);
        }
        ways
    }

    fn from_row(&self, board: &Logged<usize>, row: usize) -> u64 {
        if row == self.size { 1 } else { self.in_columns(board, row, 0, self.size) }
    }
}

/// How many ways there are.
pub fn run(size: usize, race: bool) -> u64 {
    Queens { size, race }.from_row(&Logged::new(vec![0; size]), 0)
}
