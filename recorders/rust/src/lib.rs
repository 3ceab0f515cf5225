//! Records what a fork-join program does to memory that its tasks share, as a log that a checker of races reads.
//!
//! [`record`] runs a program, [`join`] forks and joins two tasks, [`Logged`] is an array that tasks share, and [`Block`]
//! represents the program's own memory. Each thread writes one file; nothing is shared while recording but counters.
//! Built with `--cfg hhrec_off` nothing is recorded, and the calls cost nothing.
//!
//! ```
//! let squares = hhrec::Logged::new(vec![0u64; 1000]);
//! let fill = |from: usize, to: usize| (from..to).for_each(|i| squares.set(i, (i * i) as u64));
//! hhrec::record(|| hhrec::join(|| fill(0, 500), || fill(500, 1000)));
//! ```

mod block;
mod buffer;
mod logged;
mod mapped;
mod tasks;

pub use block::Block;
pub use logged::{Logged, Word};
pub use tasks::{join, join_by, record, work, Join, Threads};
