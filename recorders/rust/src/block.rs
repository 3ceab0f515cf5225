//! What stands for a piece of memory in a log.

use crate::buffer::Kind;
use crate::tasks::log;
use std::panic::Location;
use std::sync::atomic::{AtomicU32, Ordering::Relaxed};

static NEXT_BLOCK: AtomicU32 = AtomicU32::new(1);

/// A block of numbered locations: its calls say what the program does to its own memory, and touch none themselves.
#[derive(Clone, Copy, PartialEq, Eq, Debug)]
pub struct Block(u32);

impl Block {
    /// The birth of a block of `length` locations. If it is made outside of a recording, it was there before.
    #[must_use]
    pub fn new(length: usize) -> Block {
        let block = NEXT_BLOCK.fetch_add(1, Relaxed);
        log(|buffer| buffer.put_line(b'a', &[block.into(), length as u64]));
        Block(block)
    }

    /// A plain read of a location.
    #[track_caller]
    #[inline]
    pub fn read(self, index: usize) {
        self.access(Kind::Read, index, Location::caller());
    }

    /// A plain write of a location.
    #[track_caller]
    #[inline]
    pub fn write(self, index: usize) {
        self.access(Kind::Write, index, Location::caller());
    }

    /// An atomic read of a location.
    #[track_caller]
    #[inline]
    pub fn load(self, index: usize) {
        self.access(Kind::AtomicRead, index, Location::caller());
    }

    /// An atomic write of a location, or an update that wrote.
    #[track_caller]
    #[inline]
    pub fn update(self, index: usize) {
        self.access(Kind::AtomicWrite, index, Location::caller());
    }

    /// A plain read of a location, which yielded a reference to a block, or none.
    #[track_caller]
    pub fn read_reference(self, index: usize, target: Option<Block>) {
        self.reference(b'g', index, target, Location::caller());
    }

    /// A plain write of a reference to a location.
    #[track_caller]
    pub fn write_reference(self, index: usize, target: Option<Block>) {
        self.reference(b'p', index, target, Location::caller());
    }

    /// The block's end: it counts as a write of each location that was accessed.
    pub fn release(self) {
        log(|buffer| buffer.put_line(b'f', &[self.0.into()]));
    }

    pub(crate) fn note_replaced(self, index: usize, is_replaced: bool, site: &'static Location<'static>) {
        self.access(if is_replaced { Kind::AtomicWrite } else { Kind::AtomicRead }, index, site);
    }

    #[inline]
    fn access(self, kind: Kind, index: usize, site: &'static Location<'static>) {
        log(|buffer| buffer.access(kind, self.0, index as u64, site));
    }

    fn reference(self, letter: u8, index: usize, target: Option<Block>, site: &'static Location<'static>) {
        let target = target.map_or(0, |block| block.0);
        log(|buffer| buffer.put_line_at(letter, &[self.0.into(), index as u64, target.into()], site));
    }
}
