//! An array that tasks share, each access of which is recorded.

use crate::Block;
use std::panic::Location;
use std::sync::atomic::{AtomicU64, Ordering::Relaxed};

/// What fits in a machine word, so that an array of it can be shared.
pub trait Word: Copy {
    fn to_bits(self) -> u64;
    fn from_bits(bits: u64) -> Self;
}

macro_rules! words {
    ($($number:ty),*) => {$(
        impl Word for $number {
            #[inline]
            fn to_bits(self) -> u64 {
                self as u64
            }
            #[inline]
            fn from_bits(bits: u64) -> $number {
                bits as $number
            }
        }
    )*};
}
words!(u8, u16, u32, u64, usize, i8, i16, i32, i64, isize);

impl Word for bool {
    fn to_bits(self) -> u64 {
        self.into()
    }
    fn from_bits(bits: u64) -> bool {
        bits != 0
    }
}

impl Word for f64 {
    fn to_bits(self) -> u64 {
        self.to_bits()
    }
    fn from_bits(bits: u64) -> f64 {
        f64::from_bits(bits)
    }
}

/// An array of numbers that several tasks may read and write at once. Its accesses are recorded as plain ones; they are
/// atomic, so that a race isn't undefined behaviour: a checker's report is its only result.
pub struct Logged<T> {
    block: Block,
    cells: Box<[AtomicU64]>,
    of: std::marker::PhantomData<T>,
}

// SAFETY: the cells are shared by atomic accesses alone, and a word is copied.
unsafe impl<T: Word> Sync for Logged<T> {}
// SAFETY: as above.
unsafe impl<T: Word> Send for Logged<T> {}

impl<T: Word> Logged<T> {
    /// The birth of an array.
    #[must_use]
    pub fn new(values: Vec<T>) -> Logged<T> {
        let block = Block::new(values.len());
        let cells = values.into_iter().map(|value| AtomicU64::new(value.to_bits())).collect();
        Logged { block, cells, of: std::marker::PhantomData }
    }

    #[must_use]
    pub fn len(&self) -> usize {
        self.cells.len()
    }

    #[must_use]
    pub fn is_empty(&self) -> bool {
        self.cells.is_empty()
    }

    /// A plain read.
    ///
    /// # Panics
    /// As an index does.
    #[track_caller]
    #[inline]
    #[must_use]
    pub fn get(&self, index: usize) -> T {
        self.block.read(index);
        T::from_bits(self.cells[index].load(Relaxed))
    }

    /// A plain write.
    ///
    /// # Panics
    /// As an index does.
    #[track_caller]
    #[inline]
    pub fn set(&self, index: usize, value: T) {
        self.block.write(index);
        self.cells[index].store(value.to_bits(), Relaxed);
    }

    /// An atomic read.
    ///
    /// # Panics
    /// As an index does.
    #[track_caller]
    #[inline]
    #[must_use]
    pub fn load(&self, index: usize) -> T {
        self.block.load(index);
        T::from_bits(self.cells[index].load(Relaxed))
    }

    /// An atomic update; what was there before.
    ///
    /// # Panics
    /// As an index does.
    #[track_caller]
    #[inline]
    pub fn update(&self, index: usize, mut change: impl FnMut(T) -> T) -> T {
        self.block.update(index);
        let cell = &self.cells[index];
        let mut old = cell.load(Relaxed);
        while let Err(now) = cell.compare_exchange_weak(old, change(T::from_bits(old)).to_bits(), Relaxed, Relaxed) {
            old = now;
        }
        T::from_bits(old)
    }

    /// Replaces `old` by `new` if it is there; returns whether it was. An atomic write if so, else an atomic read.
    ///
    /// # Panics
    /// As an index does.
    #[track_caller]
    #[inline]
    pub fn replace(&self, index: usize, old: T, new: T) -> bool {
        let caller = Location::caller();
        let is_replaced = self.cells[index].compare_exchange(old.to_bits(), new.to_bits(), Relaxed, Relaxed).is_ok();
        self.block.note_replaced(index, is_replaced, caller);
        is_replaced
    }
}

impl<T> Drop for Logged<T> {
    fn drop(&mut self) {
        self.block.release();
    }
}
