//! The cost of passing a turn on, in the least program that does so: threads that loop over some private work and an
//! entry under a lock, which writes some lines of memory. No journal, no heaps: so no run can make its entries faster.
//!
//! turns PRIVATE LINES    prints, for each lock and 1, 2 and 4 threads, the nanoseconds from one entry to the next.
//! PRIVATE is the rounds of a loop outside the lock, LINES the 64-byte lines that an entry writes besides the lock's.

use std::env;
use std::hint::{black_box, spin_loop};
use std::sync::atomic::{AtomicBool, AtomicU64, Ordering};
use std::thread;
use std::time::{Duration, Instant};

const LINES: usize = 16;

/// A number that has two lines of memory for itself.
#[repr(align(128))]
struct Apart(AtomicU64);

impl Apart {
    const fn new() -> Apart {
        Apart(AtomicU64::new(0))
    }
}

struct Shared {
    word: Apart,
    ticket: Apart,
    serving: Apart,
    lines: [Apart; LINES],
    over: AtomicBool,
}

#[derive(Clone, Copy)]
enum Lock {
    /// As the program's: a look at the word, and then a try to set its last bit, with longer and longer pauses.
    Word,
    /// Whose ticket is served has the lock.
    Ticket,
}

fn pause(tries: u32) -> u32 {
    if tries < 7 {
        (0..1u32 << tries).for_each(|_| spin_loop());
        return tries + 1;
    }
    thread::yield_now();
    tries
}

fn take(shared: &Shared, lock: Lock) -> u64 {
    let mut tries = 0;
    match lock {
        Lock::Word => loop {
            let word = &shared.word.0;
            if word.load(Ordering::Acquire) % 2 == 0 && word.fetch_or(1, Ordering::AcqRel) % 2 == 0 {
                return 0;
            }
            tries = pause(tries);
        },
        Lock::Ticket => {
            let mine = shared.ticket.0.fetch_add(1, Ordering::AcqRel);
            while shared.serving.0.load(Ordering::Acquire) != mine {
                spin_loop();
            }
            mine
        }
    }
}

fn give(shared: &Shared, lock: Lock, mine: u64) {
    match lock {
        Lock::Word => {
            shared.word.0.fetch_add(1, Ordering::AcqRel);
        }
        Lock::Ticket => shared.serving.0.store(mine + 1, Ordering::Release),
    }
}

fn go_round(shared: &Shared, lock: Lock, private: u64, lines: usize) -> u64 {
    let mut entries = 0;
    while !shared.over.load(Ordering::Relaxed) {
        for round in 0..private {
            black_box(round);
        }
        let mine = take(shared, lock);
        for line in &shared.lines[..lines] {
            line.0.store(line.0.load(Ordering::Relaxed) + 1, Ordering::Relaxed);
        }
        give(shared, lock, mine);
        entries += 1;
    }
    entries
}

/// The nanoseconds from one entry to the next.
fn measure(threads: usize, lock: Lock, private: u64, lines: usize) -> f64 {
    let shared = Shared {
        word: Apart::new(),
        ticket: Apart::new(),
        serving: Apart::new(),
        lines: [const { Apart::new() }; LINES],
        over: AtomicBool::new(false),
    };
    let begun = Instant::now();
    let entries: u64 = thread::scope(|scope| {
        let workers: Vec<_> = (0..threads)
            .map(|_| scope.spawn(|| go_round(&shared, lock, private, lines)))
            .collect();
        thread::sleep(Duration::from_millis(400));
        shared.over.store(true, Ordering::Relaxed);
        workers.into_iter().map(|worker| worker.join().unwrap()).sum()
    });
    begun.elapsed().as_nanos() as f64 / entries as f64
}

fn main() {
    let words: Vec<u64> = env::args().skip(1).map(|word| word.parse().expect("a number")).collect();
    let (private, lines) = (words[0], (words[1] as usize).min(LINES));
    for (name, lock) in [("word", Lock::Word), ("ticket", Lock::Ticket)] {
        let costs: Vec<String> = [1, 2, 4]
            .map(|threads| (0..5).map(|_| measure(threads, lock, private, lines)).fold(f64::MAX, f64::min))
            .iter()
            .map(|cost| format!("{cost:.0}"))
            .collect();
        println!("{name} {}", costs.join(" "));
    }
}
