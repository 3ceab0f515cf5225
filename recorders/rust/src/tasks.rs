//! Tasks, their strands, and which of them each thread works on.

use crate::buffer::Buffer;
use std::cell::Cell;
use std::path::PathBuf;
use std::sync::atomic::{AtomicBool, AtomicU32, AtomicUsize, Ordering::Relaxed};
use std::sync::Mutex;

/// How two closures are run that may run at once: what [`join_by`] calls.
pub trait Join {
    /// Runs both, and returns when both have returned.
    fn both<A, B, RA, RB>(a: A, b: B) -> (RA, RB)
    where
        A: FnOnce() -> RA + Send,
        B: FnOnce() -> RB + Send,
        RA: Send,
        RB: Send;
}

/// By a thread for the second closure, as long as few threads live; else one after the other.
pub struct Threads;

const MOST_THREADS: usize = 16;
static LIVE_THREADS: AtomicUsize = AtomicUsize::new(0);

/// One of the threads that live.
struct Live;

impl Live {
    fn one_more() -> Option<Live> {
        let live = Live;
        (LIVE_THREADS.fetch_add(1, Relaxed) < MOST_THREADS).then_some(live)
    }
}

impl Drop for Live {
    fn drop(&mut self) {
        LIVE_THREADS.fetch_sub(1, Relaxed);
    }
}

impl Join for Threads {
    fn both<A, B, RA, RB>(a: A, b: B) -> (RA, RB)
    where
        A: FnOnce() -> RA + Send,
        B: FnOnce() -> RB + Send,
        RA: Send,
        RB: Send,
    {
        let Some(_live) = Live::one_more() else {
            let first = a();
            return (first, b());
        };
        std::thread::scope(|scope| {
            let other = scope.spawn(b);
            let first = a();
            (first, other.join().unwrap_or_else(|panic| std::panic::resume_unwind(panic)))
        })
    }
}

/// A task's number, and how many spawns and joins it has made.
#[derive(Clone, Copy)]
struct Strand {
    task: u32,
    index: u32,
}

/// A buffer, which the thread that holds it alone uses.
struct Held(*mut Buffer);

// SAFETY: a buffer is in one thread's hands, in the list of unused ones, or, when no task runs any more, in `record`'s.
unsafe impl Send for Held {}

struct Files {
    prefix: PathBuf,
    all: Vec<Held>,
    unused: Vec<Held>,
}

static FILES: Mutex<Files> = Mutex::new(Files { prefix: PathBuf::new(), all: Vec::new(), unused: Vec::new() });
static NEXT_TASK: AtomicU32 = AtomicU32::new(1);
static HAS_RECORDED: AtomicBool = AtomicBool::new(false);

/// A thread's buffer, which another thread may have when this one has ended.
struct Mine(Cell<*mut Buffer>);

impl Drop for Mine {
    fn drop(&mut self) {
        if !self.0.get().is_null() {
            files(|files| files.unused.push(Held(self.0.get())));
        }
    }
}

thread_local! {
    static STRAND: Cell<Option<Strand>> = const { Cell::new(None) };
    static BUFFER: Mine = const { Mine(Cell::new(std::ptr::null_mut())) };
}

fn files<R>(with: impl FnOnce(&mut Files) -> R) -> R {
    with(&mut FILES.lock().unwrap_or_else(|poisoned| poisoned.into_inner()))
}

fn file_name(prefix: &std::path::Path, number: usize) -> PathBuf {
    let mut name = prefix.as_os_str().to_owned();
    name.push(format!(".{number}"));
    name.into()
}

/// A buffer that no thread has, or a new one.
fn take_buffer() -> *mut Buffer {
    files(|files| match files.unused.pop() {
        Some(held) => held.0,
        None => {
            let new = Box::into_raw(Box::new(Buffer::create(&file_name(&files.prefix, files.all.len()))));
            files.all.push(Held(new));
            new
        }
    })
}

/// Calls with this thread's buffer, if it works on a task.
#[inline]
pub(crate) fn log(with: impl FnOnce(&mut Buffer)) {
    if cfg!(hhrec_off) || STRAND.get().is_none() {
        return;
    }
    BUFFER.with(|mine| {
        if mine.0.get().is_null() {
            mine.0.set(take_buffer());
        }
        // SAFETY: this thread holds the buffer, and no call of it calls back.
        with(unsafe { &mut *mine.0.get() });
    });
}

/// This thread goes on with a strand.
fn resume(strand: Strand) {
    STRAND.set(Some(strand));
    log(|buffer| buffer.put_line(b's', &[strand.task.into(), strand.index.into()]));
}

/// Ends what this thread's task was when dropped, also by a panic: back to what it did before.
struct Running {
    before: Option<Strand>,
}

impl Running {
    fn start(task: u32) -> Running {
        log(Buffer::settle);
        let before = STRAND.get();
        resume(Strand { task, index: 0 });
        Running { before }
    }
}

impl Drop for Running {
    fn drop(&mut self) {
        log(|buffer| buffer.put_line(b'.', &[]));
        STRAND.set(self.before);
    }
}

/// Closes all files when dropped: no task runs any more.
struct Recording;

impl Drop for Recording {
    fn drop(&mut self) {
        files(|files| {
            for held in &files.all {
                // SAFETY: all tasks were joined, so no thread uses its buffer.
                unsafe { &mut *held.0 }.close();
            }
        });
    }
}

/// Runs a program as the root task, and records it in files `hhrec.0`, `hhrec.1`, ..; `HHREC` can replace `hhrec`.
///
/// # Panics
/// If it is called a second time in a process, or a file can't be made.
pub fn record<R>(program: impl FnOnce() -> R) -> R {
    if cfg!(hhrec_off) {
        return program();
    }
    assert!(!HAS_RECORDED.swap(true, Relaxed), "a process is recorded once");
    files(|files| {
        files.prefix = std::env::var_os("HHREC").filter(|name| !name.is_empty()).unwrap_or("hhrec".into()).into();
        // (an earlier run may have had more threads)
        let _ = (0..).take_while(|&number| std::fs::remove_file(file_name(&files.prefix, number)).is_ok()).count();
    });
    let _recording = Recording;
    let _root = Running::start(0);
    program()
}

/// Writes the joins of two children when dropped, also where one of them panicked.
struct Forked {
    strand: Strand,
    children: [u32; 2],
}

impl Forked {
    fn new(strand: Strand) -> Forked {
        let first = NEXT_TASK.fetch_add(2, Relaxed);
        let children = [first, first + 1];
        for child in children {
            log(|buffer| buffer.put_line(b'+', &[child.into()]));
        }
        Forked { strand, children }
    }
}

impl Drop for Forked {
    fn drop(&mut self) {
        let Strand { task, index } = self.strand;
        resume(Strand { task, index: index + 2 });
        for child in self.children.into_iter().rev() {
            log(|buffer| buffer.put_line(b'-', &[child.into()]));
        }
        STRAND.set(Some(Strand { task, index: index + 4 }));
    }
}

/// Runs two closures, at once if possible, as two tasks that are joined before it returns.
pub fn join_by<J, A, B, RA, RB>(a: A, b: B) -> (RA, RB)
where
    J: Join,
    A: FnOnce() -> RA + Send,
    B: FnOnce() -> RB + Send,
    RA: Send,
    RB: Send,
{
    let strand = match STRAND.get() {
        Some(strand) if !cfg!(hhrec_off) => strand,
        _ => return J::both(a, b),
    };
    let forked = Forked::new(strand);
    let [left, right] = forked.children;
    J::both(move || run(left, a), move || run(right, b))
}

fn run<R>(task: u32, body: impl FnOnce() -> R) -> R {
    let _running = Running::start(task);
    body()
}

/// [`join_by`] threads of the standard library.
pub fn join<A, B, RA, RB>(a: A, b: B) -> (RA, RB)
where
    A: FnOnce() -> RA + Send,
    B: FnOnce() -> RB + Send,
    RA: Send,
    RB: Send,
{
    join_by::<Threads, A, B, RA, RB>(a, b)
}

/// Reports that the running task did `units` of work besides its accesses, which count one each.
pub fn work(units: u64) {
    log(|buffer| buffer.put_line(b'k', &[units]));
}
