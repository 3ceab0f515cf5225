//! Lines of a log. A strand is a set of accesses: one that an open run has is dropped, and those of one site in equal steps
//! are one line.

use crate::mapped::MappedFile;
use std::collections::HashMap;
use std::panic::Location;
use std::path::Path;
use std::sync::Mutex;

const RUNS: usize = 64;
const KNOWN_SITES: usize = 256;
const MOST_LOCATIONS: u64 = 1 << 28;

/// What an access does.
#[derive(Clone, Copy, PartialEq)]
pub enum Kind {
    Read,
    Write,
    AtomicRead,
    AtomicWrite,
}

impl Kind {
    fn letter(self) -> u8 {
        match self {
            Kind::Read => b'r',
            Kind::Write => b'w',
            Kind::AtomicRead => b'R',
            Kind::AtomicWrite => b'W',
        }
    }
}

type Site = &'static Location<'static>;

/// All places of the program that accessed something, by file, line and column, with their numbers.
static SITES: Mutex<Option<HashMap<(&str, u32, u32), u32>>> = Mutex::new(None);

/// `count` accesses, `step` apart from `offset` on.
#[derive(Clone, Copy)]
struct Run {
    kind: Kind,
    site: u32,
    block: u32,
    offset: u64,
    count: u64,
    step: u64,
}

impl Run {
    /// Whether the run has an access, or could be made to have it.
    fn extend(&mut self, offset: u64) -> bool {
        if self.count == 1 {
            return self.extend_single(offset);
        }
        let end = self.offset + self.count * self.step;
        if offset >= self.offset && offset < end {
            return (offset - self.offset) % self.step == 0;
        }
        if self.count == MOST_LOCATIONS || !(offset == end || offset + self.step == self.offset) {
            return false;
        }
        self.offset = self.offset.min(offset);
        self.count += 1;
        true
    }

    /// A second access gives the step, forwards or backwards.
    fn extend_single(&mut self, offset: u64) -> bool {
        if offset != self.offset {
            self.step = offset.abs_diff(self.offset);
            self.offset = self.offset.min(offset);
            self.count = 2;
        }
        true
    }
}

/// The file of a thread, with the runs that aren't written yet.
pub struct Buffer {
    file: MappedFile,
    runs: [Option<Run>; RUNS],
    known_sites: [(usize, u32); KNOWN_SITES],
    accesses: u64,
    line: Vec<u8>,
}

impl Buffer {
    /// A new log file.
    ///
    /// # Panics
    /// If the file can't be made.
    pub fn create(path: &Path) -> Buffer {
        let mut file = MappedFile::create(path).unwrap_or_else(|error| panic!("{}: {error}", path.display()));
        file.put(b"hhlog 1\n");
        Buffer { file, runs: [None; RUNS], known_sites: [(0, 0); KNOWN_SITES], accesses: 0, line: Vec::with_capacity(160) }
    }

    /// A line that isn't an access; those that came before it are written first.
    pub fn put_line(&mut self, letter: u8, numbers: &[u64]) {
        self.settle();
        self.start_line(letter, numbers);
        self.finish_line();
    }

    /// The same with a site, for the unordered acts of a strand.
    pub fn put_line_at(&mut self, letter: u8, numbers: &[u64], site: Site) {
        let site = self.site(site);
        self.accesses += 1;
        self.start_line(letter, numbers);
        self.put_site(site);
        self.finish_line();
    }

    /// An access.
    #[inline]
    pub fn access(&mut self, kind: Kind, block: u32, offset: u64, site: Site) {
        self.accesses += 1;
        let site = self.site(site);
        let at = site as usize % RUNS;
        if let Some(run) = &mut self.runs[at] {
            if run.kind == kind && run.block == block && run.site == site && run.extend(offset) {
                return;
            }
            let run = *run;
            self.put_run(run);
        }
        self.runs[at] = Some(Run { kind, site, block, offset, count: 1, step: 1 });
    }

    /// Writes the open runs, and the accesses since the last time as work.
    pub fn settle(&mut self) {
        if self.accesses == 0 {
            return;
        }
        for at in 0..RUNS {
            if let Some(run) = self.runs[at].take() {
                self.put_run(run);
            }
        }
        let accesses = std::mem::take(&mut self.accesses);
        self.start_line(b'k', &[accesses]);
        self.finish_line();
    }

    /// The log file is whole.
    pub fn close(&mut self) {
        self.settle();
        self.file.put(b"end\n");
        self.file.close();
    }

    fn put_run(&mut self, run: Run) {
        let (block, offset) = (u64::from(run.block), run.offset);
        let letter = run.kind.letter();
        match (run.count, run.step) {
            (1, _) => self.start_line(letter, &[block, offset]),
            (count, 1) => self.start_line(letter, &[block, offset, count]),
            (count, step) => self.start_line(letter, &[block, offset, 1, count, step]),
        }
        self.put_site(run.site);
        self.finish_line();
    }

    fn start_line(&mut self, letter: u8, numbers: &[u64]) {
        self.line.push(letter);
        for &number in numbers {
            self.line.push(b' ');
            self.put_number(number);
        }
    }

    fn put_site(&mut self, site: u32) {
        self.line.extend_from_slice(b" @");
        self.put_number(u64::from(site));
    }

    fn finish_line(&mut self) {
        self.line.push(b'\n');
        self.file.put(&self.line);
        self.line.clear();
    }

    fn put_number(&mut self, mut number: u64) {
        let mut digits = [0; 20];
        let mut from = digits.len();
        loop {
            from -= 1;
            digits[from] = b'0' + (number % 10) as u8;
            number /= 10;
            if number == 0 {
                break;
            }
        }
        self.line.extend_from_slice(&digits[from..]);
    }

    /// A site's number.
    #[inline]
    fn site(&mut self, site: Site) -> u32 {
        let address = std::ptr::from_ref(site) as usize;
        let at = (address >> 3) % KNOWN_SITES;
        let (known, number) = self.known_sites[at];
        if known == address {
            return number;
        }
        let number = self.find_site(site);
        self.known_sites[at] = (address, number);
        number
    }

    /// Finds a site among those of all threads; a new one is named in this log.
    #[cold]
    fn find_site(&mut self, site: Site) -> u32 {
        let mut sites = SITES.lock().unwrap_or_else(|poisoned| poisoned.into_inner());
        let sites = sites.get_or_insert_with(HashMap::new);
        let next = sites.len() as u32 + 1;
        let number = *sites.entry((site.file(), site.line(), site.column())).or_insert(next);
        if number == next {
            self.file.put(format!("@ {number} {site}\n").as_bytes());
        }
        number
    }
}
