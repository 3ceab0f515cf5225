//! An unverified checker of logs of fork-join programs, to compare with: the algorithm of `hhlog check`, in one thread.
//!
//! `peer check FILE.. [--all]` reads a log (docs/LOGS.md has the format), one file a thread, and reports its determinacy
//! races, entangled reads and uses, uses after release, work and span. Build it by `rustc -O --edition 2021 peer.rs`.
//!
//! The first pass checks each line, links the pieces of each strand, and finds the greatest unit by which each page of a
//! block is accessed. A walk then puts the strands in serial order. The second pass reads the strands in that order; each
//! unit of locations keeps the accesses that no later access of their kind comes after.

use std::collections::HashMap;
use std::fmt::Write as _;
use std::hash::{BuildHasherDefault, Hasher};
use std::io::Write as _;
use std::process::ExitCode;

const NONE: u32 = u32::MAX;
const PAGE_BITS: u32 = 12;
const PAGE: u64 = 1 << PAGE_BITS;

// LINES

/// Why a line or a task is refused.
#[derive(Clone, Copy, PartialEq, Eq, Debug)]
enum Cause {
    Version,
    Number,
    Word,
    Count,
    Overlap,
    Limit,
    Closed,
    Ended,
    AfterEnd,
    SpawnedTwice,
    BornTwice,
    ReleasedTwice,
    JoinsNoChild,
    Unended,
    Unjoined,
    Unreached,
}

impl Cause {
    fn text(self) -> &'static str {
        match self {
            Cause::Version => "version",
            Cause::Number => "number",
            Cause::Word => "word",
            Cause::Count => "count",
            Cause::Overlap => "overlap",
            Cause::Limit => "limit",
            Cause::Closed => "closed",
            Cause::Ended => "ended",
            Cause::AfterEnd => "after-end",
            Cause::SpawnedTwice => "spawned-twice",
            Cause::BornTwice => "born-twice",
            Cause::ReleasedTwice => "released-twice",
            Cause::JoinsNoChild => "joins-no-child",
            Cause::Unended => "unended",
            Cause::Unjoined => "unjoined",
            Cause::Unreached => "unreached",
        }
    }
}

#[derive(Clone, Copy, PartialEq, Eq, PartialOrd, Ord, Debug)]
enum Kind {
    Read,
    Write,
    AtomicRead,
    AtomicWrite,
}

/// `runs` runs of `length` locations each, `stride` apart, from `offset` of `block` on.
#[derive(Clone, Copy)]
struct Place {
    block: u64,
    offset: u64,
    length: u64,
    runs: u64,
    stride: u64,
}

#[derive(Clone, Copy)]
enum Line {
    Access { kind: Kind, place: Place, site: Option<u64> },
    Yield { place: Place, yielded: u64, site: Option<u64> },
    Store { place: Place, site: Option<u64> },
    Birth { block: u64 },
    Release { block: u64 },
    Work(u64),
    Strand { task: u32, index: u32 },
    Spawn(u32),
    Join(u32),
    EndOfTask,
    Name { site: u64, start: usize },
    Comment,
    End,
}

/// A place in bytes that end with a line feed.
struct Cursor<'a> {
    bytes: &'a [u8],
    at: usize,
}

impl Cursor<'_> {
    fn peek(&self) -> u8 {
        self.bytes[self.at]
    }

    /// Goes to the start of the next line.
    fn skip_line(&mut self) {
        while self.peek() != b'\n' {
            self.at += 1;
        }
        self.at += 1;
    }

    /// A decimal number below 10^18, without leading zeros.
    #[inline]
    fn number(&mut self) -> Result<u64, Cause> {
        let start = self.at;
        let mut value = 0u64;
        while self.peek().is_ascii_digit() && self.at - start < 18 {
            value = value * 10 + u64::from(self.peek() - b'0');
            self.at += 1;
        }
        let digits = self.at - start;
        let padded = digits > 1 && self.bytes[start] == b'0';
        let next = self.peek();
        if digits == 0 || padded || !(next == b' ' || next == b'\n') {
            return Err(Cause::Number);
        }
        Ok(value)
    }

    /// A space and a number.
    #[inline]
    fn word(&mut self) -> Result<u64, Cause> {
        if self.peek() != b' ' {
            return Err(Cause::Count);
        }
        self.at += 1;
        self.number()
    }

    /// A space and a number below `bound`.
    fn word_below(&mut self, bound: u64) -> Result<u64, Cause> {
        let value = self.word()?;
        if value < bound { Ok(value) } else { Err(Cause::Limit) }
    }

    /// The line's end.
    #[inline]
    fn finish(&mut self) -> Result<(), Cause> {
        if self.peek() != b'\n' {
            return Err(Cause::Count);
        }
        self.at += 1;
        Ok(())
    }

    /// Whether a number follows, and not a site or the line's end.
    #[inline]
    fn has_number(&self) -> bool {
        self.peek() == b' ' && self.bytes[self.at + 1] != b'@'
    }

    #[inline]
    fn site(&mut self) -> Result<Option<u64>, Cause> {
        if self.peek() != b' ' || self.bytes[self.at + 1] != b'@' {
            return Ok(None);
        }
        self.at += 2;
        self.number().map(Some)
    }

    #[inline]
    fn place(&mut self) -> Result<Place, Cause> {
        let (block, offset) = (self.word()?, self.word()?);
        let mut place = Place { block, offset, length: 1, runs: 1, stride: 1 };
        if self.has_number() {
            place.length = self.word()?;
            place.stride = place.length;
            if self.has_number() {
                place.runs = self.word()?;
                place.stride = self.word()?;
            }
        }
        place.check()?;
        Ok(place)
    }

    fn access(&mut self, kind: Kind) -> Result<Line, Cause> {
        let place = self.place()?;
        let site = self.site()?;
        self.finish()?;
        Ok(Line::Access { kind, place, site })
    }

    /// A read that yields a reference, or a write of one.
    fn reference(&mut self, yields: bool) -> Result<Line, Cause> {
        let (block, offset, target) = (self.word()?, self.word()?, self.word()?);
        let place = Place { block, offset, length: 1, runs: 1, stride: 1 };
        place.check()?;
        let site = self.site()?;
        self.finish()?;
        Ok(if yields { Line::Yield { place, yielded: target, site } } else { Line::Store { place, site } })
    }

    fn spawn_or_join(&mut self) -> Result<u32, Cause> {
        let task = self.word_below(1 << 32)?;
        self.finish()?;
        Ok(task as u32)
    }

    /// A line whose first word isn't an access.
    fn other(&mut self, first: u8) -> Result<Line, Cause> {
        match first {
            b'a' => {
                let block = self.word()?;
                self.word()?;
                self.finish()?;
                Ok(Line::Birth { block })
            }
            b'f' => {
                let block = self.word()?;
                self.finish()?;
                Ok(Line::Release { block })
            }
            b'k' => {
                let units = self.word()?;
                self.finish()?;
                Ok(Line::Work(units))
            }
            b's' => {
                let task = self.word_below(1 << 32)? as u32;
                let index = self.word_below(1 << 31)? as u32;
                self.finish()?;
                Ok(Line::Strand { task, index })
            }
            b'+' => self.spawn_or_join().map(Line::Spawn),
            b'-' => self.spawn_or_join().map(Line::Join),
            b'.' => self.finish().map(|()| Line::EndOfTask),
            b'@' => {
                let site = self.word()?;
                if self.peek() != b' ' {
                    return Err(Cause::Count);
                }
                let start = self.at + 1;
                self.skip_line();
                Ok(Line::Name { site, start })
            }
            _ => Err(Cause::Word),
        }
    }

    /// Reads a line; the cursor then stands at the next one, unless the line is refused.
    #[inline]
    fn line(&mut self) -> Result<Line, Cause> {
        let first = self.peek();
        if first == b'\n' || first == b'#' {
            self.skip_line();
            return Ok(Line::Comment);
        }
        if self.bytes[self.at..].starts_with(b"end\n") {
            self.at += 4;
            return Ok(Line::End);
        }
        self.at += 1;
        if !matches!(self.peek(), b' ' | b'\n') {
            return Err(Cause::Word);
        }
        match first {
            b'r' => self.access(Kind::Read),
            b'w' => self.access(Kind::Write),
            b'R' => self.access(Kind::AtomicRead),
            b'W' => self.access(Kind::AtomicWrite),
            b'g' => self.reference(true),
            b'p' => self.reference(false),
            _ => self.other(first),
        }
    }
}

impl Place {
    fn check(&self) -> Result<(), Cause> {
        let locations = u128::from(self.length) * u128::from(self.runs);
        if locations == 0 || locations > 1 << 28 {
            return Err(Cause::Limit);
        }
        let end = u128::from(self.offset) + u128::from(self.runs - 1) * u128::from(self.stride) + u128::from(self.length);
        if end > 1 << 60 {
            return Err(Cause::Limit);
        }
        if self.stride < self.length { Err(Cause::Overlap) } else { Ok(()) }
    }
}

// TABLES

#[derive(Default)]
struct Mixer(u64);

impl Hasher for Mixer {
    fn finish(&self) -> u64 {
        self.0 ^ self.0 >> 29
    }
    fn write(&mut self, _: &[u8]) {
        unreachable!("only numbers are hashed")
    }
    fn write_u32(&mut self, n: u32) {
        self.write_u64(u64::from(n))
    }
    fn write_u64(&mut self, n: u64) {
        self.0 = (self.0.rotate_left(23) ^ n).wrapping_mul(0x9E37_79B9_7F4A_7C15);
    }
}

type Map<K, V> = HashMap<K, V, BuildHasherDefault<Mixer>>;

/// What ends a strand; `Open` if its last piece just stops.
#[derive(Clone, Copy, PartialEq)]
enum StrandEnd {
    Open,
    Spawn(u32),
    Join(u32),
    Task,
}

struct StrandRow {
    task: u32,
    index: u32,
    first_piece: u32,
    last_piece: u32,
    end: StrandEnd,
    weight: u128,
    has_acts: bool,
    place: u32,
}

/// Lines of one strand that stand together: bytes of a file, and the number of the first line over all files.
struct Piece {
    file: u32,
    start: usize,
    stop: usize,
    line: u32,
    next: u32,
}

struct Task {
    number: u32,
    parent: u32,
    spawned_at: u32,
    joined_at: u32,
    depth: u32,
    jump: u32,
    enters: u32,
    leaves: u32,
    first_row: u32,
    rows: u32,
    /// Its last strand that does something, plus 1; 0 if none does.
    told: u32,
    strands: u32,
    is_joined: bool,
    is_reached: bool,
    /// The strands after which nothing is known, with the children that were still open there.
    open: Vec<u32>,
}

impl Task {
    /// Whether it is the root, does something or is spawned.
    fn is_known(&self) -> bool {
        self.number == 0 || self.told > 0 || self.parent != NONE
    }

    /// How many strands there are before the first gap.
    fn known(&self) -> u32 {
        self.strands - self.open.len() as u32
    }
}

/// An access that a later one may race with: a strand by its place in serial order, and a line over all files.
#[derive(Clone, Copy, PartialEq)]
struct Entry {
    strand: u32,
    line: u32,
}

const NOBODY: Entry = Entry { strand: NONE, line: NONE };

/// What is kept of the locations of a unit. `more` names lists of further entries, or is `NONE`.
#[derive(Clone)]
struct Cell {
    write: Entry,
    read: Entry,
    more: u32,
    has_raced: bool,
}

const EMPTY_CELL: Cell = Cell { write: NOBODY, read: NOBODY, more: NONE, has_raced: false };

#[derive(Default)]
struct Stacks {
    reads: Vec<Entry>,
    atomic_reads: Vec<Entry>,
    atomic_writes: Vec<Entry>,
}

struct Page {
    block: u32,
    number: u64,
    /// All starts and ends of runs in the page, or-ed: their trailing zeros give the unit.
    bounds: u64,
    least: u32,
    most: u32,
    next: u32,
    unit: u32,
    cells: Vec<Cell>,
}

struct Block {
    number: u64,
    birth: Option<(u32, u32)>,
    is_released: bool,
    release: Entry,
    born_before: u32,
    first_page: u32,
}

struct Race {
    block: u64,
    offset: u64,
    locations: u64,
    earlier: u32,
    later: u32,
}

struct Use {
    block: u64,
    line: u32,
    other: u32,
}

#[derive(Default)]
struct Findings {
    races: Vec<Race>,
    entangled_reads: Vec<Use>,
    entangled_uses: Vec<Use>,
    stale_uses: Vec<Use>,
}

/// A refused line: file and line from 1 on; or a refused task.
enum Refusal {
    Line(usize, usize, Cause),
    Task(u32, Cause),
}

/// A file's bytes up to its last whole line, with the number of its first line over all files.
struct LogFile {
    bytes: Vec<u8>,
    first_line: u32,
}

#[derive(Default)]
struct Log {
    files: Vec<LogFile>,
    pieces: Vec<Piece>,
    rows: Vec<StrandRow>,
    row_of: Map<(u32, u32), u32>,
    tasks: Vec<Task>,
    task_of: Map<u32, u32>,
    blocks: Vec<Block>,
    block_of: Map<u64, u32>,
    pages: Vec<Page>,
    page_of: Map<(u32, u64), u32>,
    recent_page: Vec<u32>,
    names: HashMap<u64, String>,
    is_cut: bool,
    order: Vec<(u32, u32)>,
    /// Pairs of strands that were asked for lately, with the answer.
    known_pairs: Vec<std::cell::Cell<(u32, u32, bool)>>,
    row_order: Vec<u32>,
    left_out: u64,
    work: u128,
    span: u128,
}

// FIRST PASS

impl Log {
    fn new() -> Log {
        let mut log = Log { recent_page: vec![NONE; 256], known_pairs: vec![std::cell::Cell::new((NONE, NONE, false)); 64], ..Log::default() };
        log.task(0);
        log
    }

    fn task(&mut self, number: u32) -> u32 {
        let tasks = &mut self.tasks;
        *self.task_of.entry(number).or_insert_with(|| {
            tasks.push(Task {
                number,
                parent: NONE,
                spawned_at: NONE,
                joined_at: NONE,
                depth: 0,
                jump: 0,
                enters: 0,
                leaves: 0,
                first_row: 0,
                rows: 0,
                told: 0,
                strands: 0,
                is_joined: false,
                is_reached: false,
                open: Vec::new(),
            });
            tasks.len() as u32 - 1
        })
    }

    fn row(&mut self, task: u32, index: u32) -> u32 {
        let rows = &mut self.rows;
        *self.row_of.entry((task, index)).or_insert_with(|| {
            let (first_piece, last_piece, place) = (NONE, NONE, NONE);
            rows.push(StrandRow { task, index, first_piece, last_piece, end: StrandEnd::Open, weight: 0, has_acts: false, place });
            rows.len() as u32 - 1
        })
    }

    fn block(&mut self, number: u64) -> u32 {
        let blocks = &mut self.blocks;
        *self.block_of.entry(number).or_insert_with(|| {
            let (birth, release, born_before, first_page) = (None, NOBODY, NONE, NONE);
            blocks.push(Block { number, birth, is_released: false, release, born_before, first_page });
            blocks.len() as u32 - 1
        })
    }

    #[inline]
    fn page(&mut self, block: u64, number: u64) -> u32 {
        let slot = ((block ^ number.wrapping_mul(0x9E37_79B9)) & 255) as usize;
        let recent = self.recent_page[slot];
        if recent != NONE {
            let page = &self.pages[recent as usize];
            if page.number == number && self.blocks[page.block as usize].number == block {
                return recent;
            }
        }
        let page = self.find_page(block, number);
        self.recent_page[slot] = page;
        page
    }

    fn find_page(&mut self, block: u64, number: u64) -> u32 {
        let block = self.block(block);
        let (pages, blocks) = (&mut self.pages, &mut self.blocks);
        *self.page_of.entry((block, number)).or_insert_with(|| {
            let new = pages.len() as u32;
            let next = std::mem::replace(&mut blocks[block as usize].first_page, new);
            pages.push(Page { block, number, bounds: PAGE, least: NONE, most: 0, next, unit: 0, cells: Vec::new() });
            new
        })
    }

    /// Notes the starts and ends of a place's runs.
    fn note_place(&mut self, place: &Place) {
        let mut run = 0;
        while run < place.runs {
            let start = place.offset + run * place.stride;
            let number = start >> PAGE_BITS;
            let in_page = start & (PAGE - 1);
            // so many runs lie whole in the page, one after the other
            let whole = if in_page + place.length <= PAGE {
                ((PAGE - in_page - place.length) / place.stride + 1).min(place.runs - run)
            } else {
                0
            };
            if whole == 0 {
                self.note_long_run(place.block, start, start + place.length);
                run += 1;
                continue;
            }
            let last_end = in_page + (whole - 1) * place.stride + place.length;
            let stride = if whole > 1 { place.stride } else { 0 };
            self.note_bounds(place.block, number, in_page, last_end, in_page | (in_page + place.length) | stride);
            run += whole;
        }
    }

    fn note_long_run(&mut self, block: u64, mut start: u64, end: u64) {
        while start < end {
            let number = start >> PAGE_BITS;
            let stop = end.min((number + 1) << PAGE_BITS);
            let first = start & (PAGE - 1);
            let last = first + (stop - start);
            self.note_bounds(block, number, first, last, first | last);
            start = stop;
        }
    }

    fn note_bounds(&mut self, block: u64, number: u64, first: u64, last: u64, bounds: u64) {
        let page = self.page(block, number) as usize;
        let page = &mut self.pages[page];
        page.bounds |= bounds;
        page.least = page.least.min(first as u32);
        page.most = page.most.max(last as u32);
    }

    fn open_piece(&mut self, row: u32, file: u32, start: usize, line: u32) {
        let piece = self.pieces.len() as u32;
        self.pieces.push(Piece { file, start, stop: start, line, next: NONE });
        let row = &mut self.rows[row as usize];
        if row.first_piece == NONE {
            row.first_piece = piece;
        } else {
            self.pieces[row.last_piece as usize].next = piece;
        }
        row.last_piece = piece;
    }

    /// Takes a file into the log: the first pass.
    fn add_file(&mut self, bytes: Vec<u8>) -> Result<(), Refusal> {
        let file = self.files.len();
        let first_line = self.files.last().map_or(0, |f| f.first_line + count_lines(&f.bytes));
        let mut cursor = Cursor { bytes: &bytes, at: 0 };
        if !bytes.starts_with(b"hhlog 1\n") {
            return Err(Refusal::Line(file + 1, 1, Cause::Version));
        }
        cursor.skip_line();
        let mut state = FileState { file: file as u32, row: NONE, has_ended: false };
        let mut line = 2;
        while cursor.at < bytes.len() {
            self.add_line(&mut cursor, &mut state, first_line + line - 1).map_err(|cause| Refusal::Line(file + 1, line as usize, cause))?;
            line += 1;
        }
        if state.row != NONE {
            self.close_piece(state.row, cursor.at);
        }
        self.is_cut |= !state.has_ended;
        self.files.push(LogFile { bytes, first_line });
        Ok(())
    }

    fn close_piece(&mut self, row: u32, stop: usize) {
        let piece = self.rows[row as usize].last_piece as usize;
        self.pieces[piece].stop = stop;
    }

    fn add_line(&mut self, cursor: &mut Cursor, state: &mut FileState, line: u32) -> Result<(), Cause> {
        let start = cursor.at;
        if state.has_ended {
            return Err(Cause::AfterEnd);
        }
        let act = cursor.line()?;
        match act {
            Line::Comment => return Ok(()),
            Line::Name { site, start } => {
                let text = String::from_utf8_lossy(&cursor.bytes[start..cursor.at - 1]);
                self.names.entry(site).or_insert_with(|| text.into_owned());
                return Ok(());
            }
            Line::End => {
                state.has_ended = true;
                return Ok(());
            }
            Line::Strand { task, index } => {
                self.open_strand(state, task, index, start, cursor.at, line);
                return Ok(());
            }
            _ => {}
        }
        if state.row == NONE {
            return Err(Cause::Closed);
        }
        if self.rows[state.row as usize].end != StrandEnd::Open {
            return Err(Cause::Ended);
        }
        self.rows[state.row as usize].has_acts = true;
        match act {
            Line::Access { place, .. } | Line::Yield { place, .. } | Line::Store { place, .. } => self.note_place(&place),
            Line::Birth { block } => self.note_birth(block, state.row, line)?,
            Line::Release { block } => self.note_release(block)?,
            Line::Work(units) => self.rows[state.row as usize].weight += u128::from(units),
            Line::Spawn(child) => {
                self.note_spawn(child, state.row)?;
                self.next_strand(state, StrandEnd::Spawn(child), start, cursor.at, line)?;
            }
            Line::Join(child) => self.next_strand(state, StrandEnd::Join(child), start, cursor.at, line)?,
            Line::EndOfTask => {
                self.close_piece(state.row, start);
                self.rows[state.row as usize].end = StrandEnd::Task;
                state.row = NONE;
            }
            _ => unreachable!("lines that are no acts were taken above"),
        }
        Ok(())
    }

    fn open_strand(&mut self, state: &mut FileState, task: u32, index: u32, start: usize, after: usize, line: u32) {
        if state.row != NONE {
            self.close_piece(state.row, start);
        }
        let task = self.task(task);
        let row = self.row(task, index);
        self.open_piece(row, state.file, after, line + 1);
        state.row = row;
    }

    fn next_strand(&mut self, state: &mut FileState, end: StrandEnd, start: usize, after: usize, line: u32) -> Result<(), Cause> {
        self.close_piece(state.row, start);
        let row = &mut self.rows[state.row as usize];
        row.end = end;
        let (task, index) = (row.task, row.index + 1);
        if index >= 1 << 31 {
            return Err(Cause::Limit);
        }
        let next = self.row(task, index);
        self.open_piece(next, state.file, after, line + 1);
        state.row = next;
        Ok(())
    }

    fn note_birth(&mut self, block: u64, row: u32, line: u32) -> Result<(), Cause> {
        let block = self.block(block) as usize;
        if self.blocks[block].birth.is_some() {
            return Err(Cause::BornTwice);
        }
        self.blocks[block].birth = Some((row, line));
        Ok(())
    }

    fn note_release(&mut self, block: u64) -> Result<(), Cause> {
        let block = self.block(block) as usize;
        if std::mem::replace(&mut self.blocks[block].is_released, true) {
            return Err(Cause::ReleasedTwice);
        }
        Ok(())
    }

    fn note_spawn(&mut self, child: u32, row: u32) -> Result<(), Cause> {
        let (parent, index) = (self.rows[row as usize].task, self.rows[row as usize].index);
        let child = self.task(child);
        if child == 0 || self.tasks[child as usize].parent != NONE {
            return Err(Cause::SpawnedTwice);
        }
        let child = &mut self.tasks[child as usize];
        child.parent = parent;
        child.spawned_at = index;
        Ok(())
    }
}

/// Where a file stands: the strand that its lines are on, if one is open.
struct FileState {
    file: u32,
    row: u32,
    has_ended: bool,
}

fn count_lines(bytes: &[u8]) -> u32 {
    bytes.iter().filter(|&&byte| byte == b'\n').count() as u32
}

/// The whole lines of a file, up to the first NUL.
fn whole_lines(mut bytes: Vec<u8>) -> Vec<u8> {
    let end = bytes.iter().position(|&byte| byte == 0).unwrap_or(bytes.len());
    let lines = bytes[..end].iter().rposition(|&byte| byte == b'\n').map_or(0, |at| at + 1);
    bytes.truncate(lines);
    bytes
}

// THE TREE OF TASKS

impl Log {
    /// Puts the rows in the order of tasks and strands, so that a task's stand together.
    fn sort_rows(&mut self) {
        self.row_order = (0..self.rows.len() as u32).collect();
        let rows = &self.rows;
        self.row_order.sort_unstable_by_key(|&row| (rows[row as usize].task, rows[row as usize].index));
        for (at, &row) in self.row_order.iter().enumerate() {
            let task = &mut self.tasks[self.rows[row as usize].task as usize];
            if task.rows == 0 {
                task.first_row = at as u32;
            }
            task.rows += 1;
            if self.rows[row as usize].has_acts {
                task.told = self.rows[row as usize].index + 1;
            }
        }
    }

    /// The row of a task's strand among those before its first gap.
    fn row_at(&self, task: &Task, index: u32) -> Option<u32> {
        if index >= task.rows {
            return None;
        }
        let row = self.row_order[(task.first_row + index) as usize];
        (self.rows[row as usize].index == index).then_some(row)
    }

    /// What ends a strand in the text, even one after a gap.
    fn written_end(&self, task: &Task, index: u32) -> StrandEnd {
        self.row_at(task, index).map_or(StrandEnd::Open, |row| self.rows[row as usize].end)
    }

    /// What ends a strand of a linked task; `Open` from the last one before a gap on.
    fn end_of(&self, task: &Task, index: u32) -> StrandEnd {
        if index + 1 < task.known() { self.written_end(task, index) } else { StrandEnd::Open }
    }

    /// Checks a task's spawns and joins up to its first gap, and finds where its children are joined.
    fn link_task(&mut self, task: u32) -> Option<Cause> {
        let mut index = 0;
        let mut unjoined = Vec::new();
        let mut fault = None;
        loop {
            match self.written_end(&self.tasks[task as usize], index) {
                StrandEnd::Spawn(child) => unjoined.push(self.task_of[&child]),
                StrandEnd::Join(child) => {
                    let child = self.task_of.get(&child).copied().unwrap_or(NONE);
                    match self.tasks.get_mut(child as usize) {
                        Some(child) if child.parent == task && child.spawned_at < index && !child.is_joined => {
                            child.joined_at = index + 1;
                            child.is_joined = true;
                        }
                        _ => fault = Some(Cause::JoinsNoChild),
                    }
                }
                StrandEnd::Task | StrandEnd::Open => break,
            }
            index += 1;
        }
        unjoined.retain(|&child| !self.tasks[child as usize].is_joined);
        let has_ended = self.written_end(&self.tasks[task as usize], index) == StrandEnd::Task;
        let is_open = !unjoined.is_empty();
        let last = index + unjoined.len() as u32;
        for (from_bottom, &child) in unjoined.iter().enumerate() {
            self.tasks[child as usize].joined_at = last - from_bottom as u32;
        }
        let row = &mut self.tasks[task as usize];
        row.strands = last + 1;
        row.open = unjoined;
        fault.or(match (has_ended, is_open) {
            (false, _) => Some(Cause::Unended),
            (true, true) => Some(Cause::Unjoined),
            (true, false) => None,
        })
    }

    /// Checks all tasks, and puts the attached strands in serial order.
    fn link(&mut self) -> Result<(), Refusal> {
        self.sort_rows();
        let causes: Vec<_> = (0..self.tasks.len() as u32).map(|task| self.link_task(task)).collect();
        self.walk();
        let mut by_number: Vec<usize> = (0..self.tasks.len()).collect();
        by_number.sort_unstable_by_key(|&task| self.tasks[task].number);
        by_number.retain(|&task| self.tasks[task].is_known());
        for task in by_number {
            let (number, is_reached) = (self.tasks[task].number, self.tasks[task].is_reached);
            match causes[task] {
                Some(Cause::JoinsNoChild) => return Err(Refusal::Task(number, Cause::JoinsNoChild)),
                Some(cause) if !self.is_cut => return Err(Refusal::Task(number, cause)),
                _ if !self.is_cut && !(is_reached && self.has_no_gap(task)) => return Err(Refusal::Task(number, Cause::Unreached)),
                _ => {}
            }
        }
        self.left_out = self.rows.iter().filter(|row| row.has_acts && row.place == NONE).count() as u64;
        Ok(())
    }

    /// Whether no strand after the end of a task that ended does something.
    fn has_no_gap(&self, task: usize) -> bool {
        self.tasks[task].told <= self.tasks[task].strands
    }

    /// Walks the tree depth first, a child where it is spawned.
    fn walk(&mut self) {
        let mut stack = vec![(0u32, 0u32)];
        self.reach(0);
        while let Some((task, index)) = stack.pop() {
            let strands = self.tasks[task as usize].strands;
            if index >= strands {
                self.tasks[task as usize].leaves = self.order.len() as u32;
                continue;
            }
            self.add_strand(task, index);
            stack.push((task, index + 1));
            if let StrandEnd::Spawn(child) = self.end_of(&self.tasks[task as usize], index) {
                let child = self.task_of[&child];
                if !self.tasks[child as usize].is_reached {
                    self.reach(child);
                    stack.push((child, 0));
                }
            }
        }
    }

    fn add_strand(&mut self, task: u32, index: u32) {
        if let Some(row) = self.row_at(&self.tasks[task as usize], index) {
            if index < self.tasks[task as usize].known() {
                self.rows[row as usize].place = self.order.len() as u32;
            }
        }
        self.order.push((task, index));
    }

    /// Enters a task that the walk came to: its depth, and the ancestor that it jumps to.
    fn reach(&mut self, task: u32) {
        let parent = self.tasks[task as usize].parent;
        let (depth, jump) = if task == 0 {
            (0, 0)
        } else {
            let above = &self.tasks[parent as usize];
            let further = &self.tasks[above.jump as usize];
            let far = above.depth - further.depth == further.depth - self.tasks[further.jump as usize].depth;
            (above.depth + 1, if far { further.jump } else { parent })
        };
        let enters = self.order.len() as u32;
        let row = &mut self.tasks[task as usize];
        row.depth = depth;
        row.jump = jump;
        row.enters = enters;
        row.is_reached = true;
    }

    #[inline]
    fn contains(&self, above: u32, below: u32) -> bool {
        let (above, below) = (&self.tasks[above as usize], &self.tasks[below as usize]);
        above.enters <= below.enters && below.enters < above.leaves
    }

    /// The highest ancestor of `task` that isn't one of `other`.
    #[inline]
    fn climb(&self, task: u32, other: u32) -> &Task {
        let mut at = task;
        loop {
            let row = &self.tasks[at as usize];
            if !self.contains(row.jump, other) {
                at = row.jump;
            } else if !self.contains(row.parent, other) {
                at = row.parent;
            } else {
                return row;
            }
        }
    }

    /// Whether a strand precedes another one, each by its place in serial order.
    #[inline]
    fn precedes(&self, u: u32, v: u32) -> bool {
        if u >= v {
            return u == v;
        }
        let ((task, index), (later_task, later_index)) = (self.order[u as usize], self.order[v as usize]);
        if task == later_task {
            return true;
        }
        let known = &self.known_pairs[(u & 63) as usize];
        let (earlier, later, answer) = known.get();
        if (earlier, later) == (u, v) {
            return answer;
        }
        let answer = self.tell_precedence(task, index, later_task, later_index);
        known.set((u, v, answer));
        answer
    }

    /// The same of two strands of different tasks: by where they leave and enter their lowest common ancestor.
    fn tell_precedence(&self, task: u32, index: u32, later_task: u32, later_index: u32) -> bool {
        if self.contains(task, later_task) {
            return index <= self.climb(later_task, task).spawned_at;
        }
        let top = self.climb(task, later_task);
        let entry = if top.parent == later_task { later_index } else { self.climb(later_task, task).spawned_at };
        top.joined_at <= entry
    }

    /// Work and span: each strand's weight, and the greatest weight of a walk to it.
    fn measure(&mut self) {
        let mut reach = vec![0u128; self.tasks.len()];
        for place in 0..self.order.len() {
            let (task, index) = self.order[place];
            let row = self.row_at(&self.tasks[task as usize], index).filter(|&row| self.rows[row as usize].place == place as u32);
            let weight = row.map_or(0, |row| self.rows[row as usize].weight);
            if index == 0 && task != 0 {
                reach[task as usize] = reach[self.tasks[task as usize].parent as usize];
            } else if index > 0 {
                if let Some(child) = self.joined_before(task, index) {
                    reach[task as usize] = reach[task as usize].max(reach[child as usize]);
                }
            }
            reach[task as usize] += weight;
            self.work += weight;
        }
        self.span = reach[0];
    }

    /// The child whose join a strand follows.
    fn joined_before(&self, task: u32, index: u32) -> Option<u32> {
        let row = &self.tasks[task as usize];
        if index >= row.known() {
            return Some(row.open[(row.strands - 1 - index) as usize]);
        }
        match self.end_of(row, index - 1) {
            StrandEnd::Join(child) => Some(self.task_of[&child]),
            _ => None,
        }
    }
}

// SECOND PASS

/// The lists of cells that keep more than a read and a write, and what was found so far.
#[derive(Default)]
struct Scan {
    stacks: Vec<Stacks>,
    unused: Vec<u32>,
    findings: Findings,
}

impl Log {
    fn prepare_cells(&mut self) {
        for page in &mut self.pages {
            page.unit = page.bounds.trailing_zeros();
            if page.least != NONE {
                let units = (page.most - page.least) >> page.unit;
                page.cells = vec![EMPTY_CELL; units as usize];
            }
        }
    }

    fn scan(&mut self) -> Findings {
        self.prepare_cells();
        let mut scan = Scan::default();
        for place in 0..self.order.len() as u32 {
            let (task, index) = self.order[place as usize];
            let row = self.row_at(&self.tasks[task as usize], index).filter(|&row| self.rows[row as usize].place == place);
            let mut next = row.map_or(NONE, |row| self.rows[row as usize].first_piece);
            while next != NONE {
                self.scan_piece(&mut scan, next, place);
                next = self.pieces[next as usize].next;
            }
        }
        scan.findings
    }

    fn scan_piece(&mut self, scan: &mut Scan, piece: u32, strand: u32) {
        let Piece { file, start, stop, line, .. } = self.pieces[piece as usize];
        let bytes = std::mem::take(&mut self.files[file as usize].bytes);
        let mut cursor = Cursor { bytes: &bytes, at: start };
        let mut entry = Entry { strand, line };
        while cursor.at < stop {
            match cursor.line() {
                Ok(Line::Access { kind, place, .. }) => self.access(scan, kind, &place, entry),
                Ok(Line::Store { place, .. }) => self.access(scan, Kind::Write, &place, entry),
                Ok(Line::Yield { place, yielded, .. }) => {
                    self.access(scan, Kind::Read, &place, entry);
                    self.yields(scan, yielded, entry);
                }
                Ok(Line::Release { block }) => self.release(scan, block, entry),
                Ok(_) => {}
                Err(_) => unreachable!("the first pass took this line"),
            }
            entry.line += 1;
        }
        self.files[file as usize].bytes = bytes;
    }

    /// The strand of a block's birth, if it is attached, with its line.
    fn birth(&self, block: &Block) -> Option<(u32, u32)> {
        let (row, line) = block.birth?;
        let place = self.rows[row as usize].place;
        (place != NONE).then_some((place, line))
    }

    fn yields(&mut self, scan: &mut Scan, yielded: u64, entry: Entry) {
        if yielded == 0 {
            return;
        }
        let Some(&block) = self.block_of.get(&yielded) else { return };
        if let Some((birth, other)) = self.birth(&self.blocks[block as usize]) {
            if !self.precedes(birth, entry.strand) {
                scan.findings.entangled_reads.push(Use { block: yielded, line: entry.line, other });
            }
        }
    }

    /// Looks whether a block is accessed concurrently with its birth, or after its release.
    fn check_block(&mut self, scan: &mut Scan, block: u32, entry: Entry) {
        let known = &self.blocks[block as usize];
        if known.born_before == entry.strand && known.release == NOBODY {
            return;
        }
        let number = known.number;
        let mut is_born = true;
        if let Some((birth, other)) = self.birth(known) {
            if !self.precedes(birth, entry.strand) {
                is_born = false;
                scan.findings.entangled_uses.push(Use { block: number, line: entry.line, other });
            }
        }
        let release = known.release;
        if release != NOBODY && release.strand != entry.strand && self.precedes(release.strand, entry.strand) {
            scan.findings.stale_uses.push(Use { block: number, line: entry.line, other: release.line });
        }
        if is_born {
            self.blocks[block as usize].born_before = entry.strand;
        }
    }

    fn access(&mut self, scan: &mut Scan, kind: Kind, place: &Place, entry: Entry) {
        let first = self.page(place.block, place.offset >> PAGE_BITS);
        self.check_block(scan, self.pages[first as usize].block, entry);
        for run in 0..place.runs {
            let mut start = place.offset + run * place.stride;
            let end = start + place.length;
            while start < end {
                let number = start >> PAGE_BITS;
                let stop = end.min((number + 1) << PAGE_BITS);
                let page = self.page(place.block, number);
                self.access_page(scan, page, kind, start - (number << PAGE_BITS), stop - start, entry);
                start = stop;
            }
        }
    }

    fn access_page(&mut self, scan: &mut Scan, page: u32, kind: Kind, start: u64, length: u64, entry: Entry) {
        let known = &mut self.pages[page as usize];
        let (unit, least) = (known.unit, u64::from(known.least));
        let first = ((start - least) >> unit) as usize;
        let last = ((start + length - least) >> unit) as usize;
        let (block, number) = (known.block, known.number);
        let mut cells = std::mem::take(&mut known.cells);
        let release = self.blocks[block as usize].release;
        for (at, cell) in cells[first..last].iter_mut().enumerate() {
            if cell.has_raced {
                continue;
            }
            if cell.write == NOBODY && release != NOBODY && self.is_empty(cell) {
                cell.write = release;
            }
            if let Some(earlier) = self.meet(scan, cell, kind, entry) {
                let offset = (number << PAGE_BITS) + least + (((first + at) as u64) << unit);
                let block = self.blocks[block as usize].number;
                scan.findings.races.push(Race { block, offset, locations: 1 << unit, earlier, later: entry.line });
            }
        }
        self.pages[page as usize].cells = cells;
    }

    fn is_empty(&self, cell: &Cell) -> bool {
        cell.read == NOBODY && cell.more == NONE
    }

    fn release(&mut self, scan: &mut Scan, number: u64, entry: Entry) {
        let block = self.block_of[&number];
        let mut next = self.blocks[block as usize].first_page;
        while next != NONE {
            let page = &mut self.pages[next as usize];
            let (unit, base) = (page.unit, (page.number << PAGE_BITS) + u64::from(page.least));
            let following = page.next;
            let mut cells = std::mem::take(&mut page.cells);
            for (at, cell) in cells.iter_mut().enumerate() {
                if cell.has_raced || cell.write == NOBODY && self.is_empty(cell) {
                    continue;
                }
                if let Some(earlier) = self.meet(scan, cell, Kind::Write, entry) {
                    let offset = base + ((at as u64) << unit);
                    scan.findings.races.push(Race { block: number, offset, locations: 1 << unit, earlier, later: entry.line });
                }
            }
            self.pages[next as usize].cells = cells;
            next = following;
        }
        self.blocks[block as usize].release = entry;
    }

    /// An access meets those that a cell keeps: the line of the first one that it races with, which ends the cell; else
    /// it is kept.
    #[inline]
    fn meet(&self, scan: &mut Scan, cell: &mut Cell, kind: Kind, entry: Entry) -> Option<u32> {
        if let Some(earlier) = self.rival(scan, cell, kind, entry.strand) {
            scan.forget(cell);
            cell.has_raced = true;
            return Some(earlier.line);
        }
        match kind {
            Kind::Write => {
                scan.forget(cell);
                cell.read = NOBODY;
                cell.write = entry;
            }
            Kind::Read if cell.more == NONE && (cell.read == NOBODY || self.precedes(cell.read.strand, entry.strand)) => cell.read = entry,
            _ => {
                let stacks = scan.stacks_of(cell);
                let stack = match kind {
                    Kind::Read => &mut stacks.reads,
                    Kind::AtomicRead => &mut stacks.atomic_reads,
                    _ => &mut stacks.atomic_writes,
                };
                while stack.last().is_some_and(|top| self.precedes(top.strand, entry.strand)) {
                    stack.pop();
                }
                stack.push(entry);
            }
        }
        None
    }

    /// The first kept access that an access of a strand races with: by kinds, from the bottom.
    #[inline]
    fn rival(&self, scan: &Scan, cell: &Cell, kind: Kind, strand: u32) -> Option<Entry> {
        let races = |entry: &&Entry| !self.precedes(entry.strand, strand);
        if cell.more == NONE {
            let against_read = matches!(kind, Kind::Write | Kind::AtomicWrite) && cell.read != NOBODY;
            let read = Some(&cell.read).filter(|_| against_read).filter(races);
            return read.or(Some(&cell.write).filter(|write| **write != NOBODY).filter(races)).copied();
        }
        let stacks = &scan.stacks[cell.more as usize];
        let none: &[Entry] = &[];
        let write: &[Entry] = if cell.write == NOBODY { none } else { std::slice::from_ref(&cell.write) };
        let clashing: [&[Entry]; 4] = match kind {
            Kind::Read => [none, write, none, &stacks.atomic_writes],
            Kind::Write => [&stacks.reads, write, &stacks.atomic_reads, &stacks.atomic_writes],
            Kind::AtomicRead => [none, write, none, none],
            Kind::AtomicWrite => [&stacks.reads, write, none, none],
        };
        clashing.into_iter().flatten().find(races).copied()
    }
}

impl Scan {
    /// A cell's lists; its read moves into them.
    fn stacks_of(&mut self, cell: &mut Cell) -> &mut Stacks {
        if cell.more == NONE {
            cell.more = self.unused.pop().unwrap_or_else(|| {
                self.stacks.push(Stacks::default());
                self.stacks.len() as u32 - 1
            });
            if cell.read != NOBODY {
                self.stacks[cell.more as usize].reads.push(cell.read);
                cell.read = NOBODY;
            }
        }
        &mut self.stacks[cell.more as usize]
    }

    fn forget(&mut self, cell: &mut Cell) {
        if cell.more != NONE {
            let stacks = &mut self.stacks[cell.more as usize];
            stacks.reads.clear();
            stacks.atomic_reads.clear();
            stacks.atomic_writes.clear();
            self.unused.push(cell.more);
            cell.more = NONE;
        }
    }
}

// REPORT

/// What a line did, by what is written of it: its kind and its site.
#[derive(Clone, PartialEq, Eq, PartialOrd, Ord, Hash)]
struct Label {
    kind: &'static str,
    site: Option<u64>,
}

impl Log {
    /// The file and the line in it, both from 1 on.
    fn position(&self, line: u32) -> (usize, usize) {
        let file = self.files.partition_point(|file| file.first_line <= line) - 1;
        (file + 1, (line - self.files[file].first_line) as usize + 1)
    }

    /// Reads the lines that findings name.
    fn labels(&self, findings: &Findings) -> Map<u32, Label> {
        let mut wanted: Vec<u32> = findings.races.iter().flat_map(|race| [race.earlier, race.later]).collect();
        for list in [&findings.entangled_reads, &findings.entangled_uses, &findings.stale_uses] {
            wanted.extend(list.iter().map(|one| one.line));
        }
        wanted.sort_unstable();
        wanted.dedup();
        let mut pieces: Vec<&Piece> = self.pieces.iter().collect();
        pieces.sort_unstable_by_key(|piece| piece.line);
        let mut labels = Map::default();
        let mut at = 0;
        for (number, piece) in pieces.iter().enumerate() {
            let is_wanted = at < wanted.len() && pieces.get(number + 1).is_none_or(|next| next.line > wanted[at]);
            if !is_wanted {
                continue;
            }
            let bytes = &self.files[piece.file as usize].bytes;
            let mut cursor = Cursor { bytes, at: piece.start };
            let mut line = piece.line;
            while cursor.at < piece.stop && at < wanted.len() {
                if wanted[at] == line {
                    labels.insert(line, label_of(cursor.line()));
                    at += 1;
                } else {
                    cursor.skip_line();
                }
                line += 1;
            }
        }
        labels
    }

    fn describe(&self, label: &Label, line: u32) -> String {
        let (file, line) = self.position(line);
        match label.site {
            None => format!("{} line {file}:{line}", label.kind),
            Some(site) => match self.names.get(&site) {
                Some(name) => format!("{} {name} line {file}:{line}", label.kind),
                None => format!("{} @{site} line {file}:{line}", label.kind),
            },
        }
    }

    fn write_races(&self, out: &mut String, races: &mut [Race], labels: &Map<u32, Label>, all: bool) {
        races.sort_unstable_by_key(|race| (race.block, race.offset));
        if all {
            for race in races.iter() {
                for location in race.offset..race.offset + race.locations {
                    let (earlier, later) = (self.describe(&labels[&race.earlier], race.earlier), self.describe(&labels[&race.later], race.later));
                    let _ = writeln!(out, "race {} {location}: {earlier}, {later}", race.block);
                }
            }
            return;
        }
        let mut groups: Vec<Group> = Vec::new();
        let mut group_of: HashMap<(u64, &Label, &Label), usize> = HashMap::new();
        for race in races.iter() {
            let key = (race.block, &labels[&race.earlier], &labels[&race.later]);
            let at = *group_of.entry(key).or_insert_with(|| {
                groups.push(Group { first: race, length: 0, locations: 0 });
                groups.len() - 1
            });
            groups[at].add(race);
        }
        for Group { first, length, locations } in groups {
            let (earlier, later) = (self.describe(&labels[&first.earlier], first.earlier), self.describe(&labels[&first.later], first.later));
            let _ = writeln!(out, "race {} {} {length}: {earlier}, {later}; locations {locations}", first.block, first.offset);
        }
    }

    fn write_uses(&self, out: &mut String, what: &str, since: &str, uses: &[Use], labels: &Map<u32, Label>) {
        let mut groups: Vec<(&Use, u64)> = Vec::new();
        let mut group_of: HashMap<(u64, &Label), usize> = HashMap::new();
        for one in uses {
            let at = *group_of.entry((one.block, &labels[&one.line])).or_insert_with(|| {
                groups.push((one, 0));
                groups.len() - 1
            });
            groups[at].1 += 1;
        }
        for (first, number) in groups {
            let (file, line) = self.position(first.other);
            let _ = writeln!(out, "{what} {}: {}, {since} line {file}:{line}; lines {number}", first.block, self.describe(&labels[&first.line], first.line));
        }
    }

    /// The report, and whether something was found.
    fn report(&self, mut findings: Findings, all: bool) -> (String, bool) {
        let labels = self.labels(&findings);
        let mut out = String::new();
        let mut races = std::mem::take(&mut findings.races);
        self.write_races(&mut out, &mut races, &labels, all);
        self.write_uses(&mut out, "entangled read", "born", &findings.entangled_reads, &labels);
        self.write_uses(&mut out, "entangled use", "born", &findings.entangled_uses, &labels);
        self.write_uses(&mut out, "stale use", "released", &findings.stale_uses, &labels);
        let parallelism = if self.span == 0 { 1.0 } else { self.work as f64 / self.span as f64 };
        let _ = writeln!(out, "work {} span {} parallelism {parallelism:.2}", self.work, self.span);
        let locations: u64 = races.iter().map(|race| race.locations).sum();
        let (reads, uses, stale) = (findings.entangled_reads.len(), findings.entangled_uses.len(), findings.stale_uses.len());
        let cut = if self.is_cut { format!(" cut {}", self.left_out) } else { String::new() };
        let _ = writeln!(out, "end: races {locations} reads {reads} uses {uses} stale {stale}{cut}");
        (out, locations > 0 || reads + uses + stale > 0)
    }
}

/// Races of a block by one pair of sites and kinds: the first, how many locations from it on race alike, and all of them.
struct Group<'a> {
    first: &'a Race,
    length: u64,
    locations: u64,
}

impl Group<'_> {
    fn add(&mut self, race: &Race) {
        let first = self.first;
        if race.offset == first.offset + self.length && race.earlier == first.earlier && race.later == first.later {
            self.length += race.locations;
        }
        self.locations += race.locations;
    }
}

fn label_of(line: Result<Line, Cause>) -> Label {
    match line {
        Ok(Line::Access { kind, site, .. }) => {
            let kind = match kind {
                Kind::Read => "read",
                Kind::Write => "write",
                Kind::AtomicRead => "atomic read",
                Kind::AtomicWrite => "atomic write",
            };
            Label { kind, site }
        }
        Ok(Line::Yield { site, .. }) => Label { kind: "read", site },
        Ok(Line::Store { site, .. }) => Label { kind: "write", site },
        _ => Label { kind: "release", site: None },
    }
}

// COMMAND

/// What is written, and the status.
fn check(names: &[String], all: bool) -> (String, u8) {
    let mut log = Log::new();
    for name in names {
        let Ok(bytes) = std::fs::read(name) else {
            return (format!("end: read failed {name}\n"), 8);
        };
        if let Err(refusal) = log.add_file(whole_lines(bytes)) {
            return (refused(refusal), 11);
        }
    }
    if let Err(refusal) = log.link() {
        return (refused(refusal), 11);
    }
    log.measure();
    let findings = log.scan();
    let (report, found) = log.report(findings, all);
    let status = if found {
        12
    } else if log.is_cut {
        14
    } else {
        0
    };
    (report, status)
}

fn refused(refusal: Refusal) -> String {
    match refusal {
        Refusal::Line(file, line, cause) => format!("end: log refused line {file}:{line} {}\n", cause.text()),
        Refusal::Task(task, cause) => format!("end: log refused task {task} {}\n", cause.text()),
    }
}

fn main() -> ExitCode {
    let words: Vec<String> = std::env::args().skip(1).collect();
    let all = words.iter().any(|word| word == "--all");
    let names: Vec<String> = words.iter().skip(1).filter(|word| *word != "--all").cloned().collect();
    let (text, status) = if words.first().is_none_or(|word| word != "check") || names.is_empty() {
        ("end: words refused\n".to_string(), 2)
    } else {
        check(&names, all)
    };
    let mut output = std::io::stdout().lock();
    match output.write_all(text.as_bytes()).and_then(|()| output.flush()) {
        Ok(()) => ExitCode::from(status),
        Err(_) => ExitCode::from(9),
    }
}
