//! An unverified peer of `hheap run`, to compare with: the same language, objects as words in chunks, a copying collector.
//!
//! What it doesn't do: it runs tasks one after the other in one thread, in one heap; it keeps no journal, checks no read
//! for entanglement, has no limits of fuel or chunks, and takes it that its text is a program.

use std::collections::HashMap;
use std::io::Write;

const CHUNK: usize = 1024;
const FORWARDED: u64 = 1 << 41;
const MUTABLE: u64 = 1 << 40;
const COUNT: u64 = (1 << 20) - 1;

#[derive(Clone, Copy)]
enum Calculation {
    Add,
    Sub,
    Mul,
    Div,
    Rem,
    Less,
    Equal,
}

#[derive(Clone, Copy)]
enum Instruction {
    Set(usize, i64),
    Move(usize, usize),
    MoveReference(usize, usize),
    Nil(usize),
    Calculate(Calculation, usize, usize, usize),
    Same(usize, usize, usize),
    Jump(usize),
    JumpAtZero(usize, usize),
    Make(usize, usize, usize),
    Pack(usize, usize, usize),
    ReadReference(usize, usize, usize),
    ReadNumber(usize, usize, usize),
    WriteReference(usize, usize, usize),
    WriteNumber(usize, usize, usize),
    References(usize, usize),
    Numbers(usize, usize),
    Freeze(usize),
    Swap(usize, usize, usize, usize, usize),
    Call(usize),
    Fork(usize, usize),
    Loop(usize),
    Return,
    Print(usize),
}

/// A call that hasn't returned. A reference is 0 for nil, else a chunk's place in the upper half and an offset and 1 in the lower.
#[derive(Clone, Copy)]
struct Frame {
    numbers: [i64; 16],
    references: [u64; 16],
}

#[derive(Default)]
struct Heap {
    chunks: Vec<Box<[u64]>>,
    current: usize,
    room: usize,
    since: usize,
    live: usize,
    births: u64,
}

fn fields(header: u64) -> (usize, usize) {
    ((header & COUNT) as usize, (header >> 20 & COUNT) as usize)
}

impl Heap {
    fn object(&mut self, reference: u64) -> &mut [u64] {
        let (chunk, offset) = ((reference >> 32) as usize, (reference as u32 - 1) as usize);
        &mut self.chunks[chunk][offset..]
    }

    fn place(&mut self, words: usize) -> u64 {
        if words > CHUNK {
            self.chunks.push(vec![0; words].into_boxed_slice());
            return ((self.chunks.len() - 1) as u64) << 32 | 1;
        }
        if self.room < words {
            self.current = self.chunks.len();
            self.chunks.push(vec![0; CHUNK].into_boxed_slice());
            self.room = CHUNK;
        }
        let at = CHUNK - self.room;
        self.room -= words;
        (self.current as u64) << 32 | (at as u64 + 1)
    }

    fn make(&mut self, references: usize, numbers: usize, flags: u64) -> u64 {
        let words = 2 + references + numbers;
        let at = self.place(words);
        self.since += words;
        let birth = self.births;
        self.births += 1;
        let object = self.object(at);
        object[0] = references as u64 | (numbers as u64) << 20 | flags;
        object[1] = birth;
        object[2..words].fill(0);
        at
    }

    fn moved(&mut self, from: &mut Heap, reference: u64, found: &mut Vec<u64>) -> u64 {
        if reference == 0 {
            return 0;
        }
        let object = from.object(reference);
        if object[0] & FORWARDED != 0 {
            return object[1];
        }
        let (references, numbers) = fields(object[0]);
        let words = 2 + references + numbers;
        let at = self.place(words);
        self.object(at)[..words].copy_from_slice(&object[..words]);
        object[0] |= FORWARDED;
        object[1] = at;
        self.live += words;
        found.push(at);
        at
    }

    /// Keeps what these frames reach.
    fn collect<'a>(&mut self, frames: impl Iterator<Item = &'a mut Frame>) {
        let mut from = std::mem::take(self);
        self.births = from.births;
        let mut found = Vec::new();
        for frame in frames {
            for reference in &mut frame.references {
                *reference = self.moved(&mut from, *reference, &mut found);
            }
        }
        let mut next = 0;
        while next < found.len() {
            let at = found[next];
            let references = fields(self.object(at)[0]).0;
            for field in 2..2 + references {
                let old = self.object(at)[field];
                let new = self.moved(&mut from, old, &mut found);
                self.object(at)[field] = new;
            }
            next += 1;
        }
    }
}

struct Peer {
    functions: Vec<Vec<Instruction>>,
    heap: Heap,
    limit: usize,
    waiting: Vec<Frame>,
    output: std::io::BufWriter<std::io::Stdout>,
}

impl Peer {
    fn make(&mut self, top: &mut Frame, references: usize, numbers: usize, flags: u64) -> u64 {
        if self.heap.since >= self.limit.max(self.heap.live) {
            let heap = &mut self.heap;
            heap.collect(self.waiting.iter_mut().chain(std::iter::once(top)));
        }
        self.heap.make(references, numbers, flags)
    }

    fn field(&mut self, reference: u64, index: i64, numbers: bool) -> &mut u64 {
        let object = self.heap.object(reference);
        let (references, many) = fields(object[0]);
        let index = index as usize;
        assert!(index < if numbers { many } else { references }, "range");
        &mut object[2 + index + if numbers { references } else { 0 }]
    }

    /// Runs a function with these registers, and returns its `i0` and `r0`.
    fn call(&mut self, function: usize, registers: &Frame) -> (i64, u64) {
        let mut top = *registers;
        let mut at = 0;
        loop {
            let instruction = self.functions[function][at];
            at += 1;
            match instruction {
                Instruction::Set(to, number) => top.numbers[to] = number,
                Instruction::Move(to, from) => top.numbers[to] = top.numbers[from],
                Instruction::MoveReference(to, from) => top.references[to] = top.references[from],
                Instruction::Nil(to) => top.references[to] = 0,
                Instruction::Calculate(what, to, a, b) => {
                    let (a, b) = (top.numbers[a], top.numbers[b]);
                    top.numbers[to] = match what {
                        Calculation::Add => a.wrapping_add(b),
                        Calculation::Sub => a.wrapping_sub(b),
                        Calculation::Mul => a.wrapping_mul(b),
                        Calculation::Div => a.wrapping_div(b),
                        Calculation::Rem => a.wrapping_rem(b),
                        Calculation::Less => (a < b) as i64,
                        Calculation::Equal => (a == b) as i64,
                    };
                }
                Instruction::Same(to, a, b) => {
                    top.numbers[to] = (top.references[a] == top.references[b]) as i64;
                }
                Instruction::Jump(to) => at = to,
                Instruction::JumpAtZero(number, to) => {
                    if top.numbers[number] == 0 {
                        at = to;
                    }
                }
                Instruction::Make(to, references, numbers) => {
                    let (references, numbers) = (top.numbers[references], top.numbers[numbers]);
                    top.references[to] =
                        self.make(&mut top, references as usize, numbers as usize, MUTABLE);
                }
                Instruction::Pack(to, references, numbers) => {
                    let new = self.make(&mut top, references, numbers, 0);
                    let object = self.heap.object(new);
                    object[2..2 + references].copy_from_slice(&top.references[..references]);
                    for (field, number) in object[2 + references..].iter_mut().zip(&top.numbers[..numbers]) {
                        *field = *number as u64;
                    }
                    top.references[to] = new;
                }
                Instruction::ReadReference(to, object, index) => {
                    top.references[to] = *self.field(top.references[object], top.numbers[index], false);
                }
                Instruction::ReadNumber(to, object, index) => {
                    top.numbers[to] = *self.field(top.references[object], top.numbers[index], true) as i64;
                }
                Instruction::WriteReference(object, index, from) => {
                    *self.field(top.references[object], top.numbers[index], false) = top.references[from];
                }
                Instruction::WriteNumber(object, index, from) => {
                    *self.field(top.references[object], top.numbers[index], true) = top.numbers[from] as u64;
                }
                Instruction::References(to, object) => {
                    top.numbers[to] = fields(self.heap.object(top.references[object])[0]).0 as i64;
                }
                Instruction::Numbers(to, object) => {
                    top.numbers[to] = fields(self.heap.object(top.references[object])[0]).1 as i64;
                }
                Instruction::Freeze(object) => self.heap.object(top.references[object])[0] &= !MUTABLE,
                Instruction::Swap(to, object, index, expected, new) => {
                    let (expected, new) = (top.references[expected], top.references[new]);
                    let field = self.field(top.references[object], top.numbers[index], false);
                    let wins = *field == expected;
                    if wins {
                        *field = new;
                    }
                    top.numbers[to] = wins as i64;
                }
                Instruction::Call(callee) => {
                    self.waiting.push(top);
                    let (number, reference) = self.call(callee, &top);
                    top = self.waiting.pop().unwrap();
                    (top.numbers[0], top.references[0]) = (number, reference);
                }
                Instruction::Fork(left, right) => {
                    let (first, second);
                    self.waiting.push(top);
                    first = self.call(left, &top);
                    top = self.waiting.pop().unwrap();
                    // (what the first returns is kept alive in a separate frame)
                    let mut kept = top;
                    kept.references[0] = first.1;
                    self.waiting.push(top);
                    self.waiting.push(kept);
                    second = self.call(right, &top);
                    let kept = self.waiting.pop().unwrap();
                    top = self.waiting.pop().unwrap();
                    (top.numbers[0], top.references[0]) = (first.0, kept.references[0]);
                    (top.numbers[1], top.references[1]) = second;
                }
                Instruction::Loop(callee) => {
                    let mut sum = 0i64;
                    for number in top.numbers[0]..top.numbers[1] {
                        let mut registers = top;
                        (registers.numbers[0], registers.numbers[1]) = (number, number + 1);
                        (registers.numbers[13], registers.numbers[14]) = (1, 1);
                        self.waiting.push(top);
                        sum = sum.wrapping_add(self.call(callee, &registers).0);
                        top = self.waiting.pop().unwrap();
                    }
                    (top.numbers[0], top.references[0]) = (sum, 0);
                }
                Instruction::Return => return (top.numbers[0], top.references[0]),
                Instruction::Print(number) => {
                    writeln!(self.output, "{}", top.numbers[number]).expect("standard output");
                }
            }
        }
    }
}

/// The lines of each function of a text, as words.
fn functions_of(text: &str) -> (HashMap<&str, usize>, Vec<Vec<Vec<&str>>>) {
    let (mut names, mut bodies) = (HashMap::new(), Vec::new());
    for line in text.lines() {
        let words: Vec<&str> = line.split_whitespace().take_while(|word| !word.starts_with('#')).collect();
        match words.as_slice() {
            [] | ["end"] => {}
            ["fn", name] => {
                names.insert(*name, bodies.len());
                bodies.push(Vec::new());
            }
            _ => bodies.last_mut().expect("a function").push(words),
        }
    }
    (names, bodies)
}

fn instruction_of(words: &[&str], names: &HashMap<&str, usize>, labels: &HashMap<&str, usize>) -> Instruction {
    let register = |at: usize| words[at][1..].parse::<usize>().expect("a register");
    let count = |at: usize| words[at].parse::<usize>().expect("a count");
    let calculate = |what| Instruction::Calculate(what, register(1), register(2), register(3));
    match words[0] {
        "set" => Instruction::Set(register(1), words[2].parse().expect("a number")),
        "mov" => Instruction::Move(register(1), register(2)),
        "movr" => Instruction::MoveReference(register(1), register(2)),
        "nil" => Instruction::Nil(register(1)),
        "add" => calculate(Calculation::Add),
        "sub" => calculate(Calculation::Sub),
        "mul" => calculate(Calculation::Mul),
        "div" => calculate(Calculation::Div),
        "rem" => calculate(Calculation::Rem),
        "lt" => calculate(Calculation::Less),
        "eq" => calculate(Calculation::Equal),
        "same" => Instruction::Same(register(1), register(2), register(3)),
        "jmp" => Instruction::Jump(labels[words[1]]),
        "jz" => Instruction::JumpAtZero(register(1), labels[words[2]]),
        "newm" => Instruction::Make(register(1), register(2), register(3)),
        "pack" => Instruction::Pack(register(1), count(2), count(3)),
        "getr" => Instruction::ReadReference(register(1), register(2), register(3)),
        "geti" => Instruction::ReadNumber(register(1), register(2), register(3)),
        "putr" => Instruction::WriteReference(register(1), register(2), register(3)),
        "puti" => Instruction::WriteNumber(register(1), register(2), register(3)),
        "cntr" => Instruction::References(register(1), register(2)),
        "cnti" => Instruction::Numbers(register(1), register(2)),
        "freeze" => Instruction::Freeze(register(1)),
        "cas" => Instruction::Swap(register(1), register(2), register(3), register(4), register(5)),
        "call" => Instruction::Call(names[words[1]]),
        "par" => Instruction::Fork(names[words[1]], names[words[2]]),
        "pfor" => Instruction::Loop(names[words[1]]),
        "ret" => Instruction::Return,
        "out" => Instruction::Print(register(1)),
        other => panic!("no instruction: {}", other),
    }
}

fn code_of(body: &[Vec<&str>], names: &HashMap<&str, usize>) -> Vec<Instruction> {
    let (mut labels, mut at) = (HashMap::new(), 0);
    for words in body {
        if words[0] == "lab" {
            labels.insert(words[1], at);
        } else {
            at += 1;
        }
    }
    let lines = body.iter().filter(|words| words[0] != "lab");
    let mut code: Vec<Instruction> = lines.map(|words| instruction_of(words, names, &labels)).collect();
    code.push(Instruction::Return);
    code
}

fn main() {
    let file = std::env::args().nth(1).expect("the FILE of a program");
    let limit = std::env::args().nth(2).map_or(4096, |word| word.parse().expect("a leaf limit in words"));
    let text = std::fs::read_to_string(file).expect("a text");
    let (names, bodies) = functions_of(&text);
    let functions = bodies.iter().map(|body| code_of(body, &names)).collect();
    let peer = Peer {
        functions,
        heap: Heap::default(),
        limit,
        waiting: Vec::new(),
        output: std::io::BufWriter::new(std::io::stdout()),
    };
    // (a task may call a thousand frames, and lie below a thousand forks)
    let run = move || {
        let mut peer = peer;
        peer.call(names_main(&text), &Frame { numbers: [0; 16], references: [0; 16] });
        writeln!(peer.output, "end: done").expect("standard output");
    };
    let thread = std::thread::Builder::new().stack_size(1 << 32).spawn(run);
    thread.expect("a thread").join().expect("a run");
}

fn names_main(text: &str) -> usize {
    functions_of(text).0["main"]
}
