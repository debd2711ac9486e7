// The plain evaluator that the benchmark compares with: a board's two passes over decoded modules.
//
//     plain BOARD KIND STEPS
//
// KIND is b (bits), t (three levels) or r (64 rows). The board must be an accepted one: nothing is judged here.
// A line on stdout has a checksum over all outputs and counts, and the total count; a line on stderr has the
// nanoseconds per step. The program stepper prints the same line for the same words.

use std::process::ExitCode;
use std::time::{Duration, Instant};

// ---- Kinds

trait Kind: Copy {
    const LOW: Self;
    const HIGH: Self;
    fn not(self) -> Self;
    fn and(self, other: Self) -> Self;
    fn or(self, other: Self) -> Self;
    fn xor(self, other: Self) -> Self;
    fn pick(self, first: Self, second: Self) -> Self;

    /// The input value that a word of the stream stands for.
    fn drawn(word: u64) -> Self;

    /// What the checksum takes of a value.
    fn code(self) -> u64;
}

impl Kind for bool {
    const LOW: bool = false;
    const HIGH: bool = true;

    fn not(self) -> bool {
        !self
    }

    fn and(self, other: bool) -> bool {
        self & other
    }

    fn or(self, other: bool) -> bool {
        self | other
    }

    fn xor(self, other: bool) -> bool {
        self ^ other
    }

    fn pick(self, first: bool, second: bool) -> bool {
        if self { first } else { second }
    }

    fn drawn(word: u64) -> bool {
        word >> 63 == 1
    }

    fn code(self) -> u64 {
        self as u64
    }
}

#[derive(Clone, Copy)]
enum Level {
    Zero,
    One,
    Unknown,
}

use Level::{One, Unknown, Zero};

// Tables have no branch that a processor could guess wrong.
const NOT: [Level; 3] = [One, Zero, Unknown];
const AND: [[Level; 3]; 3] = [[Zero, Zero, Zero], [Zero, One, Unknown], [Zero, Unknown, Unknown]];
const OR: [[Level; 3]; 3] = [[Zero, One, Unknown], [One, One, One], [Unknown, One, Unknown]];
const XOR: [[Level; 3]; 3] = [[Zero, One, Unknown], [One, Zero, Unknown], [Unknown, Unknown, Unknown]];

impl Kind for Level {
    const LOW: Level = Zero;
    const HIGH: Level = One;

    fn not(self) -> Level {
        NOT[self as usize]
    }

    fn and(self, other: Level) -> Level {
        AND[self as usize][other as usize]
    }

    fn or(self, other: Level) -> Level {
        OR[self as usize][other as usize]
    }

    fn xor(self, other: Level) -> Level {
        XOR[self as usize][other as usize]
    }

    fn pick(self, first: Level, second: Level) -> Level {
        [second, first, Unknown][self as usize]
    }

    fn drawn(word: u64) -> Level {
        match word >> 59 {
            0 => Unknown,
            1..=15 => Zero,
            _ => One,
        }
    }

    fn code(self) -> u64 {
        self as u64
    }
}

impl Kind for u64 {
    const LOW: u64 = 0;
    const HIGH: u64 = u64::MAX;

    fn not(self) -> u64 {
        !self
    }

    fn and(self, other: u64) -> u64 {
        self & other
    }

    fn or(self, other: u64) -> u64 {
        self | other
    }

    fn xor(self, other: u64) -> u64 {
        self ^ other
    }

    fn pick(self, first: u64, second: u64) -> u64 {
        self & first | !self & second
    }

    fn drawn(word: u64) -> u64 {
        word
    }

    fn code(self) -> u64 {
        self
    }
}

// ---- Decoded boards

/// What the first pass does at a place. Operands and results are wires.
#[derive(Clone, Copy)]
enum Place {
    Low([u8; 0], u8),
    High([u8; 0], u8),
    Buf([u8; 1], u8),
    Not([u8; 1], u8),
    And([u8; 2], u8),
    Or([u8; 2], u8),
    Xor([u8; 2], u8),
    Nand([u8; 2], u8),
    Nor([u8; 2], u8),
    Xnor([u8; 2], u8),
    Pick([u8; 3], u8),
    Cell { cell: u16, out: u8 },
    Child(u8),
}

/// What the second pass does at an entry of the state list.
#[derive(Clone, Copy)]
enum Entry {
    Store { cell: u16, wire: u8 },
    Child(u8),
}

struct Child {
    module: usize,
    first_cell: usize,
    ins: Vec<u8>,
    outs: Vec<u8>,
}

struct Module {
    inputs: usize,
    wires: usize,
    gates: u32,
    cells: usize,
    outs: Vec<u8>,
    places: Vec<Place>,
    entries: Vec<Entry>,
    children: Vec<Child>,
}

struct Occurrence<'f> {
    reference: usize,
    ins: &'f [u8],
    outs: &'f [u8],
}

const CELL: usize = 11;
const FIRST_MODULE: usize = 256;

struct Reader<'f> {
    rest: &'f [u8],
}

impl<'f> Reader<'f> {
    fn record(&mut self) -> &'f [u8] {
        let length = number(self.rest);
        let (body, rest) = self.rest[4..].split_at(length);
        self.rest = rest;
        body
    }

    fn occurrence(&mut self) -> Occurrence<'f> {
        let body = self.record();
        let (ins, outs) = body[4..].split_at(body[2] as usize);
        Occurrence { reference: number(body), ins, outs }
    }
}

fn number(bytes: &[u8]) -> usize {
    u16::from_le_bytes([bytes[0], bytes[1]]) as usize
}

struct ModuleRecords<'f> {
    inputs: usize,
    wires: usize,
    outs: &'f [u8],
    states: &'f [u8],
    occurrences: Vec<Occurrence<'f>>,
}

fn read_module<'f>(reader: &mut Reader<'f>) -> ModuleRecords<'f> {
    let body = reader.record();
    let (outs, states) = body[5..].split_at(body[1] as usize);
    ModuleRecords {
        inputs: body[0] as usize,
        wires: body[2] as usize,
        outs,
        states,
        occurrences: (0..body[3]).map(|_| reader.occurrence()).collect(),
    }
}

fn decode(file: &[u8]) -> Vec<Module> {
    let mut reader = Reader { rest: file };
    let count = number(reader.record());
    let records: Vec<_> = (0..count).map(|_| read_module(&mut reader)).collect();
    let cells = cell_counts(&records);
    records.iter().map(|each| decode_module(each, &cells)).collect()
}

/// The cells of each module. A module uses only later ones, so the last comes first.
fn cell_counts(records: &[ModuleRecords]) -> Vec<usize> {
    let mut cells = vec![0; records.len()];
    for (number, module) in records.iter().enumerate().rev() {
        cells[number] = module.occurrences.iter().map(|each| cells_at(each, &cells)).sum();
    }
    cells
}

fn cells_at(occurrence: &Occurrence, cells: &[usize]) -> usize {
    match occurrence.reference {
        CELL => 1,
        gate if gate < CELL => 0,
        module => cells[module - FIRST_MODULE],
    }
}

/// Where each occurrence's cells begin among its module's: they lie in the order of the state list.
fn cell_starts(records: &ModuleRecords, cells: &[usize]) -> Vec<usize> {
    let mut starts = vec![0; records.occurrences.len()];
    let mut next = 0;
    for &entry in records.states {
        starts[entry as usize] = next;
        next += cells_at(&records.occurrences[entry as usize], cells);
    }
    starts
}

fn decode_module(records: &ModuleRecords, cells: &[usize]) -> Module {
    let starts = cell_starts(records, cells);
    let mut children = Vec::new();
    let mut places = Vec::new();
    let mut entry_of = Vec::new();
    for (occurrence, &start) in records.occurrences.iter().zip(&starts) {
        let place = decode_place(occurrence, start, children.len() as u8);
        entry_of.push(match place {
            Place::Child(child) => Entry::Child(child),
            Place::Cell { cell, .. } => Entry::Store { cell, wire: occurrence.ins[0] },
            _ => Entry::Child(u8::MAX),
        });
        if let Place::Child(_) = place {
            children.push(Child {
                module: occurrence.reference - FIRST_MODULE,
                first_cell: start,
                ins: occurrence.ins.to_vec(),
                outs: occurrence.outs.to_vec(),
            });
        }
        places.push(place);
    }
    Module {
        inputs: records.inputs,
        wires: records.wires,
        gates: records.occurrences.iter().filter(|each| each.reference < CELL).count() as u32,
        cells: records.occurrences.iter().map(|each| cells_at(each, cells)).sum(),
        outs: records.outs.to_vec(),
        places,
        entries: records.states.iter().map(|&entry| entry_of[entry as usize]).collect(),
        children,
    }
}

fn decode_place(occurrence: &Occurrence, start: usize, child: u8) -> Place {
    let ins = occurrence.ins;
    let Some(&out) = occurrence.outs.first() else {
        return Place::Child(child);
    };
    match occurrence.reference {
        0 => Place::Low([], out),
        1 => Place::High([], out),
        2 => Place::Buf([ins[0]], out),
        3 => Place::Not([ins[0]], out),
        4 => Place::And([ins[0], ins[1]], out),
        5 => Place::Or([ins[0], ins[1]], out),
        6 => Place::Xor([ins[0], ins[1]], out),
        7 => Place::Nand([ins[0], ins[1]], out),
        8 => Place::Nor([ins[0], ins[1]], out),
        9 => Place::Xnor([ins[0], ins[1]], out),
        10 => Place::Pick([ins[0], ins[1], ins[2]], out),
        CELL => Place::Cell { cell: start as u16, out },
        _ => Place::Child(child),
    }
}

// ---- The two passes

/// The wires of a module on the way down. A wire's number is a byte, so no index is out of range.
type Wires<K> = [K; 256];

const DEPTH: usize = 8;

struct Evaluator<'b, K> {
    modules: &'b [Module],
    windows: [Wires<K>; DEPTH],
}

impl<'b, K: Kind> Evaluator<'b, K> {
    fn new(modules: &'b [Module]) -> Self {
        Evaluator { modules, windows: [[K::LOW; 256]; DEPTH] }
    }

    /// Fills in the outputs, replaces the cells, and answers how many gates were evaluated.
    #[inline(never)]
    fn step(&mut self, inputs: &[K], cells: &mut [K], outputs: &mut [K]) -> u32 {
        let top = &self.modules[0];
        self.windows[0][..inputs.len()].copy_from_slice(inputs);
        let first = first_pass(self.modules, top, &mut self.windows, cells);
        for (output, &wire) in outputs.iter_mut().zip(&top.outs) {
            *output = self.windows[0][wire as usize];
        }
        first + second_pass(self.modules, top, &mut self.windows, cells)
    }
}

/// The inputs lie in the first window already; the wires are left there.
fn first_pass<K: Kind>(modules: &[Module], module: &Module, windows: &mut [Wires<K>], cells: &[K]) -> u32 {
    let Some((wires, below)) = windows.split_first_mut() else { return 0 };
    wires[module.inputs..module.wires].fill(K::LOW);
    let mut count = module.gates;
    for place in &module.places {
        let (out, value) = match *place {
            Place::Low([], out) => (out, K::LOW),
            Place::High([], out) => (out, K::HIGH),
            Place::Buf([a], out) => (out, wires[a as usize]),
            Place::Not([a], out) => (out, wires[a as usize].not()),
            Place::And([a, b], out) => (out, wires[a as usize].and(wires[b as usize])),
            Place::Or([a, b], out) => (out, wires[a as usize].or(wires[b as usize])),
            Place::Xor([a, b], out) => (out, wires[a as usize].xor(wires[b as usize])),
            Place::Nand([a, b], out) => (out, wires[a as usize].and(wires[b as usize]).not()),
            Place::Nor([a, b], out) => (out, wires[a as usize].or(wires[b as usize]).not()),
            Place::Xnor([a, b], out) => (out, wires[a as usize].xor(wires[b as usize]).not()),
            Place::Pick([a, b, c], out) => (out, wires[a as usize].pick(wires[b as usize], wires[c as usize])),
            Place::Cell { cell, out } => (out, cells[cell as usize]),
            Place::Child(child) => {
                let child = &module.children[child as usize];
                let inner = &modules[child.module];
                hand_down(wires, child, below);
                count += first_pass(modules, inner, below, &cells[child.first_cell..]);
                for (&to, &from) in child.outs.iter().zip(&inner.outs) {
                    wires[to as usize] = below[0][from as usize];
                }
                continue;
            }
        };
        wires[out as usize] = value;
    }
    count
}

/// The wires lie in the first window as the first pass left them.
fn second_pass<K: Kind>(modules: &[Module], module: &Module, windows: &mut [Wires<K>], cells: &mut [K]) -> u32 {
    let Some((wires, below)) = windows.split_first_mut() else { return 0 };
    let mut count = 0;
    for entry in &module.entries {
        match *entry {
            Entry::Store { cell, wire } => cells[cell as usize] = wires[wire as usize],
            Entry::Child(child) => {
                let child = &module.children[child as usize];
                let inner = &modules[child.module];
                let own = &mut cells[child.first_cell..];
                hand_down(wires, child, below);
                count += first_pass(modules, inner, below, own);
                count += second_pass(modules, inner, below, own);
            }
        }
    }
    count
}

fn hand_down<K: Kind>(wires: &Wires<K>, child: &Child, below: &mut [Wires<K>]) {
    for (to, &from) in below[0].iter_mut().zip(&child.ins) {
        *to = wires[from as usize];
    }
}

// ---- Runs on a fixed stream of inputs

/// After so many steps a new run begins, from low cells.
const RUN: usize = 4096;

struct Stream(u64);

impl Stream {
    fn next(&mut self) -> u64 {
        self.0 ^= self.0 << 13;
        self.0 ^= self.0 >> 7;
        self.0 ^= self.0 << 17;
        self.0
    }
}

struct Totals {
    checksum: u64,
    count: u64,
    time: Duration,
}

impl Totals {
    fn take(&mut self, value: u64) {
        self.checksum = (self.checksum ^ value).wrapping_mul(0x9e37_79b9_7f4a_7c15).rotate_left(29);
    }
}

/// Written at once, so that no page of it is touched for the first time while time is taken.
fn filled<T: Clone>(count: usize, value: T) -> Vec<T> {
    let mut made = Vec::with_capacity(count);
    made.resize(count, value);
    made
}

/// A run of so many steps on the inputs that come next in the stream.
fn run<K: Kind>(modules: &[Module], stream: &mut Stream, steps: usize, totals: &mut Totals) {
    let top = &modules[0];
    let (width, height) = (top.inputs, top.outs.len());
    let inputs: Vec<K> = (0..steps * width).map(|_| K::drawn(stream.next())).collect();
    let mut tape = filled(steps * height, K::LOW);
    let mut counts = filled(steps, 0);
    let mut cells = filled(top.cells, K::LOW);
    let mut evaluator = Evaluator::new(modules);
    let start = Instant::now();
    for (cycle, count) in counts.iter_mut().enumerate() {
        let given = &inputs[cycle * width..(cycle + 1) * width];
        let outputs = &mut tape[cycle * height..(cycle + 1) * height];
        *count = evaluator.step(given, &mut cells, outputs);
    }
    totals.time += start.elapsed();
    for value in tape {
        totals.take(value.code());
    }
    for count in counts {
        totals.take(count as u64);
        totals.count += count as u64;
    }
}

fn run_all<K: Kind>(modules: &[Module], steps: usize) {
    let mut stream = Stream(0x2545_f491_4f6c_dd1d);
    let mut totals = Totals { checksum: 0, count: 0, time: Duration::ZERO };
    let mut left = steps;
    while left > 0 {
        let now = left.min(RUN);
        run::<K>(modules, &mut stream, now, &mut totals);
        left -= now;
    }
    println!("{:016x} {}", totals.checksum, totals.count);
    eprintln!("{} ns per step", totals.time.as_nanos() / steps.max(1) as u128);
}

fn main() -> ExitCode {
    let words: Vec<String> = std::env::args().collect();
    let [_, path, kind, steps] = &words[..] else { return usage() };
    let (Ok(file), Ok(steps)) = (std::fs::read(path), steps.parse()) else { return usage() };
    let modules = decode(&file);
    match kind.as_str() {
        "b" => run_all::<bool>(&modules, steps),
        "t" => run_all::<Level>(&modules, steps),
        "r" => run_all::<u64>(&modules, steps),
        _ => return usage(),
    }
    ExitCode::SUCCESS
}

fn usage() -> ExitCode {
    eprintln!("usage: plain BOARD KIND STEPS, with the kind b, t or r");
    ExitCode::from(2)
}
