//! The same workload in plain Rust: it builds the circuit directly, answers the sixteen queries by demand, one after another, with
//! the cells of all of them in one of std's ordered maps, and writes the journal that a session with one worker writes.
//!
//!     plain N JOURNAL [texts]
//!
//! With the word `texts` it first writes the workload as texts and reads these back, as the program does.
#[path = "../plain/gates.rs"]
#[allow(dead_code)]
mod gates;
mod texts;

use gates::{Kind, Value};
use std::collections::BTreeMap;
use std::fmt::Write;
use std::{env, fs, io};

const INPUTS: u32 = 16;
const LAYERS: u32 = 100;
const PLACES: u32 = 2000;
const HORIZON: u32 = 100_000;
const QUERIES: u32 = 16;
const SHARDS: u32 = 8;
const CAPACITY: u32 = 16_384;

struct Draws(u64);

impl Draws {
    fn next(&mut self) -> u32 {
        self.0 = (1_103_515_245 * self.0 + 12_345) % 2_147_483_648;
        (self.0 / 65_536) as u32
    }
}

const KINDS: [Kind; 6] = [Kind::And, Kind::Nand, Kind::Or, Kind::Nor, Kind::Xor, Kind::Xnor];

#[derive(Clone, Copy)]
struct Gate {
    kind: Kind,
    pins: [u32; 2],
}

#[derive(Clone, Copy)]
struct Cell {
    start: u32,
    end: u32,
    value: Value,
}

#[derive(Clone, Copy)]
struct Query {
    line: u32,
    signal: u32,
    from: u32,
    to: u32,
}

/// A claimed point, and what its pins gave so far.
struct Claim {
    signal: u32,
    time: u32,
    looked: usize,
    seen: Value,
    start: u32,
    end: u32,
}

/// Whatever number the draws start from, every delay is 1.
struct Work {
    gates: Vec<Gate>,
    settings: Vec<[Value; INPUTS as usize]>,
    /// Of each input the times at which its value changes. At 0 all are set.
    changes: [Vec<u32>; INPUTS as usize],
    queries: Vec<Query>,
}

struct Memo {
    cells: BTreeMap<(u32, u32), Cell>,
    shards: Vec<String>,
    evaluations: u32,
}

impl Work {
    fn new(number: u64) -> Work {
        let mut draws = Draws(number);
        let mut gates = Vec::new();
        for layer in 0..LAYERS {
            for place in 0..PLACES {
                let kind = KINDS[(draws.next() % 6) as usize];
                let pins = match layer {
                    0 => [place % INPUTS, (place + 1) % INPUTS],
                    _ => [signal_of(layer - 1, place), signal_of(layer - 1, (place + 1) % PLACES)],
                };
                gates.push(Gate { kind, pins });
            }
        }
        let mut settings = Vec::new();
        for _ in (0..=HORIZON).step_by(10) {
            settings.push([(); INPUTS as usize].map(|()| Value::of(draws.next() % 2 == 1)));
        }
        let mut queries = Vec::new();
        for i in 0..QUERIES {
            let signal = signal_of(LAYERS - 1, draws.next() % PLACES);
            let from = 90_000 + draws.next() % 9_900;
            let to = if i % 4 == 0 { from + 20 } else { from + 1 };
            queries.push(Query { line: i + 1, signal, from, to });
        }
        Work::of(gates, settings, queries)
    }

    fn of(gates: Vec<Gate>, settings: Vec<[Value; INPUTS as usize]>, queries: Vec<Query>) -> Work {
        let changes = std::array::from_fn(|input| {
            let is_new = |turn: &usize| *turn == 0 || settings[*turn][input] != settings[*turn - 1][input];
            (0..settings.len()).filter(is_new).map(|turn| 10 * turn as u32).collect()
        });
        Work { gates, settings, changes, queries }
    }

    /// The cell of a point that needs no evaluation.
    fn base(&self, signal: u32, time: u32) -> Option<Cell> {
        if signal < INPUTS {
            let changes = &self.changes[signal as usize];
            let after = changes.partition_point(|change| *change <= time);
            let start = changes[after - 1];
            let end = changes.get(after).copied().unwrap_or(HORIZON + 1);
            Some(Cell { start, end, value: self.settings[time as usize / 10][signal as usize] })
        } else if time == 0 {
            Some(Cell { start: 0, end: 1, value: Value::Unknown })
        } else {
            None
        }
    }

    fn gate(&self, signal: u32) -> Gate {
        self.gates[(signal - INPUTS) as usize]
    }

    fn claim(&self, signal: u32, time: u32) -> Claim {
        Claim { signal, time, looked: 0, seen: self.gate(signal).kind.first(), start: 1, end: HORIZON + 1 }
    }
}

fn signal_of(layer: u32, place: u32) -> u32 {
    INPUTS + PLACES * layer + place
}

impl Memo {
    fn new() -> Memo {
        Memo { cells: BTreeMap::new(), shards: vec![String::new(); SHARDS as usize], evaluations: 0 }
    }

    fn journal(&mut self, signal: u32) -> &mut String {
        &mut self.shards[(signal % SHARDS) as usize]
    }

    /// The stored cell that covers the point, if there is one; it is told.
    fn ask(&mut self, query: u32, signal: u32, time: u32) -> Option<Cell> {
        let (&(of, _), &cell) = self.cells.range(..=(signal, time)).next_back()?;
        if of != signal || cell.end <= time {
            return None;
        }
        let Cell { start, end, value } = cell;
        writeln!(self.journal(signal), "told {query} {signal} {time} {start} {end} {}", value.letter()).unwrap();
        Some(cell)
    }

    fn claim(&mut self, query: u32, signal: u32, time: u32) {
        writeln!(self.journal(signal), "claim {query} {signal} {time}").unwrap();
    }

    fn fill(&mut self, query: u32, signal: u32, time: u32, cell: Cell) {
        let Cell { start, end, value } = cell;
        writeln!(self.journal(signal), "fill {query} {signal} {time} {start} {end} {}", value.letter()).unwrap();
        self.cells.insert((signal, start), cell);
        self.evaluations += 1;
    }
}

impl Claim {
    fn hear(&mut self, gate: Gate, cell: Cell) {
        self.start = self.start.max(cell.start + 1);
        self.end = self.end.min(cell.end + 1);
        self.seen = gate.kind.join(self.seen, cell.value);
        self.looked = if gate.kind.decides(cell.value) { gate.pins.len() } else { self.looked + 1 };
    }
}

/// The cell of a root.
fn demand(work: &Work, memo: &mut Memo, query: u32, signal: u32, time: u32) -> Cell {
    if let Some(cell) = work.base(signal, time).or_else(|| memo.ask(query, signal, time)) {
        return cell;
    }
    memo.claim(query, signal, time);
    let mut claims = vec![work.claim(signal, time)];
    loop {
        let claim = claims.last_mut().unwrap();
        let gate = work.gate(claim.signal);
        if claim.looked < gate.pins.len() {
            let (signal, time) = (gate.pins[claim.looked], claim.time - 1);
            match work.base(signal, time).or_else(|| memo.ask(query, signal, time)) {
                Some(cell) => claim.hear(gate, cell),
                None => {
                    memo.claim(query, signal, time);
                    claims.push(work.claim(signal, time));
                }
            }
        } else {
            let cell = Cell { start: claim.start, end: claim.end, value: gate.kind.shown(claim.seen) };
            memo.fill(query, claim.signal, claim.time, cell);
            claims.pop();
            match claims.last_mut() {
                None => return cell,
                Some(parent) => parent.hear(work.gate(parent.signal), cell),
            }
        }
    }
}

/// The values of the maximal runs of a window.
fn runs(work: &Work, memo: &mut Memo, query: Query) -> Vec<Value> {
    let mut runs = Vec::new();
    let mut time = query.from;
    while time < query.to {
        let cell = demand(work, memo, query.line, query.signal, time);
        if runs.last() != Some(&cell.value) {
            runs.push(cell.value);
        }
        time = cell.end;
    }
    runs
}

fn journal_text(memo: &Memo) -> String {
    let mut text = format!("journal shards {SHARDS} cells {CAPACITY}\nbatch 1\n");
    for (number, entries) in memo.shards.iter().enumerate() {
        writeln!(text, "shard {number}").unwrap();
        text.push_str(entries);
    }
    text.push_str("end\n");
    text
}

fn main() -> io::Result<()> {
    let words: Vec<String> = env::args().collect();
    let number = words[1].parse().expect("a number");
    let work = match words.get(3).map(String::as_str) {
        Some("texts") => texts::read_back(number).expect("texts that are read"),
        _ => Work::new(number),
    };
    let mut memo = Memo::new();
    let (mut lines, mut ones) = (0, 0);
    for query in &work.queries {
        let runs = runs(&work, &mut memo, *query);
        lines += runs.len();
        ones += runs.iter().filter(|value| **value == Value::One).count();
    }
    fs::write(&words[2], journal_text(&memo))?;
    println!("work {number} replies {QUERIES} lines {lines} ones {ones}");
    eprintln!("{} evaluations", memo.evaluations);
    Ok(())
}
