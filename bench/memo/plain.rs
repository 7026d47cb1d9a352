//! A shard of the memo in plain Rust, and one strand that runs over it: an ordered index of the ends of stored cells beside a list of
//! them that is linked by recency, an ordered map of claims with those that wait, and a journal. The circuit is a gate that reads
//! itself, `y = NAND(en, y)`, where `en` is 0 at 0 and 1 from 4 on.
#[path = "../plain/store.rs"]
mod store;

use std::collections::BTreeMap;
use std::time::Instant;
use store::{Key, Store};

const HORIZON: u32 = 1_000_000;
const SETTINGS: [(u32, u8); 2] = [(0, 0), (4, 1)];
const CAPACITY: usize = 16_384;
const BUDGET: u32 = 500_000;
const TIME: u32 = 400_000;
const EN: u32 = 0;
const Y: u32 = 1;
const X: u8 = 2;

type Point = Key;
type Cell = store::Cell<u8>;

enum Entry {
    Told { q: u32, p: Point, cell: Cell },
    Claimed { q: u32, p: Point },
    Filled { q: u32, p: Point, cell: Cell },
    Evicted { signal: u32, start: u32 },
}

struct Claim {
    q: u32,
    waiting: Vec<Strand>,
}

struct Shard {
    store: Store<u8>,
    claims: BTreeMap<Point, Claim>,
    journal: Vec<Entry>,
}

/// A claimed point: how many of its pins were looked at, and what they gave.
struct Frame {
    p: Point,
    looked: usize,
    start: u32,
    end: u32,
    seen: u8,
}

struct Strand {
    q: u32,
    root: Option<Point>,
    stack: Vec<Frame>,
    charged: u32,
    last: Option<Cell>,
}

enum Next {
    Ask(Point),
    Fill(Point),
    Done,
}

/// The cell of a point that needs no evaluation.
fn base(p: Point) -> Option<Cell> {
    if p.0 == EN {
        let after = SETTINGS.partition_point(|setting| setting.0 <= p.1);
        let end = SETTINGS.get(after).map_or(HORIZON + 1, |setting| setting.0);
        return Some(match after {
            0 => Cell { start: 0, end, value: X },
            n => Cell { start: SETTINGS[n - 1].0, end, value: SETTINGS[n - 1].1 },
        });
    }
    (p.1 == 0).then_some(Cell { start: 0, end: 1, value: X })
}

impl Frame {
    fn new(p: Point) -> Frame {
        Frame { p, looked: 0, start: 1, end: HORIZON + 1, seen: 1 }
    }

    fn is_done(&self) -> bool {
        self.seen == 0 || self.looked == 2
    }

    fn next_pin(&self) -> Point {
        ([EN, Y][self.looked], self.p.1 - 1)
    }

    fn see(&mut self, cell: Cell) {
        self.start = self.start.max(cell.start + 1);
        self.end = self.end.min(cell.end + 1);
        self.seen = match (self.seen, cell.value) {
            (0, _) | (_, 0) => 0,
            (1, 1) => 1,
            _ => X,
        };
        self.looked += 1;
    }

    fn cell(&self) -> Cell {
        let value = match self.seen {
            0 => 1,
            1 => 0,
            other => other,
        };
        Cell { start: self.start, end: self.end, value }
    }
}

impl Strand {
    /// Hears base answers until a step is needed, and answers that step.
    fn next_step(&mut self) -> Next {
        let Some(top) = self.stack.last_mut() else {
            return self.root.map_or(Next::Done, Next::Ask);
        };
        while !top.is_done() {
            let pin = top.next_pin();
            match base(pin) {
                Some(cell) => top.see(cell),
                None => return Next::Ask(pin),
            }
        }
        Next::Fill(top.p)
    }

    fn hear(&mut self, cell: Cell) {
        match self.stack.last_mut() {
            Some(top) => top.see(cell),
            None => {
                self.last = Some(cell);
                self.root = None;
            }
        }
    }
}

impl Shard {
    /// Whether the strand goes on.
    fn ask(&mut self, strand: &mut Strand, p: Point) -> bool {
        if let Some(cell) = self.store.find(p) {
            self.journal.push(Entry::Told { q: strand.q, p, cell });
            strand.hear(cell);
            return true;
        }
        if self.claims.contains_key(&p) || strand.charged == BUDGET {
            return false;
        }
        self.claims.insert(p, Claim { q: strand.q, waiting: Vec::new() });
        strand.stack.push(Frame::new(p));
        strand.charged += 1;
        self.journal.push(Entry::Claimed { q: strand.q, p });
        true
    }

    fn holds(&self, p: Point, q: u32) -> bool {
        self.claims.get(&p).is_some_and(|claim| claim.q == q)
    }

    fn fill(&mut self, strand: &mut Strand, p: Point) -> Vec<Strand> {
        let cell = strand.stack.last().unwrap().cell();
        if let Some((signal, start)) = self.store.put(p.0, cell) {
            self.journal.push(Entry::Evicted { signal, start });
        }
        self.journal.push(Entry::Filled { q: strand.q, p, cell });
        let mut woken = self.claims.remove(&p).unwrap().waiting;
        for other in &mut woken {
            other.hear(cell);
        }
        strand.stack.pop();
        strand.hear(cell);
        woken
    }
}

/// Whether the strand has come to its end.
fn run(shard: &mut Shard, strand: &mut Strand) -> bool {
    loop {
        match strand.next_step() {
            Next::Ask(p) => {
                if !shard.ask(strand, p) {
                    return false;
                }
            }
            Next::Fill(p) => {
                if !shard.holds(p, strand.q) {
                    return false;
                }
                shard.fill(strand, p);
            }
            Next::Done => return true,
        }
    }
}

fn checksum(journal: &[Entry]) -> u64 {
    let mix = |sum: u64, numbers: &[u32]| numbers.iter().fold(sum, |sum, n| sum.wrapping_mul(31).wrapping_add(*n as u64));
    journal.iter().fold(0, |sum, entry| match *entry {
        Entry::Told { q, p, cell } => mix(sum, &[0, q, p.0, p.1, cell.start, cell.end, cell.value as u32]),
        Entry::Claimed { q, p } => mix(sum, &[1, q, p.0, p.1]),
        Entry::Filled { q, p, cell } => mix(sum, &[2, q, p.0, p.1, cell.start, cell.end, cell.value as u32]),
        Entry::Evicted { signal, start } => mix(sum, &[3, signal, start]),
    })
}

fn main() {
    let mut shard = Shard { store: Store::new(CAPACITY), claims: BTreeMap::new(), journal: Vec::new() };
    let mut strand = Strand { q: 1, root: Some((Y, TIME)), stack: Vec::new(), charged: 0, last: None };
    let start = Instant::now();
    let ended = run(&mut shard, &mut strand);
    let ran = start.elapsed().as_millis();
    let entries = shard.journal.len();
    let sum = checksum(&shard.journal);
    match strand.last {
        Some(cell) if ended => println!("{entries} entries, checksum {sum}, cell {} {} {}, {ran} ms", cell.start, cell.end, cell.value),
        _ => println!("the strand stopped"),
    }
}
