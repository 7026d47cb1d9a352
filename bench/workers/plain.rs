//! Workers over one memo in plain Rust, with the locks of this repository's: one for each shard, under which claims and fills are
//! counted, one for the board, where strands that have ended are put down and workers sleep, and one for the queue of strands that
//! are ready. The questions of the script are one batch. It writes the replies, and on standard error how long the batch took.
//!
//!     plain NETLIST STIMULUS JOURNAL WORKERS SHARDS < SCRIPT
#[path = "../plain/circuit.rs"]
mod circuit;
#[path = "../plain/gates.rs"]
mod gates;
#[path = "../plain/store.rs"]
mod store;
#[path = "../plain/strand.rs"]
mod strand;

use circuit::Circuit;
use gates::Value;
use std::collections::{BTreeMap, VecDeque};
use std::fmt::Write as _;
use std::io;
use std::sync::{Condvar, Mutex};
use std::time::Instant;
use std::{fs, thread};
use store::Store;
use strand::{Asked, Next, Point, Strand};

const CAPACITY: usize = 16_384;

enum Entry {
    Told { query: usize, point: Point, cell: circuit::Cell },
    Claimed { query: usize, point: Point },
    Filled { query: usize, point: Point, cell: circuit::Cell },
    Evicted { signal: u32, start: u32 },
}

struct Claim {
    waiting: Vec<Strand>,
}

struct Shard {
    store: Store<Value>,
    claims: BTreeMap<Point, Claim>,
    journal: Vec<Entry>,
    /// How many claims and fills of each query the journal has.
    counts: Vec<u64>,
}

struct Board {
    ended: Vec<Option<Strand>>,
    left: usize,
    moves: u64,
    sleeping: u32,
}

struct Shared<'a> {
    circuit: &'a Circuit,
    shards: Vec<Mutex<Shard>>,
    board: Mutex<Board>,
    moved: Condvar,
    ready: Mutex<VecDeque<Strand>>,
}

impl Shared<'_> {
    fn shard(&self, signal: u32) -> &Mutex<Shard> {
        &self.shards[signal as usize % self.shards.len()]
    }

    fn push(&self, strand: Strand) {
        self.ready.lock().unwrap().push_back(strand);
        let mut board = self.board.lock().unwrap();
        board.moves += 1;
        if board.sleeping > 0 {
            self.moved.notify_one();
        }
    }

    /// The strand, if it goes on.
    fn ask(&self, mut strand: Strand, point: Point) -> Option<Strand> {
        let mut shard = self.shard(point.0).lock().unwrap();
        if let Some(store::Cell { start, end, value }) = shard.store.find(point) {
            let cell = circuit::Cell { start, end, value };
            shard.journal.push(Entry::Told { query: strand.query, point, cell });
            strand.hear(self.circuit, cell);
            return Some(strand);
        }
        if let Some(claim) = shard.claims.get_mut(&point) {
            claim.waiting.push(strand);
            return None;
        }
        let Some(left) = strand.left.checked_sub(1) else {
            panic!("the budget of a question of the measurements is enough");
        };
        strand.left = left;
        shard.claims.insert(point, Claim { waiting: Vec::new() });
        shard.journal.push(Entry::Claimed { query: strand.query, point });
        strand.frames.push(self.circuit.frame(point.0, point.1));
        shard.counts[strand.query] += 1;
        Some(strand)
    }

    fn fill(&self, strand: &mut Strand, point: Point) {
        let cell = strand.frames.pop().unwrap().cell(self.circuit);
        let mut shard = self.shard(point.0).lock().unwrap();
        let stored = store::Cell { start: cell.start, end: cell.end, value: cell.value };
        if let Some((signal, start)) = shard.store.put(point.0, stored) {
            shard.journal.push(Entry::Evicted { signal, start });
        }
        shard.journal.push(Entry::Filled { query: strand.query, point, cell });
        let woken = shard.claims.remove(&point).unwrap().waiting;
        shard.counts[strand.query] += 1;
        drop(shard);
        strand.hear(self.circuit, cell);
        for mut other in woken {
            other.hear(self.circuit, cell);
            self.push(other);
        }
    }

    fn end(&self, strand: Strand) {
        let mut board = self.board.lock().unwrap();
        let query = strand.query;
        board.ended[query] = Some(strand);
        board.left -= 1;
        if board.left == 0 {
            self.moved.notify_all();
        }
    }

    fn run(&self, strand: Strand) {
        let mut hand = Some(strand);
        while let Some(mut strand) = hand.take() {
            hand = match strand.next_step(self.circuit) {
                Next::Ask(point) => self.ask(strand, point),
                Next::Fill(point) => {
                    self.fill(&mut strand, point);
                    Some(strand)
                }
                Next::Done => {
                    self.end(strand);
                    None
                }
            };
        }
    }

    fn work(&self) {
        loop {
            let seen = self.board.lock().unwrap().moves;
            let strand = self.ready.lock().unwrap().pop_front();
            if let Some(strand) = strand {
                self.run(strand);
                continue;
            }
            let mut board = self.board.lock().unwrap();
            board.sleeping += 1;
            let mut board = self.moved.wait_while(board, |board| board.moves == seen && board.left > 0).unwrap();
            board.sleeping -= 1;
            if board.left == 0 {
                return;
            }
        }
    }
}

/// The journal of one batch.
fn journal_text(shards: &[Mutex<Shard>]) -> String {
    let mut text = format!("journal shards {} cells {CAPACITY}\nbatch 1\n", shards.len());
    for (number, shard) in shards.iter().enumerate() {
        writeln!(text, "shard {number}").unwrap();
        for entry in &shard.lock().unwrap().journal {
            write_entry(&mut text, entry);
        }
    }
    text.push_str("end\n");
    text
}

fn write_entry(text: &mut String, entry: &Entry) {
    let cell_text = |cell: &circuit::Cell| format!("{} {} {}", cell.start, cell.end, cell.value.letter());
    match entry {
        Entry::Told { query, point, cell } => writeln!(text, "told {} {} {} {}", query + 1, point.0, point.1, cell_text(cell)),
        Entry::Claimed { query, point } => writeln!(text, "claim {} {} {}", query + 1, point.0, point.1),
        Entry::Filled { query, point, cell } => writeln!(text, "fill {} {} {} {}", query + 1, point.0, point.1, cell_text(cell)),
        Entry::Evicted { signal, start } => writeln!(text, "evict {signal} {start}"),
    }
    .unwrap();
}

fn main() -> io::Result<()> {
    let Asked { circuit, journal, workers, shards, questions } = Asked::read()?;
    let begun = Instant::now();
    let shard = || {
        Mutex::new(Shard {
            store: Store::new(CAPACITY),
            claims: BTreeMap::new(),
            journal: Vec::new(),
            counts: vec![0; questions.len()],
        })
    };
    let strands: VecDeque<Strand> =
        questions.iter().enumerate().map(|(query, question)| Strand::new(query, question, &circuit)).collect();
    let shared = Shared {
        circuit: &circuit,
        shards: (0..shards).map(|_| shard()).collect(),
        board: Mutex::new(Board {
            ended: strands.iter().map(|_| None).collect(),
            left: strands.len(),
            moves: 0,
            sleeping: 0,
        }),
        moved: Condvar::new(),
        ready: Mutex::new(strands),
    };
    thread::scope(|scope| {
        for _ in 0..workers {
            scope.spawn(|| shared.work());
        }
    });
    let ran = begun.elapsed();
    let board = shared.board.into_inner().unwrap();
    let booked = |shard: &Mutex<Shard>| shard.lock().unwrap().counts.iter().sum::<u64>();
    let mut out = io::BufWriter::new(io::stdout().lock());
    for (question, strand) in questions.iter().zip(&board.ended) {
        question.write(&mut out, strand.as_ref().map(|strand| &strand.runs[..]))?;
    }
    fs::write(journal, journal_text(&shared.shards))?;
    eprintln!("{} claims and fills, {} ms", shared.shards.iter().map(booked).sum::<u64>(), ran.as_millis());
    Ok(())
}
