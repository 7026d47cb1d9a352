//! What a session would cost if a step touched few lines of the processor's cache: the steps of this repository's program (claims, fills,
//! told cells, strands that wait) by workers over shards with a lock each, but over compact data. It writes the replies and, with one
//! worker, the journal of the program, byte for byte, as long as the program evicts nothing: here all cells have room. The questions of
//! the script are one batch. On standard error it says how many steps there were, and how many microseconds evaluation and the whole
//! batch took, without reading the files.
//!
//!     plain NETLIST STIMULUS JOURNAL WORKERS SHARDS < SCRIPT
mod cells;
#[path = "../plain/circuit.rs"]
mod circuit;
mod claims;
#[path = "../plain/gates.rs"]
mod gates;
mod journal;
mod lock;
#[path = "../plain/strand.rs"]
mod strand;

use cells::Cells;
use circuit::Circuit;
use claims::{Claims, Waiting};
use journal::{Entry, section};
use lock::Lock;
use std::collections::VecDeque;
use std::io::{self, BufWriter, Write};
use std::sync::{Condvar, Mutex};
use std::time::Instant;
use std::{fs, mem, thread};
use strand::{Asked, Next, Point, Strand};

/// The cells for which a shard of the program has room; here only the head of the journal says so.
const CAPACITY: usize = 16_384;

/// The signals whose number modulo the number of shards is the same, each by its number divided by it.
struct Shard {
    cells: Cells,
    claims: Claims,
    journal: Vec<Entry>,
}

/// A shard and its lock have two lines of the cache, which the processor fetches together, for themselves.
#[repr(align(128))]
struct Locked(Lock<Shard>);

const _: () = assert!(mem::size_of::<Locked>() == 128);

struct Board {
    ready: VecDeque<Box<Strand>>,
    ended: Vec<Option<Box<Strand>>>,
    left: usize,
    steps: u64,
}

struct Shared<'a> {
    circuit: &'a Circuit,
    shards: Vec<Locked>,
    board: Mutex<Board>,
    moved: Condvar,
}

impl Shard {
    fn new(signals: usize) -> Shard {
        Shard { cells: Cells::new(signals), claims: Claims::new(), journal: Vec::new() }
    }

    /// The strand, if it goes on: it heard a stored cell, or has claimed the point. Else it waits for who did.
    fn ask(&mut self, circuit: &Circuit, mut strand: Box<Strand>, point: Point, local: usize) -> Option<Box<Strand>> {
        if let Some(cell) = self.cells.find(local, point.1) {
            self.journal.push(Entry::told(strand.query, point, cell));
            strand.hear(circuit, cell);
            return Some(strand);
        }
        let mut strand = self.claims.wait(point, strand)?;
        strand.left = strand.left.checked_sub(1).expect("the budget of a question of the measurements is enough");
        self.claims.insert(point);
        self.journal.push(Entry::claimed(strand.query, point));
        strand.frames.push(circuit.frame(point.0, point.1));
        Some(strand)
    }

    /// Fills the strand's last claim, and gives who waits for it. All of them have heard the cell.
    fn fill(&mut self, circuit: &Circuit, strand: &mut Strand, point: Point, local: usize) -> Option<Box<Waiting>> {
        let cell = strand.frames.pop().unwrap().cell(circuit);
        self.cells.put(local, cell);
        self.journal.push(Entry::filled(strand.query, point, cell));
        strand.hear(circuit, cell);
        let mut woken = self.claims.remove(point);
        let mut next = &mut woken;
        while let Some(waiting) = next {
            waiting.strand.hear(circuit, cell);
            next = &mut waiting.others;
        }
        woken
    }
}

impl Shared<'_> {
    /// Has the strand take its steps until it waits or ends, and counts them.
    fn run(&self, mut strand: Box<Strand>, steps: &mut u64) {
        let shards = self.shards.len() as u32;
        loop {
            let next = strand.next_step(self.circuit);
            let (Next::Ask(point) | Next::Fill(point)) = next else {
                return self.end(strand);
            };
            *steps += 1;
            let local = (point.0 / shards) as usize;
            let mut shard = self.shards[(point.0 % shards) as usize].0.lock();
            if let Next::Ask(_) = next {
                match shard.ask(self.circuit, strand, point, local) {
                    Some(same) => strand = same,
                    None => return,
                }
            } else {
                let woken = shard.fill(self.circuit, &mut strand, point, local);
                drop(shard);
                self.wake(woken);
            }
        }
    }

    fn wake(&self, mut woken: Option<Box<Waiting>>) {
        while let Some(waiting) = woken {
            self.board.lock().unwrap().ready.push_back(waiting.strand);
            self.moved.notify_one();
            woken = waiting.others;
        }
    }

    fn end(&self, strand: Box<Strand>) {
        let mut board = self.board.lock().unwrap();
        let query = strand.query;
        board.ended[query] = Some(strand);
        board.left -= 1;
        if board.left == 0 {
            self.moved.notify_all();
        }
    }

    fn work(&self) {
        let mut steps = 0;
        let mut board = self.board.lock().unwrap();
        while board.left > 0 {
            match board.ready.pop_front() {
                Some(strand) => {
                    drop(board);
                    self.run(strand, &mut steps);
                    board = self.board.lock().unwrap();
                }
                None => board = self.moved.wait(board).unwrap(),
            }
        }
        board.steps += steps;
    }
}

/// The sections of the shards, by as many threads as there are workers.
fn sections(shards: &[Shard], workers: usize) -> Vec<Vec<u8>> {
    let mut sections = vec![Vec::new(); shards.len()];
    let each = shards.len().div_ceil(workers);
    thread::scope(|scope| {
        for (part, several) in sections.chunks_mut(each).enumerate() {
            scope.spawn(move || {
                for (number, text) in (part * each..).zip(several) {
                    *text = section(number, &shards[number].journal);
                }
            });
        }
    });
    sections
}

fn main() -> io::Result<()> {
    let Asked { circuit, journal, workers, shards, questions } = Asked::read()?;
    let begun = Instant::now();
    let strand = |(query, question)| Box::new(Strand::new(query, question, &circuit));
    let shared = Shared {
        circuit: &circuit,
        shards: (0..shards).map(|_| Locked(Lock::new(Shard::new(circuit.signals().div_ceil(shards))))).collect(),
        board: Mutex::new(Board {
            ready: questions.iter().enumerate().map(strand).collect(),
            ended: questions.iter().map(|_| None).collect(),
            left: questions.len(),
            steps: 0,
        }),
        moved: Condvar::new(),
    };
    thread::scope(|scope| {
        for _ in 0..workers {
            scope.spawn(|| shared.work());
        }
    });
    let evaluated = begun.elapsed();
    let board = shared.board.into_inner().unwrap();
    let mut out = BufWriter::new(io::stdout().lock());
    for (question, strand) in questions.iter().zip(&board.ended) {
        question.write(&mut out, strand.as_ref().map(|strand| &strand.runs[..]))?;
    }
    out.flush()?;
    let shards: Vec<Shard> = shared.shards.into_iter().map(|shard| shard.0.into_inner()).collect();
    let sections = sections(&shards, workers);
    let mut journal = fs::File::create(journal)?;
    write!(journal, "journal shards {} cells {CAPACITY}\nbatch 1\n", shards.len())?;
    for text in &sections {
        journal.write_all(text)?;
    }
    journal.write_all(b"end\n")?;
    eprintln!("{} steps, evaluation {} us, batch {} us", board.steps, evaluated.as_micros(), begun.elapsed().as_micros());
    Ok(())
}
