//! A query being answered: the times of its window that are not heard yet, and the claimed points that it works on.
use crate::circuit::{Cell, Circuit, Frame, Question, push_run};
use crate::gates::Value;
use std::env;
use std::io::{self, BufRead};

/// What a program of one batch is asked: its words, NETLIST STIMULUS JOURNAL WORKERS SHARDS, and a question a line of standard input.
pub struct Asked {
    pub circuit: Circuit,
    pub journal: String,
    pub workers: usize,
    pub shards: usize,
    pub questions: Vec<Question>,
}

impl Asked {
    pub fn read() -> io::Result<Asked> {
        let words: Vec<String> = env::args().collect();
        Ok(Asked {
            circuit: Circuit::read(&words[1], &words[2])?,
            journal: words[3].clone(),
            workers: words[4].parse().expect("a number of workers"),
            shards: words[5].parse().expect("a number of shards"),
            questions: io::stdin().lock().lines().map(|line| Ok(Question::read(&line?))).collect::<io::Result<_>>()?,
        })
    }
}

/// A signal and a time.
pub type Point = (u32, u32);

pub struct Strand {
    pub query: usize,
    /// How many claims its budget still allows.
    pub left: u32,
    pub frames: Vec<Frame>,
    pub runs: Vec<(u32, Value)>,
    signal: u32,
    time: u32,
    to: u32,
}

pub enum Next {
    Ask(Point),
    Fill(Point),
    Done,
}

impl Strand {
    pub fn new(query: usize, question: &Question, circuit: &Circuit) -> Strand {
        Strand {
            query,
            left: question.budget,
            frames: Vec::new(),
            runs: Vec::new(),
            signal: circuit.signal(&question.name),
            time: question.from,
            to: question.to,
        }
    }

    /// Hears what needs no evaluation, and says what is next.
    pub fn next_step(&mut self, circuit: &Circuit) -> Next {
        loop {
            let point = match self.frames.last() {
                Some(frame) => match frame.next_pin(circuit) {
                    Some(pin) => (pin, frame.time - 1),
                    None => return Next::Fill((frame.signal, frame.time)),
                },
                None if self.time < self.to => (self.signal, self.time),
                None => return Next::Done,
            };
            match circuit.base(point.0, point.1) {
                Some(cell) => self.hear(circuit, cell),
                None => return Next::Ask(point),
            }
        }
    }

    /// Takes the cell of the point that it asked for.
    pub fn hear(&mut self, circuit: &Circuit, cell: Cell) {
        match self.frames.last_mut() {
            Some(frame) => frame.hear(circuit, cell),
            None => {
                push_run(&mut self.runs, self.time, cell.value);
                self.time = cell.end;
            }
        }
    }
}
