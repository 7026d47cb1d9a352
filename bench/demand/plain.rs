//! The same demand in plain Rust: it reads a netlist, a stimulus and a script of `at` and `wave` lines with budgets, works backward
//! with a stack of its own, and keeps the cells that it evaluated for a query in std's ordered map.
//!
//!     plain NETLIST STIMULUS < SCRIPT
#[path = "../plain/circuit.rs"]
mod circuit;
#[path = "../plain/gates.rs"]
mod gates;

use circuit::{Cell, Circuit, Question, push_run};
use gates::Value;
use std::collections::BTreeMap;
use std::env;
use std::io::{self, BufRead};

/// The cells that were evaluated for a query, by signal and start.
struct Demand<'a> {
    circuit: &'a Circuit,
    cells: BTreeMap<(u32, u32), Cell>,
    left: u32,
}

impl Demand<'_> {
    fn known(&self, signal: u32, time: u32) -> Option<Cell> {
        if let Some(cell) = self.circuit.base(signal, time) {
            return Some(cell);
        }
        let (&(of, _), cell) = self.cells.range(..=(signal, time)).next_back()?;
        (of == signal && time < cell.end).then_some(*cell)
    }

    /// The cell of a point, or none where it takes more evaluations than are left.
    fn cell(&mut self, signal: u32, time: u32) -> Option<Cell> {
        if let Some(cell) = self.known(signal, time) {
            return Some(cell);
        }
        let mut frames = Vec::new();
        let mut asked = Some((signal, time));
        loop {
            if let Some((signal, time)) = asked.take() {
                self.left = self.left.checked_sub(1)?;
                frames.push(self.circuit.frame(signal, time));
            }
            let frame = frames.last_mut().unwrap();
            while let Some(pin) = frame.next_pin(self.circuit) {
                match self.known(pin, frame.time - 1) {
                    Some(cell) => frame.hear(self.circuit, cell),
                    None => {
                        asked = Some((pin, frame.time - 1));
                        break;
                    }
                }
            }
            if asked.is_none() {
                let cell = frame.cell(self.circuit);
                self.cells.insert((frame.signal, cell.start), cell);
                frames.pop();
                if frames.is_empty() {
                    return Some(cell);
                }
            }
        }
    }

    /// The runs of a window, or none where it takes more evaluations than the budget.
    fn runs(&mut self, question: &Question) -> Option<Vec<(u32, Value)>> {
        let signal = self.circuit.signal(&question.name);
        let mut runs = Vec::new();
        let mut time = question.from;
        while time < question.to {
            let cell = self.cell(signal, time)?;
            push_run(&mut runs, time, cell.value);
            time = cell.end;
        }
        Some(runs)
    }
}

fn main() -> io::Result<()> {
    let words: Vec<String> = env::args().collect();
    let circuit = Circuit::read(&words[1], &words[2])?;
    let mut out = io::BufWriter::new(io::stdout().lock());
    for line in io::stdin().lock().lines() {
        let question = Question::read(&line?);
        let mut demand = Demand { circuit: &circuit, cells: BTreeMap::new(), left: question.budget };
        question.write(&mut out, demand.runs(&question).as_deref())?;
    }
    Ok(())
}
