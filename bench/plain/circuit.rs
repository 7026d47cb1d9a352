//! A circuit in plain Rust, read from a netlist and a stimulus, and the questions of a script. Every delay is 1, and there are no
//! flip-flops; a line of another form than those of the measurements ends the program.
use crate::gates::{Kind, Value};
use std::collections::HashMap;
use std::str::FromStr;
use std::{fs, io};

pub enum Driver {
    Input(Vec<(u32, Value)>),
    Gate(Kind, Vec<u32>),
}

#[derive(Clone, Copy)]
pub struct Cell {
    pub start: u32,
    pub end: u32,
    pub value: Value,
}

pub struct Circuit {
    pub horizon: u32,
    names: HashMap<String, u32>,
    drivers: Vec<Driver>,
}

/// A claimed point: what its pins gave so far.
pub struct Frame {
    pub signal: u32,
    pub time: u32,
    looked: usize,
    start: u32,
    end: u32,
    seen: Value,
}

/// A line of a script: one instant, or a window.
pub struct Question {
    pub name: String,
    pub from: u32,
    pub to: u32,
    pub budget: u32,
    is_instant: bool,
}

fn kind_of(word: &str) -> Kind {
    match word {
        "AND" => Kind::And,
        "NAND" => Kind::Nand,
        "OR" => Kind::Or,
        "NOR" => Kind::Nor,
        "XOR" => Kind::Xor,
        "XNOR" => Kind::Xnor,
        "NOT" => Kind::Not,
        "BUFF" => Kind::Buff,
        other => panic!("{other} is no gate"),
    }
}

fn parsed<T: FromStr>(word: &str) -> T {
    word.parse().ok().expect("a number")
}

impl Circuit {
    pub fn read(netlist: &str, stimulus: &str) -> io::Result<Circuit> {
        let mut circuit = Circuit { horizon: 0, names: HashMap::new(), drivers: Vec::new() };
        for line in fs::read_to_string(netlist)?.lines() {
            circuit.take_line(line);
        }
        for line in fs::read_to_string(stimulus)?.lines() {
            circuit.take_setting(line);
        }
        for driver in &mut circuit.drivers {
            if let Driver::Input(settings) = driver {
                // a setting that repeats a value is none; no generated input is set to x
                settings.dedup_by_key(|setting| setting.1);
            }
        }
        Ok(circuit)
    }

    fn take_line(&mut self, line: &str) {
        if let Some((name, gate)) = line.split_once(" = ") {
            let signal = self.number(name);
            let (kind, pins) = gate.trim_end_matches(')').split_once('(').unwrap();
            let pins = pins.split(", ").map(|pin| self.number(pin)).collect();
            self.drivers[signal as usize] = Driver::Gate(kind_of(kind), pins);
        } else if let Some((_, name)) = line.trim_end_matches(')').split_once('(') {
            self.number(name);
        }
    }

    fn number(&mut self, name: &str) -> u32 {
        if let Some(&number) = self.names.get(name) {
            return number;
        }
        let number = self.drivers.len() as u32;
        self.names.insert(name.to_string(), number);
        self.drivers.push(Driver::Input(Vec::new()));
        number
    }

    fn take_setting(&mut self, line: &str) {
        let fields: Vec<&str> = line.split(' ').collect();
        match fields[..] {
            ["horizon", last] => self.horizon = parsed(last),
            ["set", name, time, value] => {
                let Driver::Input(settings) = &mut self.drivers[self.names[name] as usize] else {
                    panic!("{name} is no input");
                };
                settings.push((parsed(time), Value::of(value == "1")));
            }
            _ => panic!("no line of a stimulus: {line}"),
        }
    }

    /// How many signals there are.
    #[allow(dead_code)]
    pub fn signals(&self) -> usize {
        self.drivers.len()
    }

    pub fn signal(&self, name: &str) -> u32 {
        self.names[name]
    }

    fn gate(&self, signal: u32) -> (Kind, &[u32]) {
        match &self.drivers[signal as usize] {
            Driver::Gate(kind, pins) => (*kind, pins),
            Driver::Input(_) => panic!("an input is no gate"),
        }
    }

    /// The cell of a point that needs no evaluation.
    pub fn base(&self, signal: u32, time: u32) -> Option<Cell> {
        match &self.drivers[signal as usize] {
            Driver::Input(settings) => {
                let after = settings.partition_point(|setting| setting.0 <= time);
                let end = settings.get(after).map_or(self.horizon + 1, |setting| setting.0);
                Some(match after {
                    0 => Cell { start: 0, end, value: Value::Unknown },
                    n => Cell { start: settings[n - 1].0, end, value: settings[n - 1].1 },
                })
            }
            Driver::Gate(..) if time == 0 => Some(Cell { start: 0, end: 1, value: Value::Unknown }),
            Driver::Gate(..) => None,
        }
    }

    /// The point, with none of its pins looked at.
    pub fn frame(&self, signal: u32, time: u32) -> Frame {
        let (kind, _) = self.gate(signal);
        Frame { signal, time, looked: 0, start: 1, end: self.horizon + 1, seen: kind.first() }
    }
}

impl Frame {
    /// The signal of the pin to look at next, if there is one.
    pub fn next_pin(&self, circuit: &Circuit) -> Option<u32> {
        circuit.gate(self.signal).1.get(self.looked).copied()
    }

    /// Takes what the next pin gives.
    pub fn hear(&mut self, circuit: &Circuit, cell: Cell) {
        let (kind, pins) = circuit.gate(self.signal);
        self.start = self.start.max(cell.start + 1);
        self.end = self.end.min(cell.end + 1);
        self.seen = kind.join(self.seen, cell.value);
        self.looked = if kind.decides(cell.value) { pins.len() } else { self.looked + 1 };
    }

    /// The cell, once no pin is left.
    pub fn cell(&self, circuit: &Circuit) -> Cell {
        Cell { start: self.start, end: self.end, value: circuit.gate(self.signal).0.shown(self.seen) }
    }
}

impl Question {
    pub fn read(line: &str) -> Question {
        let fields: Vec<&str> = line.split(' ').collect();
        let (name, from, to, budget): (_, u32, u32, u32) = match fields[..] {
            ["at", name, time, budget] => (name, parsed(time), parsed::<u32>(time) + 1, parsed(budget)),
            ["wave", name, from, to, budget] => (name, parsed(from), parsed(to), parsed(budget)),
            _ => panic!("no line of a script: {line}"),
        };
        Question { name: name.to_string(), from, to, budget, is_instant: fields[0] == "at" }
    }

    /// The reply, from the maximal runs of the window; none where the budget was not enough.
    pub fn write<W: io::Write>(&self, out: &mut W, runs: Option<&[(u32, Value)]>) -> io::Result<()> {
        let Question { name, from, to, budget, is_instant } = self;
        match runs {
            None => writeln!(out, "budget {name} {budget}"),
            Some(runs) if *is_instant => writeln!(out, "at {name} {from} {}", runs[0].1.letter()),
            Some(runs) => {
                writeln!(out, "wave {name} {from} {to}")?;
                for (time, value) in runs {
                    writeln!(out, "{time} {}", value.letter())?;
                }
                writeln!(out, "end")
            }
        }
    }
}

/// Adds what a signal is from this time on to its runs.
pub fn push_run(runs: &mut Vec<(u32, Value)>, time: u32, value: Value) {
    if runs.last().is_none_or(|run| run.1 != value) {
        runs.push((time, value));
    }
}
