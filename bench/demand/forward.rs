//! A forward simulator in plain Rust, driven by events: at each instant it evaluates the gates one of whose pins changed an instant
//! before, and no others. Every delay is 1, and there are no flip-flops. It runs up to the horizon, keeps the events of the signals
//! that the script names, and answers its `at` and `wave` lines, whose budgets it passes over.
//!
//!     forward NETLIST STIMULUS < SCRIPT
use std::collections::HashMap;
use std::io::{self, BufRead, Write};
use std::{env, fs};

const X: u8 = 2;

#[derive(Clone, Copy)]
enum Join {
    And,
    Or,
    Xor,
}

struct Gate {
    join: Join,
    negated: bool,
    pins: Vec<u32>,
}

impl Gate {
    fn value(&self, values: &[u8]) -> u8 {
        let seen = self.pins.iter().map(|pin| values[*pin as usize].min(X));
        let value = match self.join {
            Join::And => seen.fold(1, |all, value| match (all, value) {
                (0, _) | (_, 0) => 0,
                (1, 1) => 1,
                _ => X,
            }),
            Join::Or => seen.fold(0, |all, value| match (all, value) {
                (1, _) | (_, 1) => 1,
                (0, 0) => 0,
                _ => X,
            }),
            Join::Xor => seen.fold(0, |all, value| if all == X || value == X { X } else { all ^ value }),
        };
        if self.negated && value < X { 1 - value } else { value }
    }
}

#[derive(Default)]
struct Circuit {
    names: HashMap<String, u32>,
    gates: Vec<Option<Gate>>,
}

impl Circuit {
    fn number(&mut self, name: &str) -> u32 {
        if let Some(number) = self.names.get(name) {
            return *number;
        }
        let number = self.gates.len() as u32;
        self.names.insert(name.to_string(), number);
        self.gates.push(None);
        number
    }

    fn read(text: &str) -> Circuit {
        let mut circuit = Circuit::default();
        for line in text.lines() {
            if let Some((name, gate)) = line.split_once(" = ") {
                let signal = circuit.number(name);
                let (kind, pins) = gate.trim_end_matches(')').split_once('(').unwrap();
                let pins = pins.split(", ").map(|pin| circuit.number(pin)).collect();
                let (join, negated) = match kind {
                    "AND" | "BUFF" => (Join::And, false),
                    "NAND" | "NOT" => (Join::And, true),
                    "OR" => (Join::Or, false),
                    "NOR" => (Join::Or, true),
                    "XOR" => (Join::Xor, false),
                    "XNOR" => (Join::Xor, true),
                    _ => panic!("{kind} is no gate"),
                };
                circuit.gates[signal as usize] = Some(Gate { join, negated, pins });
            } else if let Some((_, name)) = line.trim_end_matches(')').split_once('(') {
                circuit.number(name);
            }
        }
        circuit
    }
}

struct Stimulus {
    horizon: u32,
    settings: Vec<Vec<(u32, u8)>>,
}

impl Stimulus {
    fn read(text: &str, circuit: &Circuit) -> Stimulus {
        let mut stimulus = Stimulus { horizon: 0, settings: Vec::new() };
        for line in text.lines() {
            let fields: Vec<&str> = line.split(' ').collect();
            match fields[..] {
                ["horizon", last] => {
                    stimulus.horizon = last.parse().unwrap();
                    stimulus.settings.resize_with(stimulus.horizon as usize + 1, Vec::new);
                }
                ["set", name, time, value] => {
                    let time: usize = time.parse().unwrap();
                    stimulus.settings[time].push((circuit.names[name], value.parse().unwrap()));
                }
                _ => panic!("no line of a stimulus: {line}"),
            }
        }
        stimulus
    }
}

fn main() -> io::Result<()> {
    let words: Vec<String> = env::args().collect();
    let circuit = Circuit::read(&fs::read_to_string(&words[1])?);
    let stimulus = Stimulus::read(&fs::read_to_string(&words[2])?, &circuit);
    let script: Vec<String> = io::stdin().lock().lines().collect::<Result<_, _>>()?;
    let signals = circuit.gates.len();

    let mut watched: Vec<Option<Vec<(u32, u8)>>> = vec![None; signals];
    for line in &script {
        let name = line.split(' ').nth(1).unwrap();
        watched[circuit.names[name] as usize] = Some(vec![(0, X)]);
    }
    let mut readers = vec![Vec::new(); signals];
    for (signal, gate) in circuit.gates.iter().enumerate() {
        for pin in gate.iter().flat_map(|gate| &gate.pins) {
            readers[*pin as usize].push(signal as u32);
        }
    }

    let mut values = vec![X; signals];
    let mut touched = vec![u32::MAX; signals];
    let mut changed: Vec<u32> = Vec::new();
    let mut next: Vec<(u32, u8)> = Vec::new();
    for time in 0..=stimulus.horizon {
        next.clear();
        if time == 1 {
            // nothing was evaluated yet, so each gate is
            for (signal, gate) in circuit.gates.iter().enumerate() {
                next.extend(gate.as_ref().map(|gate| (signal as u32, gate.value(&values))));
            }
        }
        for signal in &changed {
            for reader in &readers[*signal as usize] {
                if touched[*reader as usize] != time {
                    touched[*reader as usize] = time;
                    let gate = circuit.gates[*reader as usize].as_ref().unwrap();
                    next.push((*reader, gate.value(&values)));
                }
            }
        }
        next.extend(&stimulus.settings[time as usize]);
        changed.clear();
        for (signal, value) in &next {
            if values[*signal as usize] != *value {
                values[*signal as usize] = *value;
                changed.push(*signal);
                if let Some(events) = &mut watched[*signal as usize] {
                    events.push((time, *value));
                }
            }
        }
    }

    let mut out = io::BufWriter::new(io::stdout().lock());
    for line in &script {
        let fields: Vec<&str> = line.split(' ').collect();
        let events = watched[circuit.names[fields[1]] as usize].as_ref().unwrap();
        let from: u32 = fields[2].parse().unwrap();
        let last = events.iter().rev().find(|event| event.0 <= from).unwrap();
        let letter = |value: u8| b"01xz"[value as usize] as char;
        if fields[0] == "at" {
            writeln!(out, "at {} {from} {}", fields[1], letter(last.1))?;
        } else {
            let to: u32 = fields[3].parse().unwrap();
            writeln!(out, "wave {} {from} {to}\n{from} {}", fields[1], letter(last.1))?;
            for (time, value) in events.iter().filter(|event| from < event.0 && event.0 < to) {
                writeln!(out, "{time} {}", letter(*value))?;
            }
            writeln!(out, "end")?;
        }
    }
    Ok(())
}
