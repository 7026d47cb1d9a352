//! The workload as texts, and these texts read back as plain Rust would read them: each name has memory of its own, and std's
//! `HashMap` has their numbers.
use crate::gates::{Kind, Value};
use crate::{signal_of, Draws, Gate, Query, Work, HORIZON, INPUTS, LAYERS, PLACES, QUERIES};
use std::collections::HashMap;
use std::fmt::Write;

const KINDS: [(&str, Kind); 6] = [
    ("AND", Kind::And),
    ("NAND", Kind::Nand),
    ("OR", Kind::Or),
    ("NOR", Kind::Nor),
    ("XOR", Kind::Xor),
    ("XNOR", Kind::Xnor),
];

/// Names, numbered from 0 in the order in which they came.
#[derive(Default)]
struct Names(HashMap<String, u32>);

impl Names {
    fn number(&mut self, name: &str) -> u32 {
        if let Some(&number) = self.0.get(name) {
            return number;
        }
        let number = self.0.len() as u32;
        self.0.insert(name.to_string(), number);
        number
    }

    fn find(&self, name: &str) -> Option<u32> {
        self.0.get(name).copied()
    }
}

fn name_of(signal: u32) -> String {
    match signal.checked_sub(INPUTS) {
        None => format!("i{signal}"),
        Some(gate) => format!("g{}_{}", gate / PLACES, gate % PLACES),
    }
}

/// The netlist, the stimulus and the script of this number. The timing file is `default 1`.
fn written(number: u64) -> (String, String, String) {
    let mut draws = Draws(number);
    let (mut netlist, mut stimulus, mut script) = (String::new(), format!("horizon {HORIZON}\n"), String::new());
    for input in 0..INPUTS {
        writeln!(netlist, "INPUT({})", name_of(input)).unwrap();
    }
    for layer in 0..LAYERS {
        for place in 0..PLACES {
            let (word, _) = KINDS[(draws.next() % 6) as usize];
            let [one, other] = match layer {
                0 => [place % INPUTS, (place + 1) % INPUTS],
                _ => [signal_of(layer - 1, place), signal_of(layer - 1, (place + 1) % PLACES)],
            };
            let (gate, one, other) = (name_of(signal_of(layer, place)), name_of(one), name_of(other));
            writeln!(netlist, "{gate} = {word}({one}, {other})").unwrap();
        }
    }
    for place in 0..PLACES {
        writeln!(netlist, "OUTPUT({})", name_of(signal_of(LAYERS - 1, place))).unwrap();
    }
    for time in (0..=HORIZON).step_by(10) {
        for input in 0..INPUTS {
            writeln!(stimulus, "set {} {time} {}", name_of(input), draws.next() % 2).unwrap();
        }
    }
    for i in 0..QUERIES {
        let name = name_of(signal_of(LAYERS - 1, draws.next() % PLACES));
        let from = 90_000 + draws.next() % 9_900;
        match i % 4 {
            0 => writeln!(script, "wave {name} {from} {} 20000", from + 20).unwrap(),
            _ => writeln!(script, "at {name} {from} 20000").unwrap(),
        }
    }
    (netlist, stimulus, script)
}

/// The names, and the gate of each signal that has one.
fn netlist_in(text: &str) -> Option<(Names, Vec<Option<Gate>>)> {
    let mut names = Names::default();
    let mut gates = Vec::new();
    for line in text.lines() {
        let (head, rest) = line.split_once('(')?;
        let pins = rest.strip_suffix(')')?;
        match head.split_once('=') {
            Some((name, word)) => {
                let (_, kind) = *KINDS.iter().find(|(other, _)| *other == word.trim())?;
                let signal = names.number(name.trim()) as usize;
                let pins: Vec<u32> = pins.split(',').map(|pin| names.number(pin.trim())).collect();
                gates.resize(names.0.len().max(gates.len()), None);
                gates[signal] = Some(Gate { kind, pins: pins.try_into().ok()? });
            }
            None => {
                names.number(pins.trim());
            }
        }
    }
    gates.resize(names.0.len(), None);
    Some((names, gates))
}

/// The value of each input at each time at which all are set.
fn stimulus_in(text: &str, names: &Names) -> Option<Vec<[Value; INPUTS as usize]>> {
    let mut settings = vec![[Value::Unknown; INPUTS as usize]; (HORIZON / 10 + 1) as usize];
    for line in text.lines() {
        let mut words = line.split_whitespace();
        if words.next()? == "set" {
            let input = names.find(words.next()?)?;
            let time: u32 = words.next()?.parse().ok()?;
            settings[(time / 10) as usize][input as usize] = Value::of(words.next()? == "1");
        }
    }
    Some(settings)
}

fn script_in(text: &str, names: &Names) -> Option<Vec<Query>> {
    let mut queries = Vec::new();
    for (number, line) in text.lines().enumerate() {
        let mut words = line.split_whitespace();
        let is_wave = words.next()? == "wave";
        let signal = names.find(words.next()?)?;
        let from = words.next()?.parse().ok()?;
        let to = if is_wave { words.next()?.parse().ok()? } else { from + 1 };
        queries.push(Query { line: number as u32 + 1, signal, from, to });
    }
    Some(queries)
}

/// The workload with this number, written as texts and read back.
pub fn read_back(number: u64) -> Option<Work> {
    let (netlist, stimulus, script) = written(number);
    let (names, gates) = netlist_in(&netlist)?;
    let settings = stimulus_in(&stimulus, &names)?;
    let queries = script_in(&script, &names)?;
    let gates = gates.into_iter().skip(INPUTS as usize).collect::<Option<Vec<Gate>>>()?;
    Some(Work::of(gates, settings, queries))
}
