//! A plain reader of netlists, to measure against: `read FILE`.
//!
//! It reads the same lines, keeps the same lists and makes the same tests as `read_bench`.

use std::collections::HashMap;
use std::env;
use std::fs;
use std::time::Instant;

#[derive(Clone, Copy)]
enum Kind {
    And,
    Nand,
    Or,
    Nor,
    Xor,
    Xnor,
    Not,
    Buff,
    Dff,
}

#[derive(Clone, Copy)]
enum Row {
    Missing { line: u32 },
    Input,
    Gate { kind: Kind, start: u32, count: u32 },
}

#[derive(Debug)]
enum Cause {
    Syntax,
    UnknownKind,
    PinCount,
    Twice,
    Undefined,
    NameLong,
    TooMany,
}

#[derive(Default)]
struct Netlist {
    numbers: HashMap<Vec<u8>, u32>,
    rows: Vec<Row>,
    pins: Vec<u32>,
    outputs: Vec<u32>,
}

impl Netlist {
    fn number(&mut self, name: &[u8], line: u32) -> Result<u32, Cause> {
        if name.len() > 255 {
            return Err(Cause::NameLong);
        }
        if let Some(&number) = self.numbers.get(name) {
            return Ok(number);
        }
        let number = self.rows.len() as u32;
        self.numbers.insert(name.to_vec(), number);
        self.rows.push(Row::Missing { line });
        if self.rows.len() > 1_048_576 {
            return Err(Cause::TooMany);
        }
        Ok(number)
    }

    fn take(&mut self, text: &[u8], line: u32) -> Result<(), Cause> {
        let mut tokens = Tokens { rest: text };
        let Some(first) = tokens.next() else {
            return Ok(());
        };
        if !is_name(first) {
            return Err(Cause::Syntax);
        }
        match tokens.next() {
            Some(b"(") => self.take_port(first, tokens, line),
            Some(b"=") => self.take_gate(first, tokens, line),
            _ => Err(Cause::Syntax),
        }
    }

    fn take_port(&mut self, word: &[u8], mut tokens: Tokens, line: u32) -> Result<(), Cause> {
        let name = tokens.next().filter(|name| is_name(name)).ok_or(Cause::Syntax)?;
        if tokens.next() != Some(b")") || tokens.next().is_some() {
            return Err(Cause::Syntax);
        }
        if word.eq_ignore_ascii_case(b"input") {
            let id = self.number(name, line)? as usize;
            if let Row::Gate { .. } = self.rows[id] {
                return Err(Cause::Twice);
            }
            self.rows[id] = Row::Input;
            Ok(())
        } else if word.eq_ignore_ascii_case(b"output") {
            let id = self.number(name, line)?;
            if !self.outputs.contains(&id) {
                self.outputs.push(id);
            }
            Ok(())
        } else {
            Err(Cause::Syntax)
        }
    }

    fn take_gate(&mut self, name: &[u8], mut tokens: Tokens, line: u32) -> Result<(), Cause> {
        let word = tokens.next().filter(|word| is_name(word)).ok_or(Cause::Syntax)?;
        if tokens.next() != Some(b"(") {
            return Err(Cause::Syntax);
        }
        let mut listed = Vec::new();
        let mut token = tokens.next().ok_or(Cause::Syntax)?;
        if token != b")" {
            loop {
                if !is_name(token) {
                    return Err(Cause::Syntax);
                }
                listed.push(token);
                match tokens.next() {
                    Some(b",") => token = tokens.next().ok_or(Cause::Syntax)?,
                    Some(b")") => break,
                    _ => return Err(Cause::Syntax),
                }
            }
        }
        if tokens.next().is_some() {
            return Err(Cause::Syntax);
        }
        let kind = kind_of(word).ok_or(Cause::UnknownKind)?;
        let is_unary = matches!(kind, Kind::Not | Kind::Buff | Kind::Dff);
        if listed.is_empty() || listed.len() > 64 || (is_unary && listed.len() != 1) {
            return Err(Cause::PinCount);
        }
        let id = self.number(name, line)? as usize;
        if !matches!(self.rows[id], Row::Missing { .. }) {
            return Err(Cause::Twice);
        }
        let start = self.pins.len() as u32;
        for pin in &listed {
            let number = self.number(pin, line)?;
            self.pins.push(number);
        }
        if self.pins.len() > 4_194_304 {
            return Err(Cause::TooMany);
        }
        self.rows[id] = Row::Gate {
            kind,
            start,
            count: listed.len() as u32,
        };
        Ok(())
    }
}

fn kind_of(word: &[u8]) -> Option<Kind> {
    Some(match word.to_ascii_lowercase().as_slice() {
        b"and" => Kind::And,
        b"nand" => Kind::Nand,
        b"or" => Kind::Or,
        b"nor" => Kind::Nor,
        b"xor" => Kind::Xor,
        b"xnor" => Kind::Xnor,
        b"not" => Kind::Not,
        b"buff" | b"buf" => Kind::Buff,
        b"dff" => Kind::Dff,
        _ => return None,
    })
}

struct Tokens<'a> {
    rest: &'a [u8],
}

impl<'a> Iterator for Tokens<'a> {
    type Item = &'a [u8];

    fn next(&mut self) -> Option<&'a [u8]> {
        let start = self.rest.iter().position(|b| !is_blank(*b))?;
        let bytes = &self.rest[start..];
        let end = bytes
            .iter()
            .position(|b| is_blank(*b) || is_mark(*b))
            .unwrap_or(bytes.len())
            .max(1);
        self.rest = &bytes[end..];
        Some(&bytes[..end])
    }
}

fn is_blank(b: u8) -> bool {
    matches!(b, b' ' | b'\t' | b'\r')
}

fn is_mark(b: u8) -> bool {
    matches!(b, b'(' | b')' | b',' | b'=')
}

fn is_name(token: &[u8]) -> bool {
    token
        .iter()
        .all(|b| (33..=126).contains(b) && !is_mark(*b) && *b != b'#')
}

fn read(text: &[u8]) -> Result<Netlist, (Cause, u32)> {
    let mut netlist = Netlist::default();
    let mut line = 0;
    for bytes in text.split(|b| *b == b'\n') {
        line += 1;
        let content = bytes.split(|b| *b == b'#').next().unwrap_or(bytes);
        netlist.take(content, line).map_err(|cause| (cause, line))?;
    }
    for row in &netlist.rows {
        if let Row::Missing { line } = row {
            return Err((Cause::Undefined, *line));
        }
    }
    Ok(netlist)
}

fn main() {
    let path = env::args().nth(1).expect("usage: read FILE");
    let text = fs::read(path).expect("a file");
    let start = Instant::now();
    let answer = read(&text);
    let took = start.elapsed();
    match answer {
        Ok(netlist) => {
            let gates = netlist.rows.iter().filter(|row| matches!(row, Row::Gate { .. })).count();
            let pins: u64 = netlist
                .rows
                .iter()
                .map(|row| match row {
                    Row::Gate { kind, start, count } => *kind as u64 + u64::from(*start + *count) % 2,
                    _ => 0,
                })
                .sum();
            println!("signals {} gates {gates} check {pins}", netlist.rows.len());
        }
        Err((cause, line)) => println!("refused line {line}: {cause:?}"),
    }
    println!("microseconds {}", took.as_micros());
}
