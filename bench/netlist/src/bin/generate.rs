//! Writes a netlist: `generate SIGNALS PINS FILE`.
//!
//! Of SIGNALS signals one in a thousand, and at least one, is a primary input. Each other signal
//! is a gate of PINS pins, chosen among the signals before it by a fixed sequence, so that the
//! same words give the same file.

use std::env;
use std::fs::File;
use std::io::{self, BufWriter, Write};

const KINDS: [&str; 6] = ["AND", "NAND", "OR", "NOR", "XOR", "XNOR"];

/// Numbers that look random (Knuth's linear congruential generator).
struct Sequence(u64);

impl Sequence {
    fn below(&mut self, limit: u64) -> u64 {
        self.0 = self
            .0
            .wrapping_mul(6364136223846793005)
            .wrapping_add(1442695040888963407);
        (self.0 >> 33) % limit
    }
}

fn main() -> io::Result<()> {
    let words: Vec<String> = env::args().skip(1).collect();
    let (signals, pins, path) = match words.as_slice() {
        [signals, pins, path] => (number(signals), number(pins), path),
        _ => panic!("usage: generate SIGNALS PINS FILE"),
    };
    let inputs = (signals / 1000).max(1);
    let mut out = BufWriter::new(File::create(path)?);
    let mut sequence = Sequence(17);
    for signal in 0..inputs {
        writeln!(out, "INPUT(G{signal})")?;
    }
    writeln!(out, "OUTPUT(G{})", signals - 1)?;
    for signal in inputs..signals {
        let kind = KINDS[sequence.below(KINDS.len() as u64) as usize];
        write!(out, "G{signal} = {kind}(")?;
        for pin in 0..pins {
            let comma = if pin == 0 { "" } else { ", " };
            write!(out, "{comma}G{}", sequence.below(signal))?;
        }
        writeln!(out, ")")?;
    }
    out.flush()
}

fn number(word: &str) -> u64 {
    word.parse().expect("a number")
}
