//! Writes a workload into a folder: 100 layers of 2,000 gates of two pins over 16 inputs that are set at every tenth instant up to
//! 100,000, and sixteen questions about signals of the last layer.
//!
//!     generate FOLDER SEED
use std::fs::File;
use std::io::{self, BufWriter, Write};
use std::path::Path;

const KINDS: [&str; 6] = ["AND", "NAND", "OR", "NOR", "XOR", "XNOR"];

struct Draws(u64);

impl Draws {
    fn next(&mut self) -> u64 {
        self.0 = (1_103_515_245 * self.0 + 12_345) % 2_147_483_648;
        self.0 / 65_536
    }
}

fn main() -> io::Result<()> {
    let words: Vec<String> = std::env::args().collect();
    let mut draws = Draws(words[2].parse().expect("a number"));
    let open = |name| Ok::<_, io::Error>(BufWriter::new(File::create(Path::new(&words[1]).join(name))?));

    let mut netlist = open("workload.bench")?;
    for input in 0..16 {
        writeln!(netlist, "INPUT(i{input})")?;
    }
    for layer in 0..100 {
        for place in 0..2000 {
            let kind = KINDS[(draws.next() % 6) as usize];
            if layer == 0 {
                writeln!(netlist, "g0_{place} = {kind}(i{}, i{})", place % 16, (place + 1) % 16)?;
            } else {
                let below = layer - 1;
                writeln!(netlist, "g{layer}_{place} = {kind}(g{below}_{place}, g{below}_{})", (place + 1) % 2000)?;
            }
        }
    }
    for place in 0..2000 {
        writeln!(netlist, "OUTPUT(g99_{place})")?;
    }

    writeln!(open("workload.timing")?, "default 1")?;

    let mut stimulus = open("workload.stim")?;
    writeln!(stimulus, "horizon 100000")?;
    for time in (0..=100_000).step_by(10) {
        for input in 0..16 {
            writeln!(stimulus, "set i{input} {time} {}", draws.next() % 2)?;
        }
    }

    let mut script = open("workload.script")?;
    for line in 0..16 {
        let place = draws.next() % 2000;
        let time = 90_000 + draws.next() % 9_900;
        if line % 4 == 0 {
            writeln!(script, "wave g99_{place} {time} {} 20000", time + 20)?;
        } else {
            writeln!(script, "at g99_{place} {time} 20000")?;
        }
    }
    Ok(())
}
