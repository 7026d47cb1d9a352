// The same text in plain Rust: a section of a million entries is written and read again.
use std::io::Write;
use std::time::Instant;

#[derive(Clone, Copy, PartialEq, Debug)]
enum Entry {
    Claimed { q: u32, signal: u32, time: u32 },
    Filled { q: u32, signal: u32, time: u32, start: u32, end: u32, value: u8 },
}

fn entries(n: u32) -> Vec<Entry> {
    (0..n)
        .map(|k| {
            let (q, signal, time) = (k % 1000 + 1, k.wrapping_mul(2_654_435_761) % 100_000, k % 1_000_000);
            if k % 2 == 0 {
                Entry::Claimed { q, signal, time }
            } else {
                Entry::Filled { q, signal, time, start: time, end: time + 7, value: b"01xz"[(k / 2 % 4) as usize] }
            }
        })
        .collect()
}

fn write(entries: &[Entry]) -> Vec<u8> {
    let mut out = Vec::new();
    out.extend_from_slice(b"batch 1\nshard 0\n");
    for e in entries {
        match e {
            Entry::Claimed { q, signal, time } => writeln!(out, "claim {q} {signal} {time}").unwrap(),
            Entry::Filled { q, signal, time, start, end, value } => {
                writeln!(out, "fill {q} {signal} {time} {start} {end} {}", *value as char).unwrap()
            }
        }
    }
    out.extend_from_slice(b"end\n");
    out
}

fn number(text: &[u8]) -> Option<(u32, &[u8])> {
    let mut rest = text.strip_prefix(b" ")?;
    let start = rest;
    let mut n = 0u32;
    while let [d @ b'0'..=b'9', more @ ..] = rest {
        n = n.checked_mul(10)?.checked_add(u32::from(d - b'0'))?;
        rest = more;
    }
    let len = start.len() - rest.len();
    if len == 0 || (len > 1 && start[0] == b'0') {
        return None;
    }
    Some((n, rest))
}

fn entry(text: &[u8]) -> Option<(Entry, &[u8])> {
    if let Some(rest) = text.strip_prefix(b"claim") {
        let (q, rest) = number(rest)?;
        let (signal, rest) = number(rest)?;
        let (time, rest) = number(rest)?;
        Some((Entry::Claimed { q, signal, time }, rest.strip_prefix(b"\n")?))
    } else {
        let rest = text.strip_prefix(b"fill")?;
        let (q, rest) = number(rest)?;
        let (signal, rest) = number(rest)?;
        let (time, rest) = number(rest)?;
        let (start, rest) = number(rest)?;
        let (end, rest) = number(rest)?;
        let [b' ', value, b'\n', rest @ ..] = rest else { return None };
        (start < end && end <= 2_000_002).then_some(())?;
        Some((Entry::Filled { q, signal, time, start, end, value: *value }, rest))
    }
}

fn read(text: &[u8]) -> Option<Vec<Entry>> {
    let mut rest = text.strip_prefix(b"batch 1\nshard 0\n")?;
    let mut entries = Vec::new();
    while let Some((e, more)) = entry(rest) {
        entries.push(e);
        rest = more;
    }
    (rest == b"end\n").then_some(entries)
}

fn main() {
    let made = entries(1_000_000);
    let start = Instant::now();
    let text = write(&made);
    let written = start.elapsed();
    let start = Instant::now();
    let again = read(&text).unwrap();
    let taken = start.elapsed();
    assert_eq!(again.len(), made.len());
    println!("bytes {}", text.len());
    println!("write {} us, {} MB/s", written.as_micros(), text.len() as u128 / written.as_micros());
    println!("read {} us, {} MB/s", taken.as_micros(), text.len() as u128 / taken.as_micros());
}
