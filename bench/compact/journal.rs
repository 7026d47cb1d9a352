//! The journal of a shard, an entry 20 bytes, and its text.
use crate::circuit::Cell;
use crate::gates::Value;
use crate::strand::Point;

#[derive(Clone, Copy)]
enum Kind {
    Told,
    Claimed,
    Filled,
}

/// What a strand did at a point; the cell counts where one was told or filled.
#[derive(Clone, Copy)]
pub struct Entry {
    kind: Kind,
    value: Value,
    query: u16,
    signal: u32,
    time: u32,
    start: u32,
    end: u32,
}

impl Entry {
    pub fn told(query: usize, point: Point, cell: Cell) -> Entry {
        Entry::new(Kind::Told, query, point, cell)
    }

    pub fn claimed(query: usize, point: Point) -> Entry {
        Entry::new(Kind::Claimed, query, point, Cell { start: 0, end: 0, value: Value::Unknown })
    }

    pub fn filled(query: usize, point: Point, cell: Cell) -> Entry {
        Entry::new(Kind::Filled, query, point, cell)
    }

    fn new(kind: Kind, query: usize, (signal, time): Point, cell: Cell) -> Entry {
        Entry { kind, value: cell.value, query: query as u16, signal, time, start: cell.start, end: cell.end }
    }

    fn write(&self, text: &mut Vec<u8>) {
        let word: &[u8] = match self.kind {
            Kind::Told => b"told",
            Kind::Claimed => b"claim",
            Kind::Filled => b"fill",
        };
        text.extend_from_slice(word);
        write_number(text, u32::from(self.query) + 1);
        write_number(text, self.signal);
        write_number(text, self.time);
        if !matches!(self.kind, Kind::Claimed) {
            write_number(text, self.start);
            write_number(text, self.end);
            text.extend_from_slice(&[b' ', self.value.letter() as u8]);
        }
        text.push(b'\n');
    }
}

/// A space and the number. The formatting of std takes four times as long.
fn write_number(text: &mut Vec<u8>, mut number: u32) {
    let mut digits = [b' '; 11];
    let mut first = digits.len();
    loop {
        first -= 1;
        digits[first] = b'0' + (number % 10) as u8;
        number /= 10;
        if number == 0 {
            break;
        }
    }
    text.extend_from_slice(&digits[first - 1..]);
}

/// The section of a shard.
pub fn section(shard: usize, entries: &[Entry]) -> Vec<u8> {
    let head = format!("shard {shard}\n");
    let mut text = Vec::with_capacity(head.len() + 32 * entries.len());
    text.extend_from_slice(head.as_bytes());
    for entry in entries {
        entry.write(&mut text);
    }
    text
}
