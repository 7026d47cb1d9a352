//! The stored cells of a shard: those of a signal are a linked list, the latest start in front, behind a table by the signal's number,
//! and all lists lie in one array. Nothing is evicted. A list is walked from its front, so windows that are asked backward in time take
//! the square of their length; the program of this repository must not do so.
use crate::circuit::Cell;
use crate::gates::Value;

/// Behind the last cell of a list.
const NONE: u32 = 0;

#[derive(Clone, Copy)]
struct Slot {
    start: u32,
    end: u32,
    value: Value,
    /// The cell of the same signal before this one.
    before: u32,
}

pub struct Cells {
    /// The latest cell of each signal.
    latest: Box<[u32]>,
    slots: Vec<Slot>,
    /// Which cell was put or found, at each time: what an eviction would need.
    uses: Vec<u32>,
}

impl Cells {
    pub fn new(signals: usize) -> Cells {
        let none = Slot { start: 0, end: 0, value: Value::Unknown, before: NONE };
        Cells { latest: vec![NONE; signals].into(), slots: vec![none], uses: Vec::new() }
    }

    /// The cell of a signal that covers the time.
    pub fn find(&mut self, signal: usize, time: u32) -> Option<Cell> {
        let mut at = self.latest[signal];
        while at != NONE {
            let Slot { start, end, value, before } = self.slots[at as usize];
            if start <= time {
                return (time < end).then(|| {
                    self.uses.push(at);
                    Cell { start, end, value }
                });
            }
            at = before;
        }
        None
    }

    /// Stores a cell, unless it is stored.
    pub fn put(&mut self, signal: usize, cell: Cell) {
        let mut after = NONE;
        let mut at = self.latest[signal];
        while at != NONE && self.slots[at as usize].start > cell.start {
            after = at;
            at = self.slots[at as usize].before;
        }
        if at == NONE || self.slots[at as usize].start != cell.start {
            let new = self.slots.len() as u32;
            self.slots.push(Slot { start: cell.start, end: cell.end, value: cell.value, before: at });
            match after {
                NONE => self.latest[signal] = new,
                _ => self.slots[after as usize].before = new,
            }
            at = new;
        }
        self.uses.push(at);
    }
}
