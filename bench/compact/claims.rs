//! The points of a shard that are being evaluated: an open table by hashing, where a claim takes 16 bytes and no memory of its own.
use crate::strand::{Point, Strand};
use std::{iter, mem};

/// What no point has as its key.
const FREE: u64 = u64::MAX;
/// The slots of a new table; the number of slots is always a power of two.
const FIRST_SLOTS: usize = 16;

/// Strands that wait for one point, the last one in front.
pub struct Waiting {
    pub strand: Box<Strand>,
    pub others: Option<Box<Waiting>>,
}

struct Claim {
    key: u64,
    waiting: Option<Box<Waiting>>,
}

pub struct Claims {
    slots: Box<[Claim]>,
    taken: usize,
}

fn key_of((signal, time): Point) -> u64 {
    u64::from(signal) << 32 | u64::from(time)
}

impl Claims {
    pub fn new() -> Claims {
        Claims { slots: free_slots(FIRST_SLOTS), taken: 0 }
    }

    /// Has the strand wait for the point, where it is claimed; else gives it back.
    pub fn wait(&mut self, point: Point, strand: Box<Strand>) -> Option<Box<Strand>> {
        let at = self.place(key_of(point));
        let claim = &mut self.slots[at];
        if claim.key == FREE {
            return Some(strand);
        }
        claim.waiting = Some(Box::new(Waiting { strand, others: claim.waiting.take() }));
        None
    }

    /// Claims a point that is free.
    pub fn insert(&mut self, point: Point) {
        if 2 * self.taken >= self.slots.len() {
            self.grow();
        }
        self.put(Claim { key: key_of(point), waiting: None });
    }

    /// Ends the claim of a point, and gives who waits for it.
    pub fn remove(&mut self, point: Point) -> Option<Box<Waiting>> {
        let mut hole = self.place(key_of(point));
        let waiting = self.slots[hole].waiting.take();
        self.slots[hole].key = FREE;
        self.taken -= 1;
        // Each claim behind the hole that would no longer be found goes into it.
        let mask = self.mask();
        let mut at = (hole + 1) & mask;
        while self.slots[at].key != FREE {
            let first = self.first_place(self.slots[at].key);
            if at.wrapping_sub(first) & mask >= at.wrapping_sub(hole) & mask {
                self.slots.swap(hole, at);
                hole = at;
            }
            at = (at + 1) & mask;
        }
        waiting
    }

    fn mask(&self) -> usize {
        self.slots.len() - 1
    }

    fn first_place(&self, key: u64) -> usize {
        (key.wrapping_mul(0x9E37_79B9_7F4A_7C15) >> 32) as usize & self.mask()
    }

    /// The slot that has this key, or the free one where it would stand.
    fn place(&self, key: u64) -> usize {
        let mut at = self.first_place(key);
        while self.slots[at].key != key && self.slots[at].key != FREE {
            at = (at + 1) & self.mask();
        }
        at
    }

    fn put(&mut self, claim: Claim) {
        let at = self.place(claim.key);
        self.slots[at] = claim;
        self.taken += 1;
    }

    fn grow(&mut self) {
        let more = free_slots(2 * self.slots.len());
        self.taken = 0;
        for claim in mem::replace(&mut self.slots, more) {
            if claim.key != FREE {
                self.put(claim);
            }
        }
    }
}

fn free_slots(count: usize) -> Box<[Claim]> {
    iter::repeat_with(|| Claim { key: FREE, waiting: None }).take(count).collect()
}
