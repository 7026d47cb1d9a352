//! A bounded store of cells in plain Rust: a list that is linked by recency over a hash map, beside an ordered index of the cells' starts.
use std::collections::{BTreeMap, HashMap};

const NONE: usize = usize::MAX;

/// A signal, and a time or the start of a cell.
pub type Key = (u32, u32);

#[derive(Clone, Copy)]
pub struct Cell<V> {
    pub start: u32,
    pub end: u32,
    pub value: V,
}

struct Node<V> {
    key: Key,
    cell: Cell<V>,
    before: usize,
    after: usize,
}

pub struct Store<V> {
    capacity: usize,
    nodes: Vec<Node<V>>,
    places: HashMap<Key, usize>,
    ends: BTreeMap<Key, u32>,
    first: usize,
    last: usize,
}

impl<V: Copy> Store<V> {
    pub fn new(capacity: usize) -> Store<V> {
        Store { capacity, nodes: Vec::new(), places: HashMap::new(), ends: BTreeMap::new(), first: NONE, last: NONE }
    }

    fn unlink(&mut self, at: usize) {
        let (before, after) = (self.nodes[at].before, self.nodes[at].after);
        if before == NONE { self.first = after } else { self.nodes[before].after = after }
        if after == NONE { self.last = before } else { self.nodes[after].before = before }
    }

    fn link_first(&mut self, at: usize) {
        self.nodes[at].before = NONE;
        self.nodes[at].after = self.first;
        if self.first == NONE { self.last = at } else { self.nodes[self.first].before = at }
        self.first = at;
    }

    fn move_first(&mut self, at: usize) {
        self.unlink(at);
        self.link_first(at);
    }

    /// The cell of the signal that covers the time; it is then the most recent one.
    pub fn find(&mut self, (signal, time): Key) -> Option<Cell<V>> {
        let (&key, &end) = self.ends.range(..=(signal, time)).next_back()?;
        if key.0 != signal || time >= end {
            return None;
        }
        let at = self.places[&key];
        self.move_first(at);
        Some(self.nodes[at].cell)
    }

    /// Stores a cell of the signal as the most recent one, and gives the key of the cell that had to go for it.
    pub fn put(&mut self, signal: u32, cell: Cell<V>) -> Option<Key> {
        let key = (signal, cell.start);
        if let Some(&at) = self.places.get(&key) {
            self.move_first(at);
            return None;
        }
        self.ends.insert(key, cell.end);
        let node = Node { key, cell, before: NONE, after: NONE };
        let mut evicted = None;
        let at = if self.nodes.len() == self.capacity {
            let at = self.last;
            let old = self.nodes[at].key;
            self.unlink(at);
            self.places.remove(&old);
            self.ends.remove(&old);
            self.nodes[at] = node;
            evicted = Some(old);
            at
        } else {
            self.nodes.push(node);
            self.nodes.len() - 1
        };
        self.places.insert(key, at);
        self.link_first(at);
        evicted
    }
}
