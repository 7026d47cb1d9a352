// A million calls of the store in plain Rust.
#[path = "../plain/store.rs"]
#[allow(dead_code)]
mod store;

use std::time::Instant;
use store::{Cell, Store};

const CAPACITY: u32 = 65_536;
const CALLS: u32 = 1_000_000;
const CELLS: u32 = 200_000;

fn put(store: &mut Store<u8>, number: u32) -> bool {
    let start = number / 1_000 * 10;
    store.put(number % 1_000, Cell { start, end: start + 10, value: 1 }).is_some()
}

fn scattered(k: u32) -> u32 {
    k.wrapping_mul(2_654_435_761) % CELLS
}

fn put_all(store: &mut Store<u8>, calls: u32) -> u32 {
    (0..calls).filter(|&k| put(store, scattered(k))).count() as u32
}

fn find_all(store: &mut Store<u8>, calls: u32) -> u32 {
    let found = |k: &u32| {
        let number = scattered(CALLS - 1 - k % 50_000);
        store.find((number % 1_000, number / 1_000 * 10 + 5)).is_some()
    };
    (0..calls).filter(found).count() as u32
}

fn main() {
    let mut store = Store::new(CAPACITY as usize);
    put_all(&mut store, CAPACITY);
    let start = Instant::now();
    let evicted = put_all(&mut store, CALLS);
    let stored = start.elapsed().as_millis();
    let start = Instant::now();
    let hits = find_all(&mut store, CALLS);
    let found = start.elapsed().as_millis();
    println!("put: {CALLS} calls, {evicted} evictions, {stored} ms");
    println!("find: {CALLS} calls, {hits} hits, {found} ms");
}
