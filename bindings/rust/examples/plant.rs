//! Keeps the last 40 readings, one a line, as records on a heap, and prints them at the end.
use rtheap::{Config, Heap, Value};
use std::error::Error;
use std::io;

const KEPT: u64 = 40;

// At most 50 blocks are live: 3 of registers, 6 of the array, 40 readings and the next one.
const HEAP: Config = Config {
    shared: KEPT as u32,
    ..Config::new(128, 50)
};

// Registers.
const ARRAY: u8 = 0;
const RECORD: u8 = 1;
const NUMBER: u8 = 2;

fn keep(heap: &mut Heap, place: u64, reading: u32) -> Result<(), rtheap::Error> {
    heap.record(RECORD, 1)?;
    heap.set(NUMBER, reading.into())?;
    heap.put(RECORD, 0, NUMBER)?;
    heap.put(ARRAY, place, RECORD)
}

fn reading_at(heap: &mut Heap, place: u64) -> Result<Value, rtheap::Error> {
    heap.get(RECORD, ARRAY, place)?;
    heap.get(NUMBER, RECORD, 0)
}

fn main() -> Result<(), Box<dyn Error>> {
    let mut heap = Heap::open(&HEAP)?;
    let mut count = 0;
    for line in io::stdin().lines() {
        keep(&mut heap, count % KEPT, line?.trim().parse()?)?;
        count += 1;
    }
    for i in count.saturating_sub(KEPT)..count {
        let reading = reading_at(&mut heap, i % KEPT)?;
        println!("{}", reading.number().ok_or("no reading")?);
    }
    Ok(())
}
