//! Letters that are read and written by the proved code beside its twin in plain Rust.
#[path = "../digest/twin.rs"]
mod digest;
#[path = "../measuring.rs"]
mod measuring;
#[path = "twin.rs"]
mod letters;

use letters::{Choice, Choices, Entry, Item, Kind, Letter, Mark, Waiting, write_letter};
use measuring::Bench;
use std::hint::black_box;

const ENTRIES: u32 = 1024;

unsafe extern "C" {
    fn letter_sum(bytes: *const u8, len: usize) -> u64;
    fn letter_written(bytes: *const u8, len: usize, turns: u32) -> usize;
}

// The declarations are those of crates/letters_bench: a slice is a pointer and then a length, and the heap takes no place.
fn proved_sum(bytes: &[u8]) -> u64 {
    unsafe { letter_sum(bytes.as_ptr(), bytes.len()) }
}

fn proved_written(bytes: &[u8], turns: u32) -> usize {
    unsafe { letter_written(bytes.as_ptr(), bytes.len(), turns) }
}

fn twin_sum(bytes: &[u8]) -> u64 {
    let Some(letter) = Letter::open(bytes) else {
        return 0;
    };
    let out = letter.kept_out() as u64;
    letter.fold(out, |sum, item| {
        sum.wrapping_add(match item {
            Item::Committed { place, entry } => place.wrapping_add(entry.mark.stamp as u64),
            Item::Tentative(waiting) => waiting.entry.mark.stamp as u64 + waiting.stood[0] as u64,
        })
    })
}

fn twin_written(bytes: &[u8], turns: u32) -> usize {
    let (mut committed, mut tentative) = (Vec::with_capacity(1024), Vec::with_capacity(1024));
    for item in Letter::open(bytes).into_iter().flatten() {
        match item {
            Item::Committed { entry, .. } => committed.push(entry),
            Item::Tentative(waiting) => tentative.push(waiting),
        }
    }
    let mut out = Vec::with_capacity(98345);
    for _ in 0..turns {
        out.clear();
        write_letter(0, &committed, &tentative, &mut out);
    }
    out.len()
}

/// Changes of four choices, the longest entries that there are.
fn entry(i: u32) -> Entry {
    let choice = Choice { hut: (i % 16) as u8, night: (i % 350) as u16, nights: 1 + (i % 14) as u8, beds: 1 + (i % 20) as u8 };
    let mark = Mark { stamp: 1 + i, hut: (i % 16) as u8 };
    Entry { mark, kind: Kind::Change { mark, choices: Choices { count: 4, all: [choice; 4] } } }
}

/// A full letter, of so many committed entries and else tentative ones.
fn letter(committed: u32) -> Vec<u8> {
    let entries: Vec<Entry> = (0..committed).map(entry).collect();
    let waiting: Vec<Waiting> = (committed..ENTRIES).map(|i| Waiting { entry: entry(i), stood: [i; 16] }).collect();
    let mut out = Vec::new();
    assert!(write_letter(0, &entries, &waiting, &mut out));
    out
}

fn repeated(sum: fn(&[u8]) -> u64, bytes: &[u8], repeats: usize) -> u64 {
    (0..repeats).fold(0, |all, _| all + sum(black_box(bytes)))
}

fn main() {
    let bench = Bench::new();
    let repeats = bench.amount(200, 5);
    for (name, committed) in [("committed", ENTRIES), ("tentative", 0)] {
        let bytes = letter(committed);
        let read = format!("a letter of 1,024 {name} entries, read");
        bench.row(&read, repeats, || repeated(proved_sum, &bytes, repeats), || repeated(twin_sum, &bytes, repeats));
        let written = format!("a letter of 1,024 {name} entries, written");
        let turns = repeats as u32;
        bench.row(&written, repeats, || proved_written(&bytes, turns), || twin_written(&bytes, turns));
    }
}
