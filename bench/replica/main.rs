//! Proved replicas over their journals beside their twins in plain Rust: letters taken, early entries, journals opened.
#[path = "../digest/twin.rs"]
mod digest;
mod entries;
#[path = "../letters/twin.rs"]
mod letters;
#[path = "../measuring.rs"]
mod measuring;
#[path = "twin.rs"]
mod replicas;

use measuring::Bench;
use replicas::Keeper;

const FULL: usize = 65_536;

unsafe extern "C" {
    fn letters_sum(letters: *const u8, len: usize) -> u64;
    fn journal_sum(bytes: *const u8, len: usize) -> u64;
}

// The declarations are those of crates/replica_bench: a slice is a pointer and then a length, and the heap takes no place.
fn proved_letters(letters: &[u8]) -> u64 {
    unsafe { letters_sum(letters.as_ptr(), letters.len()) }
}

fn proved_journal(bytes: &[u8]) -> u64 {
    unsafe { journal_sum(bytes.as_ptr(), bytes.len()) }
}

fn twin_letters(letters: &[u8]) -> u64 {
    let (mut keeper, _) = Keeper::open(1, &[]);
    keeper.journal.reserve(4_325_377);
    let mut takings = Vec::with_capacity(1024);
    let mut left = letters;
    while let Some((length, rest)) = left.split_first_chunk() {
        let (letter, rest) = rest.split_at(u32::from_be_bytes(*length) as usize);
        keeper.take(letter, &mut takings);
        left = rest;
    }
    keeper.replica.sum()
}

fn twin_journal(bytes: &[u8]) -> u64 {
    Keeper::open(1, bytes).0.replica.sum()
}

fn letters(bench: &Bench) {
    let bookings = entries::entries(1, FULL as u32, false);
    let letters = entries::committed_letters(&bookings);
    bench.row("64 letters of 1,024 committed entries, taken", 1, || proved_letters(&letters), || twin_letters(&letters));
    let letters = entries::tentative_letters(&bookings);
    bench.row("64 letters of 1,024 tentative entries, taken", 1, || proved_letters(&letters), || twin_letters(&letters));
}

/// The entries come first of all, one before the other, in the last letters.
fn early(bench: &Bench) {
    for (name, mixed) in [("bookings", false), ("entries of all kinds", true)] {
        let count = bench.amount(40, 10);
        let mut letters = entries::tentative_letters(&entries::entries(1001, 20_000, mixed));
        let mut first = entries::entries(1, count as u32, false);
        first.reverse();
        letters.extend(entries::tentative_letters(&first));
        let name = format!("an entry that comes before 20,000 tentative {name}");
        bench.row(&name, count, || proved_letters(&letters), || twin_letters(&letters));
    }
}

fn journals(bench: &Bench) {
    for (name, mixed) in [("bookings", false), ("entries of all kinds", true)] {
        let entries = entries::entries(1, bench.amount(FULL, 8192) as u32, mixed);
        for (what, committed) in [("tentative", false), ("then committed", true)] {
            let journal = entries::journal(&entries, committed);
            let name = format!("a journal of 65,536 {name}, {what}, opened");
            bench.row(&name, 1, || proved_journal(&journal), || twin_journal(&journal));
        }
    }
}

fn main() {
    let bench = Bench::new();
    letters(&bench);
    early(&bench);
    journals(&bench);
}
