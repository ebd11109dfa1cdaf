//! Gives the proved replica letters and journals of any bytes, and holds what comes of them to its twin in plain Rust. Nothing may crash, and what is
//! kept out or skipped may change nothing. With one number: how many of each; with a second one: the seed.
#[path = "../digest/twin.rs"]
mod digest;
#[path = "../replica/entries.rs"]
mod entries;
mod guarded;
mod inputs;
#[path = "../letters/twin.rs"]
mod letters;
#[path = "../replica/twin.rs"]
mod replicas;

use guarded::Guarded;
use inputs::Inputs;
use replicas::Keeper;

/// The declaration is that of crates/replica_bench.
#[repr(C)]
#[derive(Debug, PartialEq)]
struct Told {
    before: u64,
    after: u64,
    entries: u64,
    committed: u64,
    taken: u64,
    skipped: u64,
    rejected: u64,
    damaged: bool,
    told: bool,
}

unsafe extern "C" {
    fn letter_told(journal: *const u8, journal_len: usize, bytes: *const u8, len: usize) -> Told;
    fn journal_told(bytes: *const u8, len: usize) -> Told;
}

// A slice is a pointer and then a length, and the heap takes no place.
fn proved_letter(journal: &[u8], bytes: &[u8]) -> Told {
    unsafe { letter_told(journal.as_ptr(), journal.len(), bytes.as_ptr(), bytes.len()) }
}

fn proved_journal(bytes: &[u8]) -> Told {
    unsafe { journal_told(bytes.as_ptr(), bytes.len()) }
}

fn twin_letter(journal: &[u8], bytes: &[u8]) -> Told {
    let (mut keeper, _) = Keeper::open(1, journal);
    let before = keeper.replica.sum();
    let mut takings = Vec::new();
    let kept_out = keeper.take(bytes, &mut takings);
    let skipped = takings.iter().filter(|taking| taking.is_skipped()).count();
    Told {
        before,
        after: keeper.replica.sum(),
        entries: keeper.replica.len() as u64,
        committed: keeper.replica.committed() as u64,
        taken: (takings.len() - skipped) as u64,
        skipped: skipped as u64,
        rejected: kept_out.unwrap_or(0) as u64,
        damaged: kept_out.is_none(),
        told: true,
    }
}

fn twin_journal(bytes: &[u8]) -> Told {
    let (keeper, whole) = Keeper::open(1, bytes);
    let sum = keeper.replica.sum();
    Told {
        before: sum,
        after: sum,
        entries: keeper.replica.len() as u64,
        committed: keeper.replica.committed() as u64,
        taken: 0,
        skipped: 0,
        rejected: (bytes.len() - whole) as u64,
        damaged: false,
        told: true,
    }
}

fn hex(bytes: &[u8]) -> String {
    bytes.iter().map(|byte| format!("{byte:02x}")).collect()
}

/// How many letters were damaged, had entries that were kept out, and had some that were taken.
#[derive(Default)]
struct Tally {
    damaged: u64,
    rejected: u64,
    taken: u64,
    cut: u64,
}

fn try_letter(inputs: &mut Inputs, room: &mut Guarded, tally: &mut Tally) {
    let (journal, bytes) = (inputs.whole_journal(), inputs.letter());
    let lent = room.put(&bytes, inputs.below(2) == 0);
    let told = proved_letter(&journal, lent);
    assert_eq!(lent, bytes, "the letter was written to: {}", hex(&bytes));
    assert_eq!(told, twin_letter(&journal, &bytes), "journal {}, letter {}", hex(&journal), hex(&bytes));
    assert!(told.taken > 0 || told.before == told.after, "changed by {}", hex(&bytes));
    tally.damaged += told.damaged as u64;
    tally.rejected += (told.rejected > 0) as u64;
    tally.taken += (told.taken > 0) as u64;
}

fn try_journal(inputs: &mut Inputs, room: &mut Guarded, tally: &mut Tally) {
    let bytes = inputs.journal();
    let lent = room.put(&bytes, inputs.below(2) == 0);
    let told = proved_journal(lent);
    assert_eq!(lent, bytes, "the journal was written to: {}", hex(&bytes));
    assert_eq!(told, twin_journal(&bytes), "journal {}", hex(&bytes));
    let again = proved_journal(&bytes[..bytes.len() - told.rejected as usize]);
    assert_eq!((again.rejected, again.after), (0, told.after), "opened again: {}", hex(&bytes));
    tally.cut += (told.rejected > 0) as u64;
}

fn main() {
    let mut words = std::env::args().skip(1).map(|word| word.parse().expect("expected a number"));
    let (count, seed) = (words.next().unwrap_or(100_000), words.next().unwrap_or(1));
    let (mut inputs, mut room, mut tally) = (Inputs::new(seed), Guarded::new(1 << 16), Tally::default());
    for _ in 0..count {
        try_letter(&mut inputs, &mut room, &mut tally);
        try_journal(&mut inputs, &mut room, &mut tally);
    }
    let Tally { damaged, rejected, taken, cut } = tally;
    println!("{count} letters: {damaged} damaged, {rejected} with entries kept out, {taken} with entries taken; {count} journals: {cut} cut; no crash, no change after a refusal, no difference");
}
