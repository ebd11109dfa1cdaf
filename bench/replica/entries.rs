//! Entries, letters and journals to be taken and opened, the same in each run.

use crate::letters::{Choice, Choices, Entry, Kind, Mark, Waiting, write_letter};
use crate::replicas::put_record;

/// Numbers without a pattern.
pub struct Numbers(u64);

impl Numbers {
    pub fn new(seed: u64) -> Numbers {
        Numbers(seed)
    }

    /// From 0 to `below` - 1.
    pub fn next(&mut self, below: u32) -> u32 {
        self.0 = self.0.wrapping_mul(6364136223846793005).wrapping_add(1442695040888963407);
        ((self.0 >> 33) % below as u64) as u32
    }

    fn choice(&mut self) -> Choice {
        let nights = 1 + self.next(3) as u8;
        Choice { hut: self.next(16) as u8, night: self.next(360) as u16, nights, beds: 1 + self.next(6) as u8 }
    }

    fn choices(&mut self) -> Choices {
        let count = 1 + self.next(3) as u8;
        Choices { count, all: std::array::from_fn(|_| self.choice()) }
    }

    pub fn booking(&mut self) -> Kind {
        Kind::Book { guest: self.next(1000), choices: self.choices() }
    }

    /// A booking, or one time in ten a cancel, a change or a change of beds, of some entry with a lower stamp.
    fn mixed(&mut self, stamp: u32) -> Kind {
        let way = if stamp == 1 { 9 } else { self.next(30) };
        let named = 1 + self.next(stamp.max(2) - 1);
        let mark = Mark { stamp: named, hut: (named % 16) as u8 };
        match way {
            0 => Kind::Cancel { mark },
            1 => Kind::Change { mark, choices: self.choices() },
            2 => Kind::Beds { supply: self.choice() },
            _ => self.booking(),
        }
    }
}

/// So many entries behind a stamp, one for each stamp, hut by hut in turn.
pub fn entries(first: u32, count: u32, mixed: bool) -> Vec<Entry> {
    let mut numbers = Numbers::new(first as u64);
    let entry = |stamp: u32| {
        let kind = if mixed { numbers.mixed(stamp) } else { numbers.booking() };
        Entry { mark: Mark { stamp, hut: (stamp % 16) as u8 }, kind }
    };
    (first..first + count).map(entry).collect()
}

/// A letter behind its length.
fn put_letter(out: &mut Vec<u8>, place: u32, committed: &[Entry], tentative: &[Entry]) {
    let waiting: Vec<Waiting> = tentative.iter().map(|entry| Waiting { entry: *entry, stood: [0; 16] }).collect();
    let mut letter = Vec::new();
    assert!(write_letter(place, committed, &waiting, &mut letter));
    out.extend((letter.len() as u32).to_be_bytes());
    out.extend(letter);
}

/// Letters of committed entries, 1,024 in each.
pub fn committed_letters(entries: &[Entry]) -> Vec<u8> {
    let mut out = Vec::new();
    for (number, part) in entries.chunks(1024).enumerate() {
        put_letter(&mut out, number as u32 * 1024, part, &[]);
    }
    out
}

/// Letters of tentative entries, 1,024 in each.
pub fn tentative_letters(entries: &[Entry]) -> Vec<u8> {
    let mut out = Vec::new();
    for part in entries.chunks(1024) {
        put_letter(&mut out, 0, &[], part);
    }
    out
}

/// A journal in which entries came as tentative, and then perhaps were committed in the same order.
pub fn journal(entries: &[Entry], committed: bool) -> Vec<u8> {
    let mut out = Vec::new();
    for entry in entries {
        put_record(&mut out, 2, entry);
    }
    for entry in entries.iter().filter(|_| committed) {
        put_record(&mut out, 1, entry);
    }
    out
}
