//! Letters and journals, as huts write them, changed at random, or bytes of no form at all.

use crate::digest::sha256;
use crate::entries::{Numbers, entries, journal};
use crate::letters::{Waiting, write_letter};

const EDGES: [u8; 12] = [0, 1, 2, 3, 4, 5, 14, 15, 16, 66, 254, 255];

pub struct Inputs {
    numbers: Numbers,
    letters: Vec<Vec<u8>>,
    journals: Vec<Vec<u8>>,
}

/// Letters of few entries, with those before them and without.
fn letters() -> Vec<Vec<u8>> {
    let known = entries(1, 24, true);
    let mut out = Vec::new();
    for (committed, tentative) in [(0, 0), (1, 0), (0, 1), (3, 0), (0, 3), (4, 4), (8, 16), (0, 24), (24, 0)] {
        for from in [0, 2, 6] {
            let first: Vec<_> = known.iter().skip(from).take(committed).copied().collect();
            let second = known.iter().skip(from + committed).take(tentative);
            let waiting: Vec<Waiting> = second.map(|entry| Waiting { entry: *entry, stood: [0; 16] }).collect();
            let mut letter = Vec::new();
            assert!(write_letter(from as u32, &first, &waiting, &mut letter));
            out.push(letter);
        }
    }
    out
}

impl Inputs {
    pub fn new(seed: u64) -> Inputs {
        let known = entries(1, 24, true);
        let part = |count: usize, committed: usize| {
            let mut out = journal(&known[..count], false);
            out.extend(journal(&known[..committed], true).split_off(journal(&known[..committed], false).len()));
            out
        };
        let journals = vec![Vec::new(), part(1, 0), part(2, 1), part(6, 2), part(6, 6), part(24, 0), part(24, 20)];
        Inputs { numbers: Numbers::new(seed), letters: letters(), journals }
    }

    pub fn below(&mut self, below: usize) -> usize {
        self.numbers.next(below as u32) as usize
    }

    fn bytes(&mut self, most: usize) -> Vec<u8> {
        let count = self.below(most + 1);
        (0..count).map(|_| self.numbers.next(256) as u8).collect()
    }

    /// A journal as a hut writes it.
    pub fn whole_journal(&mut self) -> Vec<u8> {
        let at = self.below(self.journals.len());
        self.journals[at].clone()
    }

    fn whole_letter(&mut self) -> Vec<u8> {
        let at = self.below(self.letters.len());
        self.letters[at].clone()
    }

    /// One change: of a bit or a byte, some bytes more, some fewer, some twice, or none behind a place.
    fn change(&mut self, bytes: &mut Vec<u8>) {
        let at = self.below(bytes.len() + 1);
        let length = [1, 1, 2, 5, 16, 33][self.below(6)].min(bytes.len() - at);
        match self.below(8) {
            0 => {
                let more = self.bytes(40);
                bytes.splice(at..at, more);
            }
            1 => drop(bytes.drain(at..at + length)),
            2 => bytes.truncate(at),
            3 => {
                let twice = bytes[at..at + length].to_vec();
                bytes.splice(at..at, twice);
            }
            4 | 5 if at < bytes.len() => bytes[at] ^= 1 << self.below(8),
            _ if at < bytes.len() => bytes[at] = EDGES[self.below(EDGES.len())],
            _ => bytes.push(EDGES[self.below(EDGES.len())]),
        }
    }

    fn changed(&mut self, mut bytes: Vec<u8>) -> Vec<u8> {
        for _ in 0..[0, 1, 1, 1, 2, 3, 8][self.below(7)] {
            self.change(&mut bytes);
        }
        bytes
    }

    /// Bytes to be taken as a letter. Three in four have a right digest, so that what stands before it is read.
    pub fn letter(&mut self) -> Vec<u8> {
        match self.below(16) {
            0 => self.bytes(200),
            1..4 => {
                let whole = self.whole_letter();
                self.changed(whole)
            }
            way => {
                let mut content = if way == 4 { self.bytes(200) } else { self.whole_letter() };
                content.truncate(content.len().saturating_sub(32));
                let mut content = self.changed(content);
                if way < 6 && !content.is_empty() {
                    content[0] = 66;
                }
                let digest = sha256(&content);
                content.extend(digest);
                content
            }
        }
    }

    /// Bytes to be opened as a journal.
    pub fn journal(&mut self) -> Vec<u8> {
        if self.below(12) == 0 {
            return self.bytes(300);
        }
        let whole = self.whole_journal();
        self.changed(whole)
    }
}
