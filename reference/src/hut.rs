//! One hut: its number, its log and its journal.

use crate::book::Book;
use crate::entries::{Kind, Mark, Refused};
use crate::journal::{COMMITTED, Journal, TENTATIVE};
use crate::letter;
use crate::log::{Log, Vector, covers};

pub struct Hut {
    pub number: u8,
    pub log: Log,
    pub journal: Journal,
}

impl Hut {
    pub fn new(number: u8) -> Hut {
        Hut {
            number,
            log: Log::new(),
            journal: Journal::new(),
        }
    }

    /// The book of the log, done anew.
    pub fn book(&self) -> Book {
        Book::of(self.log.entries())
    }

    pub fn make(&mut self, kind: Kind) -> Result<Mark, Refused> {
        let entry = self.log.next(self.number, kind)?;
        let mark = entry.mark;
        self.journal.append(TENTATIVE, &entry);
        self.log.add_tentative(entry);
        self.journal.sync();
        Ok(mark)
    }

    /// The mark and the place of what was committed, if there was something tentative.
    pub fn ink(&mut self) -> Result<Option<(Mark, usize)>, Refused> {
        if self.number != 0 {
            return Err(Refused(6));
        }
        let Some(entry) = self.log.tentative.values().next().cloned() else {
            return Ok(None);
        };
        let told = (entry.mark, self.log.committed.len());
        self.journal.append(COMMITTED, &entry);
        self.log.add_committed(entry);
        self.journal.sync();
        Ok(Some(told))
    }

    pub fn have(&mut self) -> (u32, Vector) {
        self.journal.sync();
        (self.log.committed.len() as u32, self.log.vector)
    }

    pub fn letter_for(&mut self, count: u32, vector: &Vector) -> Vec<u8> {
        self.journal.sync();
        letter::write(&self.log.hand_on(count, vector))
    }

    /// The new slip.
    pub fn serve(&self, slip: &Vector) -> Result<Vector, Refused> {
        if !covers(&self.log.vector, slip) {
            return Err(Refused(7));
        }
        Ok(std::array::from_fn(|hut| {
            slip[hut].max(self.log.vector[hut])
        }))
    }

    /// Takes a letter; the lines that tell of it.
    pub fn take(&mut self, letter: &[u8]) -> Vec<String> {
        let Ok(read) = letter::read(letter) else {
            return vec!["kept out 1: the letter is damaged".to_string()];
        };
        let mut lines = Vec::new();
        let (mut taken, mut skipped) = (0, 0);
        for (entry, place) in read.committed {
            let Mark { stamp, hut } = entry.mark;
            match self.log.skips_committed(&entry, place) {
                Ok(()) => {
                    taken += 1;
                    lines.push(format!("taken in ink {stamp} {hut} at {place}"));
                    self.journal.append(COMMITTED, &entry);
                    self.log.add_committed(entry);
                }
                Err(Refused(number)) => {
                    skipped += 1;
                    lines.push(format!("passed over {number}: {stamp} {hut}"));
                }
            }
        }
        for (entry, stood_before) in read.tentative {
            let Mark { stamp, hut } = entry.mark;
            match self.log.skips_tentative(&entry, &stood_before) {
                Ok(()) => {
                    taken += 1;
                    lines.push(format!("taken in pencil {stamp} {hut}"));
                    self.journal.append(TENTATIVE, &entry);
                    self.log.add_tentative(entry);
                }
                Err(Refused(number)) => {
                    skipped += 1;
                    lines.push(format!("passed over {number}: {stamp} {hut}"));
                }
            }
        }
        if read.rejected > 0 {
            lines.push("kept out 2: out of range".to_string());
        }
        lines.push(format!(
            "taken {taken}, passed over {skipped}, kept out {}",
            read.rejected
        ));
        lines
    }

    /// Crashes and opens again: how many bytes were cut off.
    pub fn stop(&mut self, kept: u64) -> usize {
        self.journal.crash(kept);
        let (log, cut_off) = self.journal.open();
        self.log = log;
        cut_off
    }
}
