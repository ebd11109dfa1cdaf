//! A log: committed entries in their order, then tentative ones in the order of their marks.

use crate::entries::{Entry, HUTS, Kind, Mark, Refused};
use std::collections::{BTreeMap, BTreeSet};

pub const MOST_ENTRIES: usize = 65_536;
pub const HIGHEST_STAMP: u32 = 4_294_967_294;
pub const MOST_IN_LETTER: usize = 1_024;

/// For each hut the highest stamp, or 0.
pub type Vector = [u32; HUTS];

pub fn covers(vector: &Vector, other: &Vector) -> bool {
    (0..HUTS).all(|hut| vector[hut] >= other[hut])
}

pub fn note(vector: &mut Vector, mark: Mark) {
    let stamp = &mut vector[usize::from(mark.hut)];
    *stamp = mark.stamp.max(*stamp);
}

pub struct Log {
    pub committed: Vec<Entry>,
    /// The marks of `committed`.
    committed_marks: BTreeSet<Mark>,
    pub tentative: BTreeMap<Mark, Entry>,
    /// The vector of all entries. None ever leaves a log, so it only grows.
    pub vector: Vector,
}

/// What is handed on: committed entries from a place on, tentative ones with what stood before each.
pub struct Parcel {
    pub place: u64,
    pub committed: Vec<Entry>,
    pub tentative: Vec<(Entry, Vector)>,
}

impl Log {
    pub fn new() -> Log {
        Log {
            committed: Vec::new(),
            committed_marks: BTreeSet::new(),
            tentative: BTreeMap::new(),
            vector: [0; HUTS],
        }
    }

    pub fn len(&self) -> usize {
        self.committed.len() + self.tentative.len()
    }

    pub fn entries(&self) -> impl Iterator<Item = &Entry> {
        self.committed.iter().chain(self.tentative.values())
    }

    pub fn is_committed(&self, mark: Mark) -> bool {
        self.committed_marks.contains(&mark)
    }

    pub fn knows(&self, mark: Mark) -> bool {
        self.is_committed(mark) || self.tentative.contains_key(&mark)
    }

    pub fn has_room_for(&self, stamp: u64) -> bool {
        self.len() < MOST_ENTRIES && stamp <= u64::from(HIGHEST_STAMP)
    }

    pub fn add_committed(&mut self, entry: Entry) {
        note(&mut self.vector, entry.mark);
        self.tentative.remove(&entry.mark);
        self.committed_marks.insert(entry.mark);
        self.committed.push(entry);
    }

    pub fn add_tentative(&mut self, entry: Entry) {
        note(&mut self.vector, entry.mark);
        self.tentative.insert(entry.mark, entry);
    }

    /// The entry that a make at this hut adds. That `kind` is in range was looked at before.
    pub fn next(&self, hut: u8, kind: Kind) -> Result<Entry, Refused> {
        let highest = self.vector.iter().max().expect("there are sixteen");
        let stamp = u64::from(*highest) + 1;
        if !self.has_room_for(stamp) {
            return Err(Refused(8));
        }
        if let Some(named) = kind.named()
            && !self.knows(named)
        {
            return Err(Refused(9));
        }
        Ok(Entry {
            mark: Mark {
                stamp: stamp as u32,
                hut,
            },
            kind,
        })
    }

    pub fn skips_committed(&self, entry: &Entry, place: u64) -> Result<(), Refused> {
        if self.is_committed(entry.mark) {
            Err(Refused(3))
        } else if place != self.committed.len() as u64 {
            Err(Refused(4))
        } else if !self.knows(entry.mark) && !self.has_room_for(entry.mark.stamp.into()) {
            Err(Refused(8))
        } else {
            Ok(())
        }
    }

    pub fn skips_tentative(&self, entry: &Entry, stood_before: &Vector) -> Result<(), Refused> {
        if self.knows(entry.mark) {
            Err(Refused(3))
        } else if !covers(&self.vector, stood_before) {
            Err(Refused(5))
        } else if !self.has_room_for(entry.mark.stamp.into()) {
            Err(Refused(8))
        } else {
            Ok(())
        }
    }

    /// What goes into a letter for a replica that claims to have so many committed entries and that vector.
    pub fn hand_on(&self, count: u32, vector: &Vector) -> Parcel {
        let from = self.committed.len().min(count as usize);
        let to = self.committed.len().min(from + MOST_IN_LETTER);
        let committed = self.committed[from..to].to_vec();
        let mut before: Vector = [0; HUTS];
        for entry in &self.committed {
            note(&mut before, entry.mark);
        }
        let mut tentative = Vec::new();
        for entry in self.tentative.values() {
            let full = committed.len() + tentative.len() == MOST_IN_LETTER;
            if !full && entry.mark.stamp > vector[usize::from(entry.mark.hut)] {
                tentative.push((entry.clone(), before));
            }
            note(&mut before, entry.mark);
        }
        let place = if committed.is_empty() { 0 } else { from as u64 };
        Parcel {
            place,
            committed,
            tentative,
        }
    }
}
