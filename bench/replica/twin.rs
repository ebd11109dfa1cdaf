//! Replicas over their journals in plain Rust, with the same algorithms as crates/replica, journal and network: a log in
//! one list, committed entries first; a book that is undone to a place and done again from there; marks looked for one by one.

use crate::letters::{Choice, Choices, Entry, Item, Kind, Letter, Mark, Reader, put_entry};

pub const HUTS: usize = 16;
pub const NIGHTS: usize = 366;
pub const PLACES: usize = HUTS * NIGHTS;
const CAPACITY: usize = 65_536;
const HIGHEST: u32 = 4_294_967_294;

pub type Vector = [u32; HUTS];

#[derive(Clone, Copy)]
struct Grant {
    number: u8,
    choice: Choice,
    replaces: Option<u32>,
}

#[derive(Clone, Copy)]
enum Outcome {
    Holds(Grant),
    Nothing,
    Cancelled(Grant),
    Changed(Grant),
    Freed(Option<u32>),
    Resized(Choice, [u32; 14]),
}

struct Book {
    beds: Vec<u32>,
    booked: Vec<u32>,
    marks: Vec<Mark>,
    outcomes: Vec<Outcome>,
}

fn nights_of(stay: &Choice) -> std::ops::Range<usize> {
    let first = stay.hut as usize * NIGHTS + stay.night as usize;
    first..first + stay.nights as usize
}

impl Book {
    fn new() -> Book {
        Book {
            beds: vec![20; PLACES],
            booked: vec![0; PLACES],
            marks: Vec::with_capacity(CAPACITY),
            outcomes: Vec::with_capacity(CAPACITY),
        }
    }

    fn find(&self, mark: Mark) -> Option<usize> {
        self.marks.iter().position(|known| *known == mark)
    }

    fn claim(&mut self, choice: &Choice) {
        for night in &mut self.booked[nights_of(choice)] {
            *night += choice.beds as u32;
        }
    }

    fn release(&mut self, choice: &Choice) {
        for night in &mut self.booked[nights_of(choice)] {
            *night -= choice.beds as u32;
        }
    }

    fn is_free(&self, choice: &Choice) -> bool {
        let nights = nights_of(choice);
        let booked = &self.booked[nights.clone()];
        self.beds[nights].iter().zip(booked).all(|(beds, booked)| beds.saturating_sub(*booked) >= choice.beds as u32)
    }

    fn grant_first(&mut self, choices: &Choices, replaces: Option<u32>) -> Option<Grant> {
        let listed = &choices.all[..choices.count as usize];
        let number = listed.iter().position(|choice| self.is_free(choice))?;
        let choice = listed[number];
        self.claim(&choice);
        Some(Grant { number: number as u8, choice, replaces })
    }

    fn standing(&self, mark: Mark) -> Option<(usize, Grant)> {
        let place = self.find(mark)?;
        match self.outcomes[place] {
            Outcome::Holds(grant) => Some((place, grant)),
            _ => None,
        }
    }

    fn cancel(&mut self, mark: Mark) -> Outcome {
        let Some((place, grant)) = self.standing(mark) else {
            return Outcome::Freed(None);
        };
        self.release(&grant.choice);
        self.outcomes[place] = Outcome::Cancelled(grant);
        Outcome::Freed(Some(place as u32))
    }

    fn change(&mut self, mark: Mark, choices: &Choices) -> Outcome {
        let Some((place, old)) = self.standing(mark) else {
            return Outcome::Nothing;
        };
        self.release(&old.choice);
        let Some(grant) = self.grant_first(choices, Some(place as u32)) else {
            self.claim(&old.choice);
            return Outcome::Nothing;
        };
        self.outcomes[place] = Outcome::Changed(old);
        Outcome::Holds(grant)
    }

    fn resize(&mut self, supply: &Choice) -> Outcome {
        let nights = nights_of(supply);
        let mut were = [0; 14];
        let (beds, booked) = (&mut self.beds[nights.clone()], &self.booked[nights]);
        were[..beds.len()].copy_from_slice(beds);
        for (night, booked) in beds.iter_mut().zip(booked) {
            *night = (supply.beds as u32).max(*booked);
        }
        Outcome::Resized(*supply, were)
    }

    fn apply(&mut self, entry: &Entry) {
        let own = match &entry.kind {
            Kind::Book { choices, .. } => self.grant_first(choices, None).map_or(Outcome::Nothing, Outcome::Holds),
            Kind::Cancel { mark } => self.cancel(*mark),
            Kind::Change { mark, choices } => self.change(*mark, choices),
            Kind::Beds { supply } => self.resize(supply),
        };
        self.marks.push(entry.mark);
        self.outcomes.push(own);
    }

    fn reinstate(&mut self, place: usize) {
        if let Outcome::Cancelled(grant) | Outcome::Changed(grant) = self.outcomes[place] {
            self.claim(&grant.choice);
            self.outcomes[place] = Outcome::Holds(grant);
        }
    }

    fn undo(&mut self) {
        let Some(last) = self.outcomes.pop() else {
            return;
        };
        self.marks.pop();
        match last {
            Outcome::Holds(grant) => {
                self.release(&grant.choice);
                if let Some(place) = grant.replaces {
                    self.reinstate(place as usize);
                }
            }
            Outcome::Freed(Some(place)) => self.reinstate(place as usize),
            Outcome::Resized(stay, were) => {
                self.beds[nights_of(&stay)].copy_from_slice(&were[..stay.nights as usize]);
            }
            Outcome::Nothing | Outcome::Cancelled(_) | Outcome::Changed(_) | Outcome::Freed(None) => {}
        }
    }

    /// Undone to a place of a log, and done again from there.
    fn redo(&mut self, log: &[Entry], place: usize) {
        while self.outcomes.len() > place {
            self.undo();
        }
        for entry in &log[place..] {
            self.apply(entry);
        }
    }
}

/// Where a mark goes among sorted entries: most come last.
fn spot_of(sorted: &[Entry], mark: Mark) -> usize {
    if sorted.last().is_none_or(|last| last.mark <= mark) {
        return sorted.len();
    }
    sorted.partition_point(|known| known.mark <= mark)
}

/// By its number.
pub type Refused = u8;

pub struct Replica {
    hut: u8,
    top: u32,
    seen: Vector,
    log: Vec<Entry>,
    committed: usize,
    book: Book,
}

impl Replica {
    pub fn new(hut: u8) -> Replica {
        let log = Vec::with_capacity(CAPACITY);
        Replica { hut, top: 0, seen: [0; HUTS], log, committed: 0, book: Book::new() }
    }

    pub fn len(&self) -> usize {
        self.log.len()
    }

    pub fn committed(&self) -> usize {
        self.committed
    }

    fn find(&self, mark: Mark) -> Option<usize> {
        if mark.stamp > self.seen[mark.hut as usize] {
            return None;
        }
        self.book.find(mark)
    }

    fn has_no_room(&self, stamp: u32) -> bool {
        self.log.len() >= CAPACITY || stamp > HIGHEST
    }

    fn note(&mut self, mark: Mark) {
        let stamp = &mut self.seen[mark.hut as usize];
        *stamp = mark.stamp.max(*stamp);
        self.top = mark.stamp.max(self.top);
    }

    fn insert(&mut self, place: usize, entry: Entry) {
        self.log.insert(place, entry);
        self.book.redo(&self.log, place);
        self.note(entry.mark);
    }

    pub fn make(&mut self, kind: Kind) -> Result<Entry, Refused> {
        if self.has_no_room(self.top.saturating_add(1)) {
            return Err(8);
        }
        if let Kind::Cancel { mark } | Kind::Change { mark, .. } = kind
            && self.find(mark).is_none()
        {
            return Err(9);
        }
        let entry = Entry { mark: Mark { stamp: self.top + 1, hut: self.hut }, kind };
        self.log.push(entry);
        self.book.apply(&entry);
        self.note(entry.mark);
        Ok(entry)
    }

    fn take_tentative(&mut self, entry: Entry, stood: &Vector) -> Result<(), Refused> {
        if self.find(entry.mark).is_some() {
            return Err(3);
        }
        if !self.seen.iter().zip(stood).all(|(ours, theirs)| ours >= theirs) {
            return Err(5);
        }
        if self.has_no_room(entry.mark.stamp) {
            return Err(8);
        }
        let spot = spot_of(&self.log[self.committed..], entry.mark);
        self.insert(self.committed + spot, entry);
        Ok(())
    }

    fn take_committed(&mut self, place: usize, entry: Entry) -> Result<(), Refused> {
        if place == self.committed && self.log.get(place) == Some(&entry) {
            self.committed += 1;
            return Ok(());
        }
        let known = self.find(entry.mark);
        if known.is_some_and(|known| known < self.committed) {
            return Err(3);
        }
        if place != self.committed {
            return Err(4);
        }
        match known {
            None if self.has_no_room(entry.mark.stamp) => return Err(8),
            None => self.insert(place, entry),
            Some(known) => {
                if known > place || self.log[place] != entry {
                    self.log[place..=known].rotate_right(1);
                    self.log[place] = entry;
                    self.book.redo(&self.log, place);
                }
            }
        }
        self.committed += 1;
        Ok(())
    }

    /// Of how many entries are committed, of all marks in their order, and of beds and booked on each night.
    pub fn sum(&self) -> u64 {
        let mixed = |sum: u64, number: u64| sum.wrapping_mul(31).wrapping_add(number);
        let marks = self.log.iter().fold(self.committed as u64, |sum, entry| {
            mixed(mixed(sum, entry.mark.stamp as u64), entry.mark.hut as u64)
        });
        let nights = self.book.beds.iter().zip(&self.book.booked);
        nights.fold(marks, |sum, (beds, booked)| mixed(mixed(sum, *beds as u64), *booked as u64))
    }
}

/// What came of an entry, as it would be told.
#[derive(Clone, Copy)]
pub enum Taking {
    Committed { place: u64, mark: Mark },
    Tentative(Mark),
    Skipped(Refused, Mark),
}

impl Taking {
    pub fn is_skipped(&self) -> bool {
        matches!(self, Taking::Skipped(..))
    }
}

/// A replica and the bytes of its journal.
pub struct Keeper {
    pub replica: Replica,
    pub journal: Vec<u8>,
}

pub fn put_record(out: &mut Vec<u8>, form: u8, entry: &Entry) {
    out.push(form);
    put_entry(out, entry);
}

impl Keeper {
    /// Opens a journal; how many bytes of it can stand.
    pub fn open(hut: u8, bytes: &[u8]) -> (Keeper, usize) {
        let mut replica = Replica::new(hut);
        let mut reader = Reader::new(bytes);
        let mut whole = 0;
        while let Ok((form, entry)) = reader.record() {
            let replayed = match form {
                1 => replica.take_committed(replica.committed, entry),
                _ => replica.take_tentative(entry, &[0; HUTS]),
            };
            if replayed.is_err() {
                break;
            }
            whole = bytes.len() - reader.rest().len();
        }
        (Keeper { replica, journal: Vec::new() }, whole)
    }

    fn take_item(&mut self, item: &Item) -> Taking {
        let (taken, taking, form, entry) = match item {
            Item::Committed { place, entry } => {
                let taken = self.replica.take_committed(*place as usize, *entry);
                (taken, Taking::Committed { place: *place, mark: entry.mark }, 1, entry)
            }
            Item::Tentative(waiting) => {
                let taken = self.replica.take_tentative(waiting.entry, &waiting.stood);
                (taken, Taking::Tentative(waiting.entry.mark), 2, &waiting.entry)
            }
        };
        match taken {
            Ok(()) => {
                put_record(&mut self.journal, form, entry);
                taking
            }
            Err(number) => Taking::Skipped(number, entry.mark),
        }
    }

    /// Takes the bytes of a letter: what came of each entry, and how many were kept out behind them; none where it is damaged.
    pub fn take(&mut self, bytes: &[u8], takings: &mut Vec<Taking>) -> Option<usize> {
        takings.clear();
        let letter = Letter::open(bytes)?;
        let kept_out = letter.kept_out();
        for item in letter {
            takings.push(self.take_item(&item));
        }
        Some(kept_out)
    }
}
