//! The book of a list of entries: the first book after all of them were done, in order.

use crate::entries::{Entry, HUTS, Kind, Mark, NIGHTS, Stay};
use std::collections::BTreeMap;

#[derive(Clone, Copy)]
pub enum Outcome {
    /// The number of the choice, from 1, and the choice.
    Holds(usize, Stay),
    Nothing,
    Cancelled,
    ChangedBy(Mark),
    NotABooking,
}

#[derive(Clone, Copy)]
pub struct Night {
    pub beds: u32,
    pub booked: u32,
}

pub struct Book {
    nights: Vec<[Night; NIGHTS]>,
    outcomes: BTreeMap<Mark, Outcome>,
}

impl Book {
    pub fn of<'a>(entries: impl Iterator<Item = &'a Entry>) -> Book {
        let first = Night {
            beds: 20,
            booked: 0,
        };
        let mut book = Book {
            nights: vec![[first; NIGHTS]; HUTS],
            outcomes: BTreeMap::new(),
        };
        for entry in entries {
            book.carry_out(entry);
        }
        book
    }

    pub fn night(&self, hut: usize, night: usize) -> Night {
        self.nights[hut][night]
    }

    pub fn outcome(&self, mark: Mark) -> Option<Outcome> {
        self.outcomes.get(&mark).copied()
    }

    fn carry_out(&mut self, entry: &Entry) {
        let own = match &entry.kind {
            Kind::Book { choices, .. } => self.book_first_free(choices),
            Kind::Cancel { named } => {
                if let Some((_, stay)) = self.held_by(*named) {
                    self.give_back(stay);
                    self.outcomes.insert(*named, Outcome::Cancelled);
                }
                Outcome::NotABooking
            }
            Kind::Change { named, choices } => self.change(entry.mark, *named, choices),
            Kind::Beds { stay } => {
                for night in self.nights_of(*stay) {
                    night.beds = u32::from(stay.beds).max(night.booked);
                }
                Outcome::NotABooking
            }
        };
        self.outcomes.insert(entry.mark, own);
    }

    fn change(&mut self, mark: Mark, named: Mark, choices: &[Stay]) -> Outcome {
        let Some((_, old)) = self.held_by(named) else {
            return Outcome::Nothing;
        };
        self.give_back(old);
        let own = self.book_first_free(choices);
        match own {
            Outcome::Holds(..) => {
                self.outcomes.insert(named, Outcome::ChangedBy(mark));
            }
            _ => self.claim(old),
        }
        own
    }

    fn held_by(&self, mark: Mark) -> Option<(usize, Stay)> {
        match self.outcomes.get(&mark) {
            Some(Outcome::Holds(number, stay)) => Some((*number, *stay)),
            _ => None,
        }
    }

    fn book_first_free(&mut self, choices: &[Stay]) -> Outcome {
        for (at, choice) in choices.iter().enumerate() {
            if self.is_free(*choice) {
                self.claim(*choice);
                return Outcome::Holds(at + 1, *choice);
            }
        }
        Outcome::Nothing
    }

    fn is_free(&mut self, choice: Stay) -> bool {
        self.nights_of(choice)
            .iter()
            .all(|night| night.beds - night.booked >= u32::from(choice.beds))
    }

    fn claim(&mut self, stay: Stay) {
        for night in self.nights_of(stay) {
            night.booked += u32::from(stay.beds);
        }
    }

    fn give_back(&mut self, stay: Stay) {
        for night in self.nights_of(stay) {
            night.booked -= u32::from(stay.beds);
        }
    }

    fn nights_of(&mut self, stay: Stay) -> &mut [Night] {
        let first = usize::from(stay.first);
        &mut self.nights[usize::from(stay.hut)][first..first + usize::from(stay.nights)]
    }
}
