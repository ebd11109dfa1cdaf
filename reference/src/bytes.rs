//! Entries as bytes, high byte first, and back.

use crate::entries::{self, Entry, Kind, Mark, OUT_OF_RANGE, Refused, Stay};

fn write_mark(to: &mut Vec<u8>, mark: Mark) {
    to.extend(mark.stamp.to_be_bytes());
    to.push(mark.hut);
}

fn write_stay(to: &mut Vec<u8>, stay: &Stay) {
    to.push(stay.hut);
    to.extend(stay.first.to_be_bytes());
    to.push(stay.nights);
    to.push(stay.beds);
}

fn write_choices(to: &mut Vec<u8>, choices: &[Stay]) {
    to.push(choices.len() as u8);
    for choice in choices {
        write_stay(to, choice);
    }
}

pub fn write_entry(to: &mut Vec<u8>, entry: &Entry) {
    write_mark(to, entry.mark);
    match &entry.kind {
        Kind::Book { guest, choices } => {
            to.push(1);
            to.extend(guest.to_be_bytes());
            write_choices(to, choices);
        }
        Kind::Cancel { named } => {
            to.push(2);
            write_mark(to, *named);
        }
        Kind::Change { named, choices } => {
            to.push(3);
            write_mark(to, *named);
            write_choices(to, choices);
        }
        Kind::Beds { stay } => {
            to.push(4);
            write_stay(to, stay);
        }
    }
}

/// Why bytes could not be read.
#[derive(PartialEq, Debug)]
pub enum Unread {
    /// Cut short, or not of the form that they should have.
    Damaged,
    OutOfRange,
}

impl From<Refused> for Unread {
    fn from(refused: Refused) -> Unread {
        assert_eq!(refused, OUT_OF_RANGE);
        Unread::OutOfRange
    }
}

/// A value, or that a number of it is out of range: its bytes are read in either case.
type Judged<T> = Result<T, Refused>;

/// Reads bytes from their front.
pub struct Reader<'a> {
    pub rest: &'a [u8],
}

impl Reader<'_> {
    fn next<const N: usize>(&mut self) -> Result<[u8; N], Unread> {
        let (next, rest) = self.rest.split_first_chunk::<N>().ok_or(Unread::Damaged)?;
        self.rest = rest;
        Ok(*next)
    }

    pub fn byte(&mut self) -> Result<u8, Unread> {
        Ok(self.next::<1>()?[0])
    }

    pub fn two(&mut self) -> Result<u16, Unread> {
        Ok(u16::from_be_bytes(self.next()?))
    }

    pub fn four(&mut self) -> Result<u32, Unread> {
        Ok(u32::from_be_bytes(self.next()?))
    }

    fn mark(&mut self) -> Result<Judged<Mark>, Unread> {
        let [a, b, c, d, hut] = self.next()?;
        let stamp = u32::from_be_bytes([a, b, c, d]);
        Ok(entries::mark(stamp.into(), hut.into()))
    }

    fn stay_numbers(&mut self) -> Result<[u64; 4], Unread> {
        let [hut, high, low, nights, beds] = self.next()?;
        let first = u16::from_be_bytes([high, low]);
        Ok([hut.into(), first.into(), nights.into(), beds.into()])
    }

    fn choices(&mut self) -> Result<Judged<Vec<Stay>>, Unread> {
        let count = self.byte()?;
        if count > 4 {
            return Err(Unread::OutOfRange);
        }
        let mut choices = Vec::new();
        for _ in 0..count {
            choices.push(self.stay_numbers()?);
        }
        Ok(choices.into_iter().map(entries::choice).collect())
    }

    fn kind(&mut self) -> Result<Judged<Kind>, Unread> {
        Ok(match self.byte()? {
            1 => {
                let guest = self.four()?;
                let choices = self.choices()?;
                choices.map(|choices| Kind::Book { guest, choices })
            }
            2 => self.mark()?.map(|named| Kind::Cancel { named }),
            3 => {
                let named = self.mark()?;
                let choices = self.choices()?;
                named.and_then(|named| choices.map(|choices| Kind::Change { named, choices }))
            }
            4 => entries::supply(self.stay_numbers()?).map(|stay| Kind::Beds { stay }),
            _ => return Err(Unread::OutOfRange),
        })
    }

    /// All bytes of an entry are read before one of its ranges is judged.
    pub fn entry(&mut self) -> Result<Entry, Unread> {
        let mark = self.mark()?;
        let kind = self.kind()?;
        Ok(Entry {
            mark: mark?,
            kind: kind?,
        })
    }
}
