//! What an entry is, and which numbers are in range.

pub const HUTS: usize = 16;
pub const NIGHTS: usize = 366;

/// A refusal, by its number.
#[derive(Clone, Copy, PartialEq, Debug)]
pub struct Refused(pub u8);

pub const OUT_OF_RANGE: Refused = Refused(2);

/// Ordered by stamp, and with equal stamps by hut: the order of the fields.
#[derive(Clone, Copy, PartialEq, Eq, PartialOrd, Ord, Debug)]
pub struct Mark {
    pub stamp: u32,
    pub hut: u8,
}

/// Some nights in one hut, and a number of beds: a choice, or what a `beds` entry sets.
#[derive(Clone, Copy, PartialEq, Debug)]
pub struct Stay {
    pub hut: u8,
    pub first: u16,
    pub nights: u8,
    pub beds: u8,
}

#[derive(Clone, PartialEq, Debug)]
pub enum Kind {
    Book { guest: u32, choices: Vec<Stay> },
    Cancel { named: Mark },
    Change { named: Mark, choices: Vec<Stay> },
    Beds { stay: Stay },
}

#[derive(Clone, PartialEq, Debug)]
pub struct Entry {
    pub mark: Mark,
    pub kind: Kind,
}

fn check(right: bool) -> Result<(), Refused> {
    if right { Ok(()) } else { Err(OUT_OF_RANGE) }
}

/// A number of 4 bytes: a guest, a stamp of a vector, a count of entries.
pub fn word(number: u64) -> Result<u32, Refused> {
    u32::try_from(number).map_err(|_| OUT_OF_RANGE)
}

pub fn hut(number: u64) -> Result<u8, Refused> {
    check(number <= 15)?;
    Ok(number as u8)
}

pub fn mark(stamp: u64, hut_number: u64) -> Result<Mark, Refused> {
    check(stamp >= 1)?;
    Ok(Mark {
        stamp: word(stamp)?,
        hut: hut(hut_number)?,
    })
}

/// Hut, first night, nights and beds, for beds from `least` to `most`.
fn stay(numbers: [u64; 4], least: u64, most: u64) -> Result<Stay, Refused> {
    let [hut_number, first, nights, beds] = numbers;
    check((1..=14).contains(&nights))?;
    check(first + nights <= 366)?;
    check((least..=most).contains(&beds))?;
    Ok(Stay {
        hut: hut(hut_number)?,
        first: first as u16,
        nights: nights as u8,
        beds: beds as u8,
    })
}

pub fn choice(numbers: [u64; 4]) -> Result<Stay, Refused> {
    stay(numbers, 1, 20)
}

pub fn supply(numbers: [u64; 4]) -> Result<Stay, Refused> {
    stay(numbers, 0, 255)
}

impl Kind {
    pub fn name(&self) -> &'static str {
        match self {
            Kind::Book { .. } => "book",
            Kind::Cancel { .. } => "cancel",
            Kind::Change { .. } => "change",
            Kind::Beds { .. } => "beds",
        }
    }

    /// The mark that a cancel or change names.
    pub fn named(&self) -> Option<Mark> {
        match self {
            Kind::Cancel { named } | Kind::Change { named, .. } => Some(*named),
            _ => None,
        }
    }
}
