//! Letters as bytes.

use crate::bytes::{Reader, Unread, write_entry};
use crate::entries::{Entry, HUTS};
use crate::log::{MOST_IN_LETTER, Parcel, Vector};
use crate::sha256::sha256;

const FORM: u8 = 66;
const DIGEST: usize = 32;
const SHORTEST: usize = 41;

pub fn write(parcel: &Parcel) -> Vec<u8> {
    let mut letter = vec![FORM];
    letter.extend((parcel.committed.len() as u16).to_be_bytes());
    letter.extend((parcel.place as u32).to_be_bytes());
    for entry in &parcel.committed {
        write_entry(&mut letter, entry);
    }
    letter.extend((parcel.tentative.len() as u16).to_be_bytes());
    for (entry, before) in &parcel.tentative {
        write_entry(&mut letter, entry);
        for stamp in before {
            letter.extend(stamp.to_be_bytes());
        }
    }
    let digest = sha256(&letter);
    letter.extend(digest);
    letter
}

/// What was read of a letter, up to its end or its first entry out of range.
pub struct Read {
    /// Each with its place.
    pub committed: Vec<(Entry, u64)>,
    /// Each with what stood before it.
    pub tentative: Vec<(Entry, Vector)>,
    /// How many are out of range or behind one that is.
    pub rejected: usize,
}

/// The letter is damaged.
pub struct Damaged;

pub fn read(letter: &[u8]) -> Result<Read, Damaged> {
    if letter.first() != Some(&FORM) || letter.len() < SHORTEST {
        return Err(Damaged);
    }
    let (content, digest) = letter.split_at(letter.len() - DIGEST);
    if sha256(content) != digest {
        return Err(Damaged);
    }
    let mut read = Read {
        committed: Vec::new(),
        tentative: Vec::new(),
        rejected: 0,
    };
    match read_content(&content[1..], &mut read) {
        Err(Unread::Damaged) => Err(Damaged),
        Ok(()) | Err(Unread::OutOfRange) => Ok(read),
    }
}

fn read_content(content: &[u8], read: &mut Read) -> Result<(), Unread> {
    let mut reader = Reader { rest: content };
    let committed = usize::from(reader.two()?);
    if committed > MOST_IN_LETTER {
        return Err(Unread::Damaged);
    }
    let place = u64::from(reader.four()?);
    for at in 0..committed {
        read.rejected = committed - at;
        let entry = reader.entry()?;
        read.committed.push((entry, place + at as u64));
    }
    read.rejected = 0;
    let tentative = usize::from(reader.two()?);
    if committed + tentative > MOST_IN_LETTER {
        return Err(Unread::Damaged);
    }
    for at in 0..tentative {
        read.rejected = tentative - at;
        let entry = reader.entry()?;
        let mut before: Vector = [0; HUTS];
        for stamp in &mut before {
            *stamp = reader.four()?;
        }
        read.tentative.push((entry, before));
    }
    read.rejected = 0;
    if reader.rest.is_empty() {
        Ok(())
    } else {
        Err(Unread::Damaged)
    }
}
