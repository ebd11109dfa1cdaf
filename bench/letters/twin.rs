//! Letters in plain Rust, in the style of crates/letters: checked, with entries as values.

use crate::digest;

#[derive(Clone, Copy, PartialEq, Eq, PartialOrd, Ord)]
pub struct Mark {
    pub stamp: u32,
    pub hut: u8,
}

#[derive(Clone, Copy, PartialEq)]
pub struct Choice {
    pub hut: u8,
    pub night: u16,
    pub nights: u8,
    pub beds: u8,
}

#[derive(Clone, Copy)]
pub struct Choices {
    pub count: u8,
    pub all: [Choice; 4],
}

impl PartialEq for Choices {
    fn eq(&self, other: &Choices) -> bool {
        self.all[..self.count as usize] == other.all[..other.count as usize]
    }
}

#[derive(Clone, Copy, PartialEq)]
pub enum Kind {
    Book { guest: u32, choices: Choices },
    Cancel { mark: Mark },
    Change { mark: Mark, choices: Choices },
    Beds { supply: Choice },
}

#[derive(Clone, Copy, PartialEq)]
pub struct Entry {
    pub mark: Mark,
    pub kind: Kind,
}

#[derive(Clone, Copy)]
pub struct Waiting {
    pub entry: Entry,
    pub stood: [u32; 16],
}

pub enum Wrong {
    Short,
    Out,
}

pub struct Reader<'a> {
    rest: &'a [u8],
}

impl<'a> Reader<'a> {
    pub fn new(rest: &'a [u8]) -> Reader<'a> {
        Reader { rest }
    }

    pub fn rest(&self) -> &'a [u8] {
        self.rest
    }

    /// A record of a journal: its form, 1 or 2, and its entry.
    pub fn record(&mut self) -> Result<(u8, Entry), Wrong> {
        let [form] = self.take()?;
        if form != 1 && form != 2 {
            return Err(Wrong::Out);
        }
        Ok((form, self.entry()?))
    }

    fn take<const N: usize>(&mut self) -> Result<[u8; N], Wrong> {
        let (first, rest) = self.rest.split_first_chunk::<N>().ok_or(Wrong::Short)?;
        self.rest = rest;
        Ok(*first)
    }

    fn mark(&mut self) -> Result<Option<Mark>, Wrong> {
        let [a, b, c, d, hut] = self.take()?;
        let stamp = u32::from_be_bytes([a, b, c, d]);
        Ok((stamp >= 1 && hut < 16).then_some(Mark { stamp, hut }))
    }

    fn supply(&mut self) -> Result<Option<Choice>, Wrong> {
        let [hut, high, low, nights, beds] = self.take()?;
        let night = u16::from_be_bytes([high, low]);
        let fits = hut < 16 && nights >= 1 && nights <= 14 && night as u32 + nights as u32 <= 366;
        Ok(fits.then_some(Choice { hut, night, nights, beds }))
    }

    fn choice(&mut self) -> Result<Option<Choice>, Wrong> {
        Ok(self.supply()?.filter(|choice| choice.beds >= 1 && choice.beds <= 20))
    }

    fn choices(&mut self) -> Result<Option<Choices>, Wrong> {
        let [count] = self.take()?;
        if count > 4 {
            return Err(Wrong::Out);
        }
        let least = Choice { hut: 0, night: 0, nights: 1, beds: 1 };
        let mut all = [least; 4];
        let mut fits = true;
        for place in all.iter_mut().take(count as usize) {
            match self.choice()? {
                Some(choice) => *place = choice,
                None => fits = false,
            }
        }
        Ok(fits.then_some(Choices { count, all }))
    }

    /// All bytes of an entry are read before its ranges are judged.
    fn entry(&mut self) -> Result<Entry, Wrong> {
        let mark = self.mark()?;
        let [kind] = self.take()?;
        let kind = match kind {
            1 => {
                let guest = u32::from_be_bytes(self.take()?);
                self.choices()?.map(|choices| Kind::Book { guest, choices })
            }
            2 => self.mark()?.map(|mark| Kind::Cancel { mark }),
            3 => {
                let mark = self.mark()?;
                let choices = self.choices()?;
                mark.zip(choices).map(|(mark, choices)| Kind::Change { mark, choices })
            }
            4 => self.supply()?.map(|supply| Kind::Beds { supply }),
            _ => return Err(Wrong::Out),
        };
        let (mark, kind) = mark.zip(kind).ok_or(Wrong::Out)?;
        Ok(Entry { mark, kind })
    }

    fn waiting(&mut self) -> Result<Waiting, Wrong> {
        let entry = self.entry()?;
        let mut stood = [0; 16];
        for stamp in stood.iter_mut() {
            *stamp = u32::from_be_bytes(self.take()?);
        }
        Ok(Waiting { entry, stood })
    }
}

pub struct Letter<'a> {
    place: u32,
    committed: u16,
    given: u16,
    first: Reader<'a>,
    tentative: u16,
    second: Reader<'a>,
    out: u16,
}

pub enum Item {
    Committed { place: u64, entry: Entry },
    Tentative(Waiting),
}

/// Goes past entries: how many are kept out, or nothing where they are cut short.
fn passed<'a, T>(reader: &mut Reader<'a>, count: u16, read: fn(&mut Reader<'a>) -> Result<T, Wrong>) -> Option<u16> {
    for i in 0..count {
        match read(reader) {
            Ok(_) => {}
            Err(Wrong::Short) => return None,
            Err(Wrong::Out) => return Some(count - i),
        }
    }
    Some(0)
}

impl<'a> Letter<'a> {
    pub fn open(bytes: &'a [u8]) -> Option<Letter<'a>> {
        if bytes.len() < 41 || bytes[0] != 66 {
            return None;
        }
        let (front, sum) = bytes.split_at(bytes.len() - 32);
        if digest::sha256(front) != sum {
            return None;
        }
        let mut reader = Reader { rest: &front[1..] };
        let committed = u16::from_be_bytes(reader.take().ok()?);
        let place = u32::from_be_bytes(reader.take().ok()?);
        if committed > 1024 {
            return None;
        }
        let first = Reader { rest: reader.rest };
        let mut out = passed(&mut reader, committed, Reader::entry)?;
        let mut tentative = 0;
        let mut second = Reader { rest: reader.rest };
        if out == 0 {
            tentative = u16::from_be_bytes(reader.take().ok()?);
            if committed as u32 + tentative as u32 > 1024 {
                return None;
            }
            second = Reader { rest: reader.rest };
            out = passed(&mut reader, tentative, Reader::waiting)?;
            if out == 0 && !reader.rest.is_empty() {
                return None;
            }
        }
        Some(Letter { place, committed, given: 0, first, tentative, second, out })
    }

    pub fn kept_out(&self) -> usize {
        self.out as usize
    }
}

impl Iterator for Letter<'_> {
    type Item = Item;

    fn next(&mut self) -> Option<Item> {
        if self.given < self.committed {
            if let Ok(entry) = self.first.entry() {
                let place = self.place as u64 + self.given as u64;
                self.given += 1;
                return Some(Item::Committed { place, entry });
            }
            self.given = self.committed;
        }
        if self.tentative > 0 {
            if let Ok(waiting) = self.second.waiting() {
                self.tentative -= 1;
                return Some(Item::Tentative(waiting));
            }
            self.tentative = 0;
        }
        None
    }
}

fn put_mark(out: &mut Vec<u8>, mark: Mark) {
    out.extend_from_slice(&mark.stamp.to_be_bytes());
    out.push(mark.hut);
}

fn put_choice(out: &mut Vec<u8>, choice: Choice) {
    let [high, low] = choice.night.to_be_bytes();
    out.extend_from_slice(&[choice.hut, high, low, choice.nights, choice.beds]);
}

fn put_choices(out: &mut Vec<u8>, choices: &Choices) {
    out.push(choices.count);
    for choice in &choices.all[..choices.count as usize] {
        put_choice(out, *choice);
    }
}

pub fn put_entry(out: &mut Vec<u8>, entry: &Entry) {
    put_mark(out, entry.mark);
    match &entry.kind {
        Kind::Book { guest, choices } => {
            out.push(1);
            out.extend_from_slice(&guest.to_be_bytes());
            put_choices(out, choices);
        }
        Kind::Cancel { mark } => {
            out.push(2);
            put_mark(out, *mark);
        }
        Kind::Change { mark, choices } => {
            out.push(3);
            put_mark(out, *mark);
            put_choices(out, choices);
        }
        Kind::Beds { supply } => {
            out.push(4);
            put_choice(out, *supply);
        }
    }
}

pub fn write_letter(place: u32, committed: &[Entry], tentative: &[Waiting], out: &mut Vec<u8>) -> bool {
    if committed.len() + tentative.len() > 1024 {
        return false;
    }
    let start = out.len();
    out.push(66);
    out.extend_from_slice(&(committed.len() as u16).to_be_bytes());
    out.extend_from_slice(&place.to_be_bytes());
    for entry in committed {
        put_entry(out, entry);
    }
    out.extend_from_slice(&(tentative.len() as u16).to_be_bytes());
    for waiting in tentative {
        put_entry(out, &waiting.entry);
        for stamp in waiting.stood {
            out.extend_from_slice(&stamp.to_be_bytes());
        }
    }
    let sum = digest::sha256(&out[start..]);
    out.extend_from_slice(&sum);
    true
}
