//! A journal in memory: its bytes, and how many of them are synced.

use crate::bytes::{Reader, Unread, write_entry};
use crate::entries::Entry;
use crate::log::Log;

pub const COMMITTED: u8 = 1;
pub const TENTATIVE: u8 = 2;

pub struct Journal {
    bytes: Vec<u8>,
    synced: usize,
}

impl Journal {
    pub fn new() -> Journal {
        Journal {
            bytes: Vec::new(),
            synced: 0,
        }
    }

    pub fn append(&mut self, form: u8, entry: &Entry) {
        self.bytes.push(form);
        write_entry(&mut self.bytes, entry);
    }

    pub fn sync(&mut self) {
        self.synced = self.bytes.len();
    }

    /// Of the bytes written since the last sync the first `kept` are left, all if there are no more.
    pub fn crash(&mut self, kept: u64) {
        let unsynced = (self.bytes.len() - self.synced) as u64;
        self.bytes
            .truncate(self.synced + kept.min(unsynced) as usize);
    }

    /// The log that the journal has, and how many bytes were cut off behind its last good record.
    pub fn open(&mut self) -> (Log, usize) {
        let mut log = Log::new();
        let mut reader = Reader { rest: &self.bytes };
        let mut good = 0;
        while let Ok(()) = replay(&mut reader, &mut log) {
            good = self.bytes.len() - reader.rest.len();
        }
        let cut_off = self.bytes.len() - good;
        self.bytes.truncate(good);
        self.sync();
        (log, cut_off)
    }
}

/// Reads one record and does it, or leaves the log as it was.
fn replay(reader: &mut Reader, log: &mut Log) -> Result<(), Unread> {
    let form = reader.byte()?;
    if form != COMMITTED && form != TENTATIVE {
        return Err(Unread::OutOfRange);
    }
    let entry = reader.entry()?;
    let twice = if form == COMMITTED {
        log.is_committed(entry.mark)
    } else {
        log.knows(entry.mark)
    };
    let no_room = !log.knows(entry.mark) && !log.has_room_for(entry.mark.stamp.into());
    if twice || no_room {
        return Err(Unread::OutOfRange);
    }
    if form == COMMITTED {
        log.add_committed(entry);
    } else {
        log.add_tentative(entry);
    }
    Ok(())
}
