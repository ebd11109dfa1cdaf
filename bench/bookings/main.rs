//! The twin of `hut` for lines `book`: each booking is written to the file `line` and synced before it is answered.
#[path = "../digest/twin.rs"]
mod digest;
#[path = "../letters/twin.rs"]
mod letters;
#[path = "../replica/twin.rs"]
mod replicas;

use letters::{Choice, Choices, Kind};
use replicas::{Keeper, put_record};
use std::fs::OpenOptions;
use std::io::{self, BufRead, BufReader, BufWriter, Read, Write};

/// A line `book G` and up to four choices, each of four numbers in range.
fn kind_of(line: &str) -> Option<Kind> {
    let numbers: Vec<u32> = line.strip_prefix("book ")?.split(' ').map(|word| word.parse().ok()).collect::<Option<_>>()?;
    let (guest, rest) = numbers.split_first()?;
    let (fours, rest) = rest.as_chunks::<4>();
    if fours.len() > 4 || !rest.is_empty() {
        return None;
    }
    let mut choices = Choices { count: fours.len() as u8, all: [Choice { hut: 0, night: 0, nights: 1, beds: 1 }; 4] };
    for (place, [hut, night, nights, beds]) in choices.all.iter_mut().zip(fours) {
        *place = Choice { hut: *hut as u8, night: *night as u16, nights: *nights as u8, beds: *beds as u8 };
    }
    Some(Kind::Book { guest: *guest, choices })
}

fn main() -> io::Result<()> {
    let mut file = OpenOptions::new().read(true).append(true).create(true).open("line")?;
    let mut found = Vec::new();
    file.read_to_end(&mut found)?;
    let (Keeper { mut replica, .. }, whole) = Keeper::open(0, &found);
    file.set_len(whole as u64)?;
    file.sync_all()?;
    let mut input = BufReader::new(io::stdin().lock());
    let mut output = BufWriter::new(io::stdout().lock());
    let tentative = replica.len() - replica.committed();
    writeln!(output, "hut 0: {} in ink, {tentative} in pencil", replica.committed())?;
    let (mut line, mut record) = (String::new(), Vec::with_capacity(33));
    while input.read_line(&mut line)? > 0 {
        let kind = kind_of(line.trim_end()).expect("expected a line that books");
        let entry = replica.make(kind).expect("there is room");
        record.clear();
        put_record(&mut record, 2, &entry);
        file.write_all(&record)?;
        file.sync_all()?;
        writeln!(output, "made {} {}", entry.mark.stamp, entry.mark.hut)?;
        if !input.buffer().contains(&b'\n') {
            output.flush()?;
        }
        line.clear();
    }
    output.flush()
}
