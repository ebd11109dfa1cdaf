//! The rules of docs/RULES.md a second time, in plain Rust: plays scripts as `rehearse` does.

mod book;
mod bytes;
mod entries;
mod hut;
mod journal;
mod letter;
mod line;
mod log;
mod script;
mod sha256;

use std::io::{BufRead, Write};

fn main() -> std::io::Result<()> {
    let mut input = std::io::stdin().lock();
    let mut output = std::io::stdout().lock();
    let mut script = script::Script::new();
    let mut line = Vec::new();
    while input.read_until(b'\n', &mut line)? > 0 {
        script.play(line.strip_suffix(b"\n").unwrap_or(&line));
        output.write_all(script.out.as_bytes())?;
        script.out.clear();
        line.clear();
    }
    output.flush()
}
