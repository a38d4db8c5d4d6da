//! `ground check` as an expert writes it in Rust who cares for speed: one pass, no allocation a line, players as bits, a score
//! that is copied as it is, corrections from checkpoints. It has what the six lines tell, and no votes and no figures of cards.
//! It is measured beside the program (`tools/timing/goals`), and prints the same. What a line can say, and what the Laws say of
//! a delivery alone, it has in common with the plain program.

mod book;
#[path = "../plain/entry.rs"]
mod entry;
mod lines;
#[path = "../plain/rules.rs"]
mod rules;
mod score;

use std::io::{self, BufWriter, Read, Write};
use std::process::ExitCode;

const MOST_BYTES: u64 = 16_777_216;

fn main() -> ExitCode {
    let words: Vec<String> = std::env::args().skip(1).collect();
    let words: Vec<&str> = words.iter().map(String::as_str).collect();
    let innings_a_side = match words[..] {
        [] | ["check"] | ["check", "--innings", "2"] => 2,
        ["check", "--innings", "1"] => 1,
        _ => return ExitCode::from(2),
    };
    match check(innings_a_side) {
        Ok(true) => ExitCode::SUCCESS,
        Ok(false) => ExitCode::from(1),
        Err(why) => {
            eprintln!("{why}");
            ExitCode::from(3)
        }
    }
}

/// Checks the lines of the standard input. It answers whether all of them were taken.
fn check(innings_a_side: usize) -> io::Result<bool> {
    let mut input = Vec::new();
    io::stdin().lock().take(MOST_BYTES + 1).read_to_end(&mut input)?;
    if input.len() as u64 > MOST_BYTES {
        return Err(io::Error::other("the input is too long"));
    }
    let mut output = BufWriter::new(io::stdout().lock());
    let mut book = book::Book::new(innings_a_side);
    let mut all_taken = true;
    for (index, line) in input.split_inclusive(|byte| *byte == b'\n').enumerate() {
        let line = line.strip_suffix(b"\n").unwrap_or(line);
        match lines::read_line(line) {
            Err(fault) => writeln!(output, "line {}: fault {} {fault:?}", index + 1, fault as u8)?,
            Ok(entry) => match book.enter(entry) {
                Ok(()) => continue,
                Err(why) => writeln!(output, "line {}: refused {why}", index + 1)?,
            },
        }
        all_taken = false;
    }
    write!(output, "{}", book.score())?;
    output.flush()?;
    Ok(all_taken)
}
