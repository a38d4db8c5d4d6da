//! Reads pen lines, says which aren't taken, and prints the six lines of a board: `ground check` as a plain program, to be
//! measured beside it (`tools/timing/goals`). It is ordinary Rust, not optimised, and written from docs/LINES.md, not from the crates.
//! It keeps what the six lines tell, and no figures of cards; it has no votes; and it scores a correction from the start.

mod book;
mod entry;
mod innings;
mod lines;
mod match_state;
mod rules;

use std::io::{self, BufWriter, Read, Write};
use std::process::ExitCode;

use book::Book;
use lines::read_line;

const MOST_BYTES: u64 = 16_777_216;

fn main() -> ExitCode {
    let words: Vec<String> = std::env::args().skip(1).collect();
    let words: Vec<&str> = words.iter().map(String::as_str).collect();
    let innings_a_side = match words[..] {
        [] | ["check"] | ["check", "--innings", "2"] => 2,
        ["check", "--innings", "1"] => 1,
        _ => {
            eprintln!("words not understood");
            return ExitCode::from(2);
        }
    };
    let Ok(input) = read_input() else {
        eprintln!("cannot read -");
        return ExitCode::from(3);
    };
    match check(innings_a_side, &input) {
        Ok(true) => ExitCode::SUCCESS,
        Ok(false) => ExitCode::from(1),
        Err(_) => {
            eprintln!("cannot write");
            ExitCode::from(3)
        }
    }
}

fn read_input() -> io::Result<Vec<u8>> {
    let mut input = Vec::new();
    io::stdin()
        .lock()
        .take(MOST_BYTES + 1)
        .read_to_end(&mut input)?;
    if input.len() as u64 > MOST_BYTES {
        return Err(io::Error::other("the input is too long"));
    }
    Ok(input)
}

/// Checks the lines of an input. It answers whether all of them were taken.
fn check(innings_a_side: usize, input: &[u8]) -> io::Result<bool> {
    let mut output = BufWriter::new(io::stdout().lock());
    let mut book = Book::new(innings_a_side);
    let mut all_taken = true;
    for (index, line) in input.split_inclusive(|byte| *byte == b'\n').enumerate() {
        let number = index + 1;
        let line = line.strip_suffix(b"\n").unwrap_or(line);
        let refused = match read_line(line) {
            Err(fault) => Some(format!("fault {} {fault:?}", fault as u8)),
            Ok(entry) => book.enter(entry).err().map(|why| format!("refused {why}")),
        };
        if let Some(why) = refused {
            writeln!(output, "line {number}: {why}")?;
            all_taken = false;
        }
    }
    write!(output, "{}", book.score())?;
    output.flush()?;
    Ok(all_taken)
}
