//! `replay [FILE]`: replays a trace, from the file or from standard input, on the reference's
//! table, and prints what the library's own `replay` program prints, to compare the two in
//! what they print and in time.
#![forbid(unsafe_code)]

use compare::program;
use std::fs::File;
use std::io::{self, BufReader, BufWriter};
use std::process::ExitCode;

/// Octets that are read, and that are printed, at once.
const BUFFER: usize = 1 << 16;

/// Replays the trace that a file's name, or none, stands for.
fn replay(name: Option<&str>) -> io::Result<()> {
    let printed = BufWriter::with_capacity(BUFFER, io::stdout().lock());
    match name {
        Some(name) => program::replay(BufReader::with_capacity(BUFFER, File::open(name)?), printed),
        None => program::replay(BufReader::with_capacity(BUFFER, io::stdin().lock()), printed),
    }
}

fn main() -> ExitCode {
    let words: Vec<String> = std::env::args().skip(1).collect();
    let name = match &words[..] {
        [] => None,
        [name] => Some(name.as_str()),
        _ => {
            eprintln!("usage: replay [FILE]");
            return ExitCode::from(2);
        }
    };
    match replay(name) {
        Ok(()) => ExitCode::SUCCESS,
        Err(error) => {
            eprintln!("{}: {error}", name.unwrap_or("standard input"));
            ExitCode::FAILURE
        }
    }
}
