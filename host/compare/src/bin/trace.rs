//! `trace COUNT [SEED]`: writes a sound trace of COUNT random calls to standard output.
#![forbid(unsafe_code)]

use compare::make::recorded;
use compare::random::Random;
use std::io::{self, BufWriter, Write};
use std::process::ExitCode;

fn write(count: usize, seed: u64) -> io::Result<()> {
    let mut trace = BufWriter::new(io::stdout().lock());
    let mut random = Random::new(seed);
    recorded::records(&mut random)
        .take(count)
        .try_for_each(|record| trace.write_all(&record.octets))?;
    trace.flush()
}

fn main() -> ExitCode {
    let words: Vec<String> = std::env::args().skip(1).collect();
    let numbers: Option<Vec<u64>> = words.iter().map(|word| word.parse().ok()).collect();
    let (count, seed) = match numbers.as_deref() {
        Some(&[count]) => (count, 1),
        Some(&[count, seed]) => (count, seed),
        _ => {
            eprintln!("usage: trace COUNT [SEED]");
            return ExitCode::from(2);
        }
    };
    match write(count as usize, seed) {
        Ok(()) => ExitCode::SUCCESS,
        Err(error) => {
            eprintln!("trace: {error}");
            ExitCode::FAILURE
        }
    }
}
