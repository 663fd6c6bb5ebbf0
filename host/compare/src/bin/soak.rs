//! `soak COUNT [SEED]`: compares COUNT random calls and prints how far it got.
#![forbid(unsafe_code)]

use compare::met::Met;
use compare::random::Random;
use compare::{reorder, trial};
use std::process::ExitCode;
use std::time::{Instant, SystemTime, UNIX_EPOCH};

/// Calls between two lines of progress.
const STEP: u64 = 500_000;

/// A number, decimal or hexadecimal after `0x`.
fn number(word: &str) -> Option<u64> {
    match word.strip_prefix("0x") {
        Some(digits) => u64::from_str_radix(digits, 16).ok(),
        None => word.parse().ok(),
    }
}

/// A seed that differs from run to run.
fn clock() -> u64 {
    let now = SystemTime::now().duration_since(UNIX_EPOCH);
    Random::new(now.map_or(0, |now| now.as_nanos() as u64)).any()
}

/// Makes one step's calls; gives how many reordered calls were made besides.
fn step(seed: u64, count: u64, met: &mut Met) -> Result<u64, String> {
    trial::run(seed, count, met)?;
    let mut reordered = 0;
    while reordered < count / 10 {
        reordered += reorder::run(seed.wrapping_add(reordered))?.calls as u64;
    }
    Ok(reordered)
}

fn soak(count: u64, seed: u64) -> Result<(), String> {
    let (mut random, mut met, mut reordered) = (Random::new(seed), Met::default(), 0);
    let start = Instant::now();
    println!("seed {seed:#x}");
    while met.calls() < count {
        reordered += step(random.any(), STEP.min(count - met.calls()), &mut met)?;
        let seconds = start.elapsed().as_secs_f64();
        println!("{} calls and {reordered} reordered, {seconds:.1} s", met.calls());
    }
    print!("{met}");
    match &met.missing()[..] {
        [] => println!("no difference; every outcome was met"),
        missing => println!("no difference; not met: {}", missing.join(", ")),
    }
    Ok(())
}

fn main() -> ExitCode {
    let words: Vec<String> = std::env::args().skip(1).collect();
    let numbers: Option<Vec<u64>> = words.iter().map(|word| number(word)).collect();
    let (count, seed) = match numbers.as_deref() {
        Some(&[count]) => (count, clock()),
        Some(&[count, seed]) => (count, seed),
        _ => {
            eprintln!("usage: soak COUNT [SEED]");
            return ExitCode::from(2);
        }
    };
    match soak(count, seed) {
        Ok(()) => ExitCode::SUCCESS,
        Err(difference) => {
            eprintln!("{difference}");
            ExitCode::FAILURE
        }
    }
}
