//! Counting a call's instructions and taking its time.

use super::state::State;
use super::{Case, Side};
use std::hint::black_box;
use std::path::Path;
use std::process::{Command, Stdio};
use std::time::Instant;

/// Calls whose instructions are counted together.
pub const COUNTED: usize = 100;
/// Calls in one taking of time.
const TIMED: usize = 1_000;
/// Takings of time, of which the best counts.
const ROUNDS: usize = 25;
/// Calls of which each comes after other work; the middle time counts.
const COLD: usize = 7;
/// Octets that other work reads, more than the caches hold.
const OTHER_WORK: usize = 64 << 20;
/// Octets that a cache takes at once.
const CACHE_LINE: usize = 64;

/// The instructions of one call, by a run of `program` under callgrind, which
/// counts only within the side's functions. `folder` takes what callgrind writes.
pub fn instructions(program: &Path, folder: &Path, case: &Case, side: Side) -> Result<f64, String> {
    let written = folder.join(format!("callgrind.{}.{}", case.name, side.name()));
    let run = Command::new("valgrind")
        .args(["-q", "--tool=callgrind", "--collect-atstart=no"])
        .arg(format!("--toggle-collect={}", case.functions(side)))
        .arg(format!("--callgrind-out-file={}", written.display()))
        .arg(program)
        .args(["--run", case.name, side.name()])
        .stdout(Stdio::null())
        .status();
    let status = run.map_err(|error| format!("valgrind: {error}"))?;
    if !status.success() {
        return Err(format!("valgrind on {}: {status}", case.name));
    }
    let text = std::fs::read_to_string(&written);
    let text = text.map_err(|error| format!("{}: {error}", written.display()))?;
    let total = text.lines().find_map(|line| line.strip_prefix("summary: "));
    let total = total.and_then(|number| number.trim().parse::<f64>().ok());
    let total = total.filter(|total| *total > 0.0);
    total.map(|total| total / COUNTED as f64).ok_or(format!("{}: none counted", case.name))
}

/// The nanoseconds of one call on each side, without what the resets and the loop
/// cost: the best of several takings with the call, less the best without it.
pub fn times(case: &Case) -> [f64; 3] {
    let (mut with, mut without) = ([f64::INFINITY; 3], [f64::INFINITY; 3]);
    for _ in 0..ROUNDS {
        for side in Side::ALL {
            let i = side as usize;
            with[i] = with[i].min(elapsed(case, side, case.call(side)));
            without[i] = without[i].min(elapsed(case, side, nothing));
        }
    }
    Side::ALL.map(|side| (with[side as usize] - without[side as usize]) / TIMED as f64)
}

fn elapsed(case: &Case, side: Side, call: fn(&mut State)) -> f64 {
    let mut state = (case.state)();
    let start = Instant::now();
    for _ in 0..TIMED {
        state.reset(case.reset, side);
        call(&mut state);
    }
    start.elapsed().as_nanos() as f64
}

/// The nanoseconds of a call of the library that comes after other work, so that no cache
/// holds anything of it: the middle of several, less that of no call.
pub fn cold(case: &Case) -> f64 {
    let memory = vec![1; OTHER_WORK];
    let [with, without] = [case.call(Side::Library), nothing].map(|call| {
        let (mut state, mut times) = ((case.state)(), [0; COLD]);
        for time in &mut times {
            state.reset(case.reset, Side::Library);
            black_box(memory.iter().step_by(CACHE_LINE).fold(0_u8, |sum, octet| sum ^ octet));
            let start = Instant::now();
            call(&mut state);
            *time = start.elapsed().as_nanos();
        }
        times.sort_unstable();
        times[COLD / 2] as f64
    });
    with - without
}

fn nothing(state: &mut State) {
    black_box(state);
}
