//! `bench`: what each call costs in the library and in the reference.
//!
//! It prints a table and, for programs, a line `ratio NAME X.XX` for each call: the
//! library's instructions over those of the reference on the same lent table and store,
//! with the tests of them by N-9, N-10, N-13 and N-14. `ratio-plain NAME X.XX` is over
//! those of the reference on structs of its own, which it neither loads, tests nor stores.
//! A second table has each call on what costs the library the most.
#![forbid(unsafe_code)]

use compare::bench::cases::CASES;
use compare::bench::worst::WORST;
use compare::bench::{cost, Case, Side};
use std::path::Path;
use std::process::ExitCode;

/// The most that the library may cost over the reference.
const LIMIT: f64 = 1.25;
/// How often times are taken: a machine that is busy at one time may be quiet at another.
const PASSES: usize = 3;

/// One case's costs, by side.
struct Row {
    case: &'static Case,
    instructions: [f64; 3],
    times: [f64; 3],
    /// The time of a call of the library after other work.
    cold: f64,
}

impl Row {
    /// Counts instructions. `program` is this one, to be run under callgrind.
    fn count(program: &Path, case: &'static Case) -> Result<Self, String> {
        eprintln!("{}", case.name);
        let folder = program.parent().unwrap_or(Path::new("."));
        let mut instructions = [0.0; 3];
        for side in Side::ALL {
            instructions[side as usize] = cost::instructions(program, folder, case, side)?;
        }
        Ok(Row { case, instructions, times: [f64::INFINITY; 3], cold: f64::INFINITY })
    }

    fn take_times(&mut self) {
        let taken = cost::times(self.case);
        self.times.iter_mut().zip(taken).for_each(|(best, time)| *best = best.min(time));
        self.cold = self.cold.min(cost::cold(self.case));
    }

    fn ratio(&self, side: Side) -> f64 {
        self.instructions[0] / self.instructions[side as usize]
    }

    fn time_ratio(&self) -> f64 {
        self.times[0] / self.times[Side::Lent as usize]
    }
}

/// The rows of a table, with their instructions.
fn count(program: &Path, cases: &'static [Case]) -> Result<Vec<Row>, String> {
    cases.iter().map(|case| Row::count(program, case)).collect()
}

/// Measures every case of both tables. `program` is this one.
fn measure(program: &Path) -> Result<[Vec<Row>; 2], String> {
    let mut tables = [count(program, &CASES)?, count(program, &WORST)?];
    for _ in 0..PASSES {
        tables.iter_mut().flatten().for_each(Row::take_times);
    }
    Ok(tables)
}

fn print_table(rows: &[Row]) {
    println!("{:29}{:^26}{:^15}{:^33}{:>7}", "", "instructions", "over", "nanoseconds", "over");
    print!("{:29}{:>10}{:>8}{:>8}{:>9}{:>6}", "call", "library", "plain", "lent", "plain", "lent");
    println!("{:>10}{:>7}{:>8}{:>8}{:>7}", "library", "cold", "plain", "lent", "lent");
    for row in rows {
        let [library, plain, lent] = row.instructions;
        print!("{:29}{library:10.0}{plain:8.0}{lent:8.0}", row.case.name);
        print!("{:9.2}{:6.2}", row.ratio(Side::Plain), row.ratio(Side::Lent));
        let [library, plain, lent] = row.times;
        println!("{library:10.1}{:7.0}{plain:8.1}{lent:8.1}{:7.2}", row.cold, row.time_ratio());
    }
    println!();
}

fn print(usual: &[Row], worst: &[Row]) {
    println!("instructions and best time of a call; cold: after other work; lent: the reference");
    println!("on what is lent, with the library's tests; plain: on a table and store of its own\n");
    print_table(usual);
    println!("the same on what costs the library the most\n");
    print_table(worst);
    let ratios = |name: &str, side: Side| {
        usual.iter().for_each(|row| println!("{name} {} {:.2}", row.case.name, row.ratio(side)));
    };
    ratios("ratio", Side::Lent);
    ratios("ratio-plain", Side::Plain);
}

/// Says which calls are over the limit.
fn judge(rows: &[Row]) -> Result<(), String> {
    let over = |row: &&Row| row.ratio(Side::Lent) > LIMIT;
    let names: Vec<&str> = rows.iter().filter(over).map(|row| row.case.name).collect();
    if names.is_empty() {
        return Ok(());
    }
    Err(format!("over {LIMIT}: {}", names.join(", ")))
}

/// Measures, prints and judges. The limit is for the calls as they usually are.
fn bench() -> Result<(), String> {
    let program = std::env::current_exe().map_err(|error| error.to_string())?;
    let [usual, worst] = measure(&program)?;
    print(&usual, &worst);
    judge(&usual)
}

/// Makes one case's calls on one side, for callgrind to count.
fn run(name: &str, side: &str) -> Result<(), String> {
    let case = CASES.iter().chain(&WORST).find(|case| case.name == name);
    let side = Side::ALL.into_iter().find(|known| known.name() == side);
    let (case, side) = case.zip(side).ok_or("no such case or side")?;
    case.run(side, cost::COUNTED);
    Ok(())
}

fn main() -> ExitCode {
    let words: Vec<String> = std::env::args().skip(1).collect();
    let words: Vec<&str> = words.iter().map(String::as_str).collect();
    let done = match words[..] {
        [] => bench(),
        ["--run", name, side] => run(name, side),
        _ => Err("usage: bench".into()),
    };
    match done {
        Ok(()) => ExitCode::SUCCESS,
        Err(error) => {
            eprintln!("bench: {error}");
            ExitCode::FAILURE
        }
    }
}
