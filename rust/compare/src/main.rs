//! Compares the proved heap with `second`.
//!
//!     compare [--seconds N | --calls N] [--seed N]    plays cases for N seconds, or until N calls are made
//!     compare --case N --seed N                       plays one case again and prints each step
//!
//! Without a seed it takes a fresh one, of the clock. It prints the seed first, so that every run can be repeated.

use compare::case;
use compare::duel::Duel;
use compare::side::proved;
use std::env;
use std::process::ExitCode;
use std::time::{Duration, Instant, SystemTime, UNIX_EPOCH};

struct Options {
    seed: u64,
    case: Option<u64>,
    calls: u64,
    time: Duration,
}

/// A seed that no earlier run had, of ten digits or fewer.
fn fresh_seed() -> u64 {
    let now = SystemTime::now().duration_since(UNIX_EPOCH).unwrap_or_default();
    (now.as_nanos() % 10_000_000_000) as u64
}

fn options() -> Result<Options, String> {
    let mut options = Options { seed: fresh_seed(), case: None, calls: u64::MAX, time: Duration::from_secs(20) };
    let mut words = env::args().skip(1);
    while let Some(word) = words.next() {
        let value = words.next().ok_or(format!("{word} needs a number"))?;
        let number: u64 = value.parse().map_err(|_| format!("{value} is not a number"))?;
        match word.as_str() {
            "--seed" => options.seed = number,
            "--case" => options.case = Some(number),
            "--seconds" => options.time = Duration::from_secs(number),
            "--calls" => (options.calls, options.time) = (number, Duration::MAX),
            _ => return Err(format!("unknown option {word}: --seconds N, --calls N, --seed N, --case N")),
        }
    }
    Ok(options)
}

/// Plays one case after the other, and prints the command that repeats a case that differs.
fn compare(options: &Options) -> Duel {
    let began = Instant::now();
    let mut duel = Duel::new(proved, second::apply);
    let mut number = 0;
    while duel.calls < options.calls && began.elapsed() < options.time {
        let before = duel.differences;
        duel.begin();
        case::play(number, options.seed, &mut duel);
        if duel.differences != before {
            println!("case {number} differs: compare --case {number} --seed {}", options.seed);
        }
        number += 1;
    }
    duel
}

fn replay(number: u64, seed: u64) -> Duel {
    let mut duel = Duel::new(proved, second::apply);
    duel.verbose = true;
    case::play(number, seed, &mut duel);
    duel
}

fn main() -> ExitCode {
    let options = match options() {
        Ok(options) => options,
        Err(message) => {
            eprintln!("{message}");
            return ExitCode::from(2);
        }
    };
    println!("seed {}", options.seed);
    let duel = match options.case {
        Some(number) => replay(number, options.seed),
        None => compare(&options),
    };
    println!("{} calls compared, {} differences", duel.calls, duel.differences);
    if duel.differences == 0 {
        ExitCode::SUCCESS
    } else {
        ExitCode::FAILURE
    }
}
