//! The engine held against the reference. Ends with 0 if no case differs, 1 if
//! one does, 2 for options it does not know.

mod options;

use std::process::ExitCode;
use std::time::{Duration, Instant};

use cases::{Case, Checker, Difference};
use options::{Amount, Options};

fn main() -> ExitCode {
    let arguments: Vec<String> = std::env::args().skip(1).collect();
    let Some(options) = options::read(&arguments) else {
        eprint!("{}", options::HELP);
        return ExitCode::from(2);
    };
    let mut checker = Checker::new(engine::calls());
    checker.trace = options.trace;
    match &options.case {
        Some(case) => one_case(&mut checker, case),
        None => many_cases(&mut checker, &options),
    }
}

/// Through the pointers, then through the shipped calls: either may differ.
fn one_case(checker: &mut Checker, case: &Case) -> ExitCode {
    let mut shipped = Checker::new(engine::shipped_calls());
    checker.begin_family("one case alone");
    shipped.begin_family("one case alone, calls shipped for Rust");
    conclude(checker.case(case).and_then(|()| shipped.case(case)))
}

fn many_cases(checker: &mut Checker, options: &Options) -> ExitCode {
    println!("seed {}", options.seed);
    let begin = Instant::now();
    let outcome = match options.amount {
        Amount::Rounds(rounds) => cases::run(checker, options.seed, rounds),
        Amount::Seconds(seconds) => run_for(checker, options.seed, seconds),
    };
    print!("{}", checker.tally);
    println!("{:.1} s", begin.elapsed().as_secs_f64());
    conclude(outcome.and_then(|()| shipped_calls(options.seed)))
}

/// One round through the calls that are shipped for Rust.
fn shipped_calls(seed: u64) -> Result<(), Box<Difference>> {
    let mut checker = Checker::new(engine::shipped_calls());
    let outcome = cases::round(&mut checker, seed);
    let cases = checker.tally.cases();
    println!("{cases} cases through the calls shipped for Rust");
    outcome
}

/// One round after the other, each with a fresh seed, until the time is over.
fn run_for(checker: &mut Checker, seed: u64, seconds: u64) -> Result<(), Box<Difference>> {
    let begin = Instant::now();
    let mut round_seed = seed;
    while begin.elapsed() < Duration::from_secs(seconds) {
        cases::round(checker, round_seed)?;
        round_seed = round_seed.wrapping_add(1);
    }
    Ok(())
}

fn conclude(outcome: Result<(), Box<Difference>>) -> ExitCode {
    match outcome {
        Ok(()) => {
            println!("no difference");
            ExitCode::SUCCESS
        }
        Err(difference) => {
            println!("DIFFERENCE in {difference}");
            ExitCode::FAILURE
        }
    }
}
