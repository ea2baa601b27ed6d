//! How these programs print, and how they end: with 1 where a call does not do
//! what it should, and where standard output cannot be written.

use std::io::{self, StdoutLock, Write};
use std::process::ExitCode;

use barrier_engine::{Fault, Refusal};

/// Why a program ends before everything is shown.
pub enum Stop {
    /// A call did not do what it should; it is printed.
    Call,
    /// A schedule of the engine's could not be read.
    Unread(Fault),
    /// Standard output cannot be written.
    Output,
}

impl From<io::Error> for Stop {
    fn from(_: io::Error) -> Stop {
        Stop::Output
    }
}

impl From<Fault> for Stop {
    fn from(fault: Fault) -> Stop {
        Stop::Unread(fault)
    }
}

/// How a refusal is printed.
pub type Words = fn(&Refusal) -> String;

/// As `Refusal` words it.
pub fn in_words(refusal: &Refusal) -> String {
    refusal.to_string()
}

pub fn in_numbers(refusal: &Refusal) -> String {
    let Refusal { number, value, .. } = refusal;
    format!("refused {number} with {value}")
}

/// The answer of a call that must not be refused.
pub fn done<T>(
    out: &mut impl Write,
    what: &str,
    answer: Result<T, Refusal>,
    words: Words,
) -> Result<T, Stop> {
    match answer {
        Ok(answer) => Ok(answer),
        Err(refusal) => {
            writeln!(out, "  {what}: {}", words(&refusal))?;
            Err(Stop::Call)
        }
    }
}

/// A call that has to be refused.
pub fn refused<T>(
    out: &mut impl Write,
    what: &str,
    answer: Result<T, Refusal>,
    words: Words,
) -> Result<(), Stop> {
    match answer {
        Ok(_) => {
            writeln!(out, "  {what}: done, but it should be refused")?;
            Err(Stop::Call)
        }
        Err(refusal) => Ok(writeln!(out, "  {what}: {}", words(&refusal))?),
    }
}

/// A program of that name. println! would panic where standard output is full
/// or closed.
pub fn program(
    name: &str,
    show: impl FnOnce(&mut StdoutLock<'static>) -> Result<(), Stop>,
) -> ExitCode {
    let mut out = io::stdout().lock();
    let shown = show(&mut out);
    let flushed = out.flush().map_err(Stop::from);
    let stop = match shown.and(flushed) {
        Ok(()) => return ExitCode::SUCCESS,
        Err(stop) => stop,
    };
    // Where this cannot be written either, the status says it.
    let _ = match stop {
        Stop::Call => Ok(()),
        Stop::Unread(fault) => writeln!(io::stderr(), "{name}: no schedule: {fault}"),
        Stop::Output => writeln!(io::stderr(), "{name}: standard output cannot be written"),
    };
    ExitCode::FAILURE
}
