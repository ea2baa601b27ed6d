//! Panels for one run: a yard stocks two panel lengths, and the run of the
//! sample job is laid from them, with more and more tries, and with the lengths
//! the other way about; then runs at the ends of what these lengths cover, a
//! longer one, and refusals. It ends with 1 where a call does not do what it
//! should.
//!
//! It prints the same text as examples/layout.c.

use std::io::Write;
use std::process::ExitCode;

use barrier_engine::{layout, Covering, Layout, TRIES_MAX};
use example::show::{self, in_numbers, Stop};

/// In the order in which their counts rise: the last one's changes fastest, so
/// that the shortest length, which stands first, is taken as rarely as can be.
const LENGTHS: [u64; 2] = [2_500, 4_000];
const LONGEST_FIRST: [u64; 2] = [4_000, 2_500];
/// Fifteen of each are so long together.
const COVERED: u64 = 97_500;

/// The run [155773, 210000).
const RUN: u64 = 210_000 - 155_773;

/// The layout of a run from these lengths.
fn print_layout(out: &mut impl Write, lengths: &[u64], run: u64, limit: u64) -> Result<(), Stop> {
    let what = format!("run {run}, at most {limit} tries");
    let Layout {
        covering,
        tries,
        floor,
    } = show::done(out, &what, layout(lengths, run, limit), in_numbers)?;
    write!(out, "  {what}: ")?;
    match covering {
        Some(Covering { overrun, counts }) => {
            write!(out, "({}, {}), overrun {overrun}", counts[0], counts[1])?;
        }
        None => write!(out, "none covers it")?,
    }
    writeln!(out, "; {tries} tries, floor {floor}")?;
    Ok(())
}

/// A run that fifteen of each do not cover: panels of the longest length are laid
/// first, until half of that is left, for which there are many layouts.
fn print_long(out: &mut impl Write, run: u64) -> Result<(), Stop> {
    let longest = LENGTHS[1];
    let first = (run - COVERED / 2).div_ceil(longest);
    writeln!(
        out,
        "A run of {run}: first {first} panels of {longest}, then the rest"
    )?;
    print_layout(out, &LENGTHS, run - first * longest, TRIES_MAX)
}

/// Everything in turn.
fn print_all(out: &mut impl Write) -> Result<(), Stop> {
    // Where the overrun is the floor, more tries are of no use.
    writeln!(out, "Panels of 2500 and 4000, the sample job's run")?;
    for limit in [14, 15, 29, 30, TRIES_MAX] {
        print_layout(out, &LENGTHS, RUN, limit)?;
    }
    // The same overrun, in seventeen panels and not in fourteen.
    writeln!(out, "The longest first")?;
    print_layout(out, &LONGEST_FIRST, RUN, TRIES_MAX)?;
    writeln!(out, "Runs at the ends of what these panels cover")?;
    for run in [0, COVERED, COVERED + 1] {
        print_layout(out, &LENGTHS, run, TRIES_MAX)?;
    }
    print_long(out, 212_000)?;
    writeln!(out, "Refusals")?;
    let answer = layout(&[], RUN, TRIES_MAX);
    show::refused(out, "no length", answer, in_numbers)?;
    let answer = layout(&LENGTHS, RUN, 0);
    show::refused(out, "no tries", answer, in_numbers)
}

fn main() -> ExitCode {
    show::program("layout", print_all)
}
