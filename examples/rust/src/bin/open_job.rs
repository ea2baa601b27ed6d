//! An open job: the header of the sample job of barrier.h, to which hazards
//! come as a controller meets them; then a variant, tried and taken back; then
//! hazards by the road's begin. It ends with 1 where a call does not do what it
//! should.
//!
//! It prints the same text as examples/open_job.c.

use std::io::Write;
use std::process::ExitCode;

use barrier_engine::{decode_schedule, Hazard, OpenJob, PlannedSide, Refusal};
use barrier_engine::{DONE, NAME, NC_2, NC_3, NC_4, RIGHT, STATE};
use example::printed;
use example::show::{self, in_numbers, Stop};

/// The names under which the hazards stand: their drawing numbers.
const HEADWALL: u16 = 7;
const POLE: u16 = 20;
const CULVERT: u16 = 1030;
const PIER: u16 = 1031;

/// The state number under which a state is kept, and one of which none is.
const BEFORE: u64 = 0;
const NEVER_KEPT: u64 = 1;

/// A hazard on the right side, its offsets those of the sample job.
fn hazard(start: u64, end: u64, level: u64) -> Hazard {
    Hazard {
        start,
        end,
        level,
        ..printed::HEADWALL
    }
}

/// A call that must not be refused, and is said to be done.
fn done<T>(out: &mut impl Write, what: &str, answer: Result<T, Refusal>) -> Result<T, Stop> {
    let answer = show::done(out, what, answer, in_numbers)?;
    writeln!(out, "  {what}: done")?;
    Ok(answer)
}

/// A call that has to be refused with that number.
fn refused(
    out: &mut impl Write,
    what: &str,
    answer: Result<(), Refusal>,
    wanted: u64,
) -> Result<(), Stop> {
    let number = match answer {
        Ok(()) => {
            writeln!(out, "  {what}: done")?;
            DONE
        }
        Err(refusal) => {
            writeln!(out, "  {what}: {}", in_numbers(&refusal))?;
            refusal.number
        }
    };
    if number == wanted {
        Ok(())
    } else {
        Err(Stop::Call)
    }
}

/// The runs of the right side, as they are now, and its overhang.
fn print_runs(out: &mut impl Write, job: &OpenJob) -> Result<(), Stop> {
    let PlannedSide {
        schedule,
        before,
        after,
    } = done(out, "schedule", job.plan_side(RIGHT))?;
    for run in decode_schedule(&schedule)? {
        writeln!(out, "    [{}, {}) at NC-{}", run.start, run.end, run.level)?;
    }
    // Not in the runs: it stands in the neighbouring contract.
    if before > 0 || after > 0 {
        write!(out, "    overhang: {before} mm before the road, ")?;
        writeln!(out, "{after} mm after it")?;
    }
    Ok(())
}

/// Hazards come and go; the job then has the headwall and the pole.
fn show_hazards(out: &mut impl Write) -> Result<OpenJob, Stop> {
    let headwall = printed::HEADWALL;
    let pole = hazard(600_000, 600_300, NC_2);

    writeln!(out, "An open job")?;
    let answer = OpenJob::new(&printed::HEADER.encode());
    let mut job = done(out, "open", answer)?;
    done(out, "add 7", job.add(HEADWALL, headwall))?;
    done(out, "add 20", job.add(POLE, pole))?;
    refused(out, "add 7", job.add(HEADWALL, pole), NAME)?;
    print_runs(out, &job)?;
    done(out, "withdraw 7", job.withdraw(HEADWALL))?;
    print_runs(out, &job)?;
    done(out, "add 7", job.add(HEADWALL, headwall))?;
    print_runs(out, &job)?;
    Ok(job)
}

/// The pole 100 m farther on, and back.
fn show_variant(out: &mut impl Write, job: &mut OpenJob) -> Result<(), Stop> {
    let moved_pole = hazard(700_000, 700_300, NC_2);

    writeln!(out, "A variant")?;
    done(out, "keep 0", job.keep(BEFORE))?;
    done(out, "withdraw 20", job.withdraw(POLE))?;
    done(out, "add 20", job.add(POLE, moved_pole))?;
    print_runs(out, job)?;
    done(out, "return 0", job.return_to(BEFORE))?;
    print_runs(out, job)?;
    refused(out, "return 1", job.return_to(NEVER_KEPT), STATE)?;
    Ok(())
}

/// Two hazards by the road's begin, whose approaches of 44,227 do not fit
/// before them.
fn show_overhang(out: &mut impl Write, job: &mut OpenJob) -> Result<(), Stop> {
    let culvert = hazard(30_000, 31_000, NC_3);
    let pier = hazard(40_000, 42_000, NC_4);

    writeln!(out, "By the neighbouring contract")?;
    done(out, "add 1030", job.add(CULVERT, culvert))?;
    done(out, "add 1031", job.add(PIER, pier))?;
    print_runs(out, job)?;
    done(out, "withdraw 1030", job.withdraw(CULVERT))?;
    print_runs(out, job)
}

/// Everything in turn.
fn print_all(out: &mut impl Write) -> Result<(), Stop> {
    let mut job = show_hazards(out)?;
    show_variant(out, &mut job)?;
    show_overhang(out, &mut job)
}

fn main() -> ExitCode {
    show::program("open_job", print_all)
}
