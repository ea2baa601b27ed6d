//! The calls: plan, level, quantity, quantities and lookup.

use crate::envelope::{self, Envelope, Overhang};
use crate::job::{self, Job};
use crate::level::{self, HIGHEST, Required, Run};
use crate::refusal::Refusal;
use crate::schedule;
use crate::stretch::Stretch;

/// What plan gives: the bytes written, and among the asked side's hazards the
/// greatest overhang before A and behind B, 0 where none.
#[derive(Clone, Copy, Debug, PartialEq, Eq)]
pub struct Planned {
    pub written: u64,
    pub before: u64,
    pub after: u64,
}

/// Writes the schedule of one side to the start of `out`. A refusal writes
/// nothing.
pub fn plan(job: &[u8], side: u64, out: &mut [u8]) -> Result<Planned, Refusal> {
    if side > 1 {
        return Err(Refusal::argument());
    }
    plan_job(&job::read(job)?, side, out)
}

/// The same of a job that is read.
pub fn plan_job(job: &Job, side: u64, out: &mut [u8]) -> Result<Planned, Refusal> {
    let envelopes = envelopes_of(job, side)?;
    let runs = Required::new(&envelopes, job.continuity).runs();
    let written = put(&runs, out)?;
    let Overhang { before, after } = envelope::greatest_overhang(&envelopes);
    Ok(Planned {
        written,
        before,
        after,
    })
}

fn put(runs: &[Run], out: &mut [u8]) -> Result<u64, Refusal> {
    let writing = schedule::writing(runs);
    let needed = writing.len();
    if out.len() < needed {
        return Err(Refusal::output_short(needed));
    }
    out[..needed].copy_from_slice(&writing);
    Ok(needed as u64)
}

/// An output long enough for every schedule.
pub const LONG_ENOUGH: usize = 8_192;

/// The planned schedule: the bytes that plan writes into an output long enough.
pub fn planned(job: &[u8], side: u64) -> Result<Vec<u8>, Refusal> {
    let mut out = vec![0; LONG_ENOUGH];
    let planned = plan(job, side, &mut out)?;
    out.truncate(planned.written as usize);
    Ok(out)
}

/// The runs of one side: refusal 8, then those of the job.
pub fn runs(job: &[u8], side: u64) -> Result<Vec<Run>, Refusal> {
    Ok(required(job, side)?.runs())
}

/// The levels that a job requires on one side.
pub fn required(job: &[u8], side: u64) -> Result<Required, Refusal> {
    if side > 1 {
        return Err(Refusal::argument());
    }
    let job = job::read(job)?;
    Ok(Required::new(&envelopes_of(&job, side)?, job.continuity))
}

/// The job of these bytes, if it is accepted: the refusals that plan has without
/// its own 8 and 9.
pub fn accepted(bytes: &[u8]) -> Result<Job, Refusal> {
    tested(job::read(bytes)?)
}

/// The same of a job that is read.
pub fn tested(job: Job) -> Result<Job, Refusal> {
    envelope::envelopes(&job)?;
    Ok(job)
}

/// The envelopes of one side.
fn envelopes_of(job: &Job, side: u64) -> Result<Vec<Envelope>, Refusal> {
    if side > 1 {
        return Err(Refusal::argument());
    }
    let envelopes = envelope::envelopes(job)?;
    Ok(envelopes.into_iter().filter(|e| e.side == side).collect())
}

/// The required level at a station of one side, without making runs: refusal 8,
/// then those of the job.
pub fn level(job: &[u8], side: u64, station: u64) -> Result<u64, Refusal> {
    if side > 1 {
        return Err(Refusal::argument());
    }
    level_of_job(&job::read(job)?, side, station)
}

/// The same of a job that is read.
pub fn level_of_job(job: &Job, side: u64, station: u64) -> Result<u64, Refusal> {
    let envelopes = envelopes_of(job, side)?;
    Ok(level::level_at(&envelopes, job.continuity, station))
}

/// How many millimetres of [p, q) have exactly that level.
pub fn quantity(schedule: &[u8], level: u64, p: u64, q: u64) -> Result<u64, Refusal> {
    if !(1..=HIGHEST).contains(&level) || p > q {
        return Err(Refusal::argument());
    }
    let records = schedule::read(schedule).ok_or(Refusal::no_schedule())?;
    let asked = Stretch::new(p, q);
    let of_level = records.iter().filter(|record| record.run.level == level);
    Ok(of_level
        .map(|record| record.run.stretch.shared(&asked))
        .sum())
}

/// What quantities gives: the count of records read, and a quantity for each
/// range, in the order of the ranges.
#[derive(Clone, Debug, PartialEq, Eq)]
pub struct Quantities {
    pub records: u64,
    pub quantities: Vec<u64>,
}

/// A contract has at most this many ranges.
pub const MOST_RANGES: usize = 64;

/// How many millimetres of each range have exactly that level. The ranges are
/// p, q, p, q and so on; they may overlap. 8 is for every range, also for
/// those behind the 64th, and comes before 11; 10 comes last.
pub fn quantities(schedule: &[u8], level: u64, ranges: &[u64]) -> Result<Quantities, Refusal> {
    let bad_level = !(1..=HIGHEST).contains(&level);
    let without_partner = ranges.len() % 2 == 1;
    let turned = ranges.chunks_exact(2).any(|range| range[0] > range[1]);
    if bad_level || without_partner || turned {
        return Err(Refusal::argument());
    }
    if ranges.len() / 2 > MOST_RANGES {
        return Err(Refusal::too_many_ranges());
    }
    let records = schedule::read(schedule).ok_or(Refusal::no_schedule())?;
    let mut quantities = vec![0; ranges.len() / 2];
    for record in records.iter().filter(|record| record.run.level == level) {
        for (quantity, range) in quantities.iter_mut().zip(ranges.chunks_exact(2)) {
            *quantity += record.run.stretch.shared(&Stretch::new(range[0], range[1]));
        }
    }
    Ok(Quantities {
        records: records.len() as u64,
        quantities,
    })
}

/// What the companion call of lookup gives.
#[derive(Clone, Copy, Debug, PartialEq, Eq)]
pub enum Outcome {
    Found,
    None,
    Refused(Refusal),
}

/// A part of the schedule of the side asked for (of the right one for a bad
/// side), and what the companion call gives.
#[derive(Clone, Copy, Debug, PartialEq, Eq)]
pub struct Lookup {
    pub start: usize,
    pub length: usize,
    pub outcome: Outcome,
}

/// The bytes of the record whose run has the station.
pub fn lookup(right: &[u8], left: &[u8], side: u64, station: u64) -> Lookup {
    let schedule = match side {
        0 => right,
        1 => left,
        _ => return empty(Outcome::Refused(Refusal::argument())),
    };
    let Some(records) = schedule::read(schedule) else {
        return empty(Outcome::Refused(Refusal::no_schedule()));
    };
    match records.iter().find(|r| r.run.stretch.has(station)) {
        Some(record) => Lookup {
            start: record.bytes.start,
            length: record.bytes.len(),
            outcome: Outcome::Found,
        },
        None => empty(Outcome::None),
    }
}

/// An empty part at the schedule's start.
fn empty(outcome: Outcome) -> Lookup {
    Lookup {
        start: 0,
        length: 0,
        outcome,
    }
}
