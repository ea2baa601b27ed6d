//! Envelopes: the stretch of a reached hazard with its approach lengths.

use crate::approach::{self, Flare, whole};
use crate::job::{Hazard, Job};
use crate::refusal::Refusal;
use crate::stretch::Stretch;

/// A reached hazard's envelope, cut at A and B.
#[derive(Clone, Copy, Debug, PartialEq, Eq)]
pub struct Envelope {
    pub side: u64,
    pub stretch: Stretch,
    pub level: u64,
    pub overhang: Overhang,
}

/// How many millimetres are cut off before A and behind B.
#[derive(Clone, Copy, Debug, Default, PartialEq, Eq)]
pub struct Overhang {
    pub before: u64,
    pub after: u64,
}

#[derive(Clone, Copy, Debug, PartialEq, Eq)]
pub enum Direction {
    /// Traffic with rising stations; it approaches from lower ones.
    Forward,
    /// It approaches from higher stations.
    Opposite,
}

/// One traffic that reaches a hazard.
#[derive(Clone, Copy, Debug, PartialEq, Eq)]
pub struct Approach {
    pub direction: Direction,
    /// Whether it is the far traffic of the hazard's side.
    pub far: bool,
    /// R
    pub reach: u64,
    /// m
    pub offset: u64,
}

/// By how much an envelope is longer than its hazard, at each end.
#[derive(Clone, Copy, Debug, Default, PartialEq, Eq)]
pub struct Lengthening {
    pub lower: u64,
    pub higher: u64,
}

/// The traffic adjacent to a side.
pub fn adjacent(job: &Job, side: u64) -> Direction {
    if side == 0 || job.runout_opposite == 0 {
        Direction::Forward
    } else {
        Direction::Opposite
    }
}

/// The far traffic of a side; none with LO = 0.
pub fn far(job: &Job, side: u64) -> Option<Direction> {
    if job.runout_opposite == 0 {
        None
    } else if side == 0 {
        Some(Direction::Opposite)
    } else {
        Some(Direction::Forward)
    }
}

/// Every traffic that reaches the hazard, adjacent first.
pub fn approaches(job: &Job, hazard: &Hazard) -> Vec<Approach> {
    let mut list = Vec::new();
    let c = job.clear_zone;
    let w = job.centreline;
    if hazard.near < c {
        list.push(Approach {
            direction: adjacent(job, hazard.side),
            far: false,
            reach: hazard.far.min(c),
            offset: job.barrier_offset,
        });
    }
    if let Some(direction) = far(job, hazard.side)
        && hazard.near + w < c
    {
        list.push(Approach {
            direction,
            far: true,
            reach: (hazard.far + w).min(c),
            offset: job.barrier_offset + w,
        });
    }
    list
}

/// The hazard with this index; 14 where there is no such hazard. An index is 64
/// bits wide.
pub fn asked(job: &Job, index: u64) -> Result<Hazard, Refusal> {
    let index = usize::try_from(index).ok();
    let hazard = index.and_then(|index| job.hazards.get(index));
    hazard.copied().ok_or(Refusal::no_such_hazard())
}

/// The hazard with this index and its adjacent traffic; 14 where there is no such
/// hazard or adjacent traffic does not reach it.
pub fn adjacent_approach(job: &Job, index: u64) -> Result<(Hazard, Approach), Refusal> {
    let hazard = asked(job, index)?;
    let mut approaches = approaches(job, &hazard).into_iter();
    let adjacent = approaches.find(|approach| !approach.far);
    Ok((hazard, adjacent.ok_or(Refusal::no_such_hazard())?))
}

/// The approach length of one reaching traffic, in whole panels.
pub fn length(job: &Job, approach: &Approach) -> u64 {
    approach::raised(before_raising(job, approach), job.panel)
}

/// The same before it is raised to whole panels.
pub fn before_raising(job: &Job, approach: &Approach) -> u64 {
    let runout = runout(job, approach.direction);
    approach::length(runout, approach.reach, approach.offset, flare(job))
}

pub fn runout(job: &Job, direction: Direction) -> u64 {
    match direction {
        Direction::Forward => job.runout_forward,
        Direction::Opposite => job.runout_opposite,
    }
}

pub fn flare(job: &Job) -> Flare {
    Flare {
        along: job.flare_along,
        across: job.flare_across,
        straight: job.straight,
    }
}

/// Each reaching traffic lengthens the hazard at the end that it approaches.
pub fn lengthening(job: &Job, approaches: &[Approach]) -> Lengthening {
    let mut longer = Lengthening::default();
    for approach in approaches {
        match approach.direction {
            Direction::Forward => longer.lower += length(job, approach),
            Direction::Opposite => longer.higher += length(job, approach),
        }
    }
    longer
}

/// Refusal 5: a reached hazard with n < M + D.
pub fn too_near(job: &Job, hazard: &Hazard) -> bool {
    hazard.near < job.barrier_offset + job.deflection
}

/// The envelope of one hazard, if somebody reaches it.
pub fn envelope(job: &Job, index: usize, hazard: &Hazard) -> Result<Option<Envelope>, Refusal> {
    let approaches = approaches(job, hazard);
    if approaches.is_empty() {
        return Ok(None);
    }
    if too_near(job, hazard) {
        return Err(Refusal::too_near(index));
    }
    let longer = lengthening(job, &approaches);
    Ok(Some(cut(job, hazard, &longer)))
}

/// The hazard's stretch with both lengths added, cut at A and B. Before it is
/// cut it may begin below station 0. A job's hazard lies on the road, so
/// something of it is left.
pub fn cut(job: &Job, hazard: &Hazard, longer: &Lengthening) -> Envelope {
    let begin = i128::from(hazard.start) - i128::from(longer.lower);
    let end = i128::from(hazard.end) + i128::from(longer.higher);
    let (a, b) = (i128::from(job.road_begin), i128::from(job.road_end));
    Envelope {
        side: hazard.side,
        stretch: Stretch::new(from_0(begin.max(a)), from_0(end.min(b))),
        level: hazard.level,
        overhang: Overhang {
            before: from_0(a - begin),
            after: from_0(end - b),
        },
    }
}

/// The number itself, or 0 for one below it.
fn from_0(number: i128) -> u64 {
    whole(number.max(0).unsigned_abs())
}

/// The greatest overhang at each end, 0 where there is none.
pub fn greatest_overhang(envelopes: &[Envelope]) -> Overhang {
    let mut greatest = Overhang::default();
    for Envelope { overhang, .. } in envelopes {
        greatest.before = greatest.before.max(overhang.before);
        greatest.after = greatest.after.max(overhang.after);
    }
    greatest
}

/// The envelopes of a job, of both sides: hazards in order, so the refusal is
/// that of the first hazard that has one, on whichever side it is.
pub fn envelopes(job: &Job) -> Result<Vec<Envelope>, Refusal> {
    let mut list = Vec::new();
    for (index, hazard) in job.hazards.iter().enumerate() {
        list.extend(envelope(job, index, hazard)?);
    }
    Ok(list)
}
