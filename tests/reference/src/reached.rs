//! What one hazard takes of its side: its envelope, its own overhangs, and the
//! stretch outside which its withdrawal alters no level.

use crate::calls::accepted;
use crate::envelope::{self, Envelope, Overhang};
use crate::job::{Hazard, Job};
use crate::open::{Name, tested};
use crate::refusal::Refusal;
use crate::stretch::Stretch;

/// Of a hazard that nobody reaches the side alone is given, and all else is 0.
#[derive(Clone, Copy, Debug, PartialEq, Eq)]
pub struct Reached {
    pub side: u64,
    /// Cut at A and B.
    pub envelope: Stretch,
    pub overhang: Overhang,
    /// The cut envelope with G more at both ends, cut at A and B again: the
    /// engine gives its ends as from and to.
    pub altered: Stretch,
}

/// Of the hazard with this index of a job: the job's refusals, then 14 where
/// there is no such hazard.
pub fn reach(job: &[u8], hazard: u64) -> Result<Reached, Refusal> {
    of_accepted(&accepted(job)?, hazard)
}

/// The same of an accepted job.
pub fn of_accepted(job: &Job, index: u64) -> Result<Reached, Refusal> {
    of_hazard(job, &envelope::asked(job, index)?)
}

/// Of the hazard that stands under this name: 3 with 0 where the memory breaks
/// the rules, then 12 where the name does not stand.
pub fn open_reach(memory: &[u8], name: Name) -> Result<Reached, Refusal> {
    let open = tested(memory)?;
    let hazard = open.standing.get(&name).ok_or(Refusal::name(name))?;
    of_hazard(&open.header, hazard)
}

/// Of a hazard that is accepted under this header. The job's own hazards are not
/// looked at: how far a hazard reaches does not hang on the others.
pub fn of_hazard(job: &Job, hazard: &Hazard) -> Result<Reached, Refusal> {
    let envelope = envelope::envelope(job, 0, hazard)?;
    Ok(match envelope {
        Some(envelope) => of_envelope(job, &envelope),
        None => unreached(hazard.side),
    })
}

/// Of a hazard that somebody reaches.
pub fn of_envelope(job: &Job, envelope: &Envelope) -> Reached {
    Reached {
        side: envelope.side,
        envelope: envelope.stretch,
        overhang: envelope.overhang,
        altered: on_road(job, envelope.stretch, job.continuity),
    }
}

/// Of a hazard that nobody reaches.
pub fn unreached(side: u64) -> Reached {
    Reached {
        side,
        envelope: Stretch::new(0, 0),
        overhang: Overhang::default(),
        altered: Stretch::new(0, 0),
    }
}

/// A stretch of the road with so many millimetres more at both ends, as far as
/// the road goes. There are no stations below 0 to go to.
pub fn on_road(job: &Job, stretch: Stretch, by: u64) -> Stretch {
    let start = stretch.start.saturating_sub(by).max(job.road_begin);
    let end = (stretch.end + by).min(job.road_end);
    Stretch::new(start, end)
}
