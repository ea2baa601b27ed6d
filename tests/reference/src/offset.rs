//! The smallest barrier offset that keeps an adjacent approach short enough.

use crate::calls::accepted;
use crate::envelope::{self, Approach};
use crate::job::{Hazard, Job};
use crate::refusal::Refusal;

/// The greatest barrier offset.
pub const GREATEST: u64 = 20_000;

/// The smallest M from 0 to 20,000 with n at least M + D whose adjacent approach
/// is no longer than wanted; none if there is none. The refusals are those of the
/// job, then 14.
pub fn offset(job: &[u8], hazard: u64, longest: u64) -> Result<Option<u64>, Refusal> {
    of_accepted(&accepted(job)?, hazard, longest)
}

/// The same of an accepted job.
pub fn of_accepted(job: &Job, hazard: u64, longest: u64) -> Result<Option<u64>, Refusal> {
    let (hazard, approach) = envelope::adjacent_approach(job, hazard)?;
    let suits =
        |offset: &u64| clear(job, &hazard, *offset) && length(job, &approach, *offset) <= longest;
    Ok((0..=GREATEST).find(suits))
}

/// Whether n is at least M + D.
pub fn clear(job: &Job, hazard: &Hazard, offset: u64) -> bool {
    hazard.near >= offset + job.deflection
}

/// The length of an adjacent approach with another M, in whole panels.
pub fn length(job: &Job, adjacent: &Approach, offset: u64) -> u64 {
    envelope::length(
        job,
        &Approach {
            offset,
            ..*adjacent
        },
    )
}
