//! Corner points of a hazard's adjacent approach, for the drawing.

use crate::calls::accepted;
use crate::envelope::{self, Approach, Direction};
use crate::job::{Hazard, Job};
use crate::refusal::Refusal;

/// A corner in floats, counted from the sheet corner.
#[derive(Clone, Copy, Debug, PartialEq)]
pub struct Corner {
    pub station: f64,
    pub offset: f64,
}

/// The corners of an approach.
#[derive(Clone, Copy, Debug, PartialEq)]
pub struct Corners {
    /// The approach's upstream end.
    pub upstream: Corner,
    /// The flare's beginning.
    pub flare: Corner,
    /// The hazard's end.
    pub hazard: Corner,
}

/// A point in whole millimetres. The station may be below 0.
#[derive(Clone, Copy, Debug, PartialEq, Eq)]
pub struct Point {
    pub station: i128,
    pub offset: i128,
}

/// The greatest number of a sheet corner.
pub const SHEET_END: u64 = 1_000_000_000_000;

/// The corners of one hazard's adjacent approach, counted from a sheet corner:
/// refusal 8 for the sheet corner, then those of the job, then 14.
pub fn corners(
    job: &[u8],
    hazard: u64,
    sheet_station: u64,
    sheet_offset: u64,
) -> Result<Corners, Refusal> {
    if sheet_station > SHEET_END || sheet_offset > SHEET_END {
        return Err(Refusal::argument());
    }
    let sheet = Point {
        station: sheet_station.into(),
        offset: sheet_offset.into(),
    };
    of_accepted(&accepted(job)?, hazard, sheet)
}

/// The same of an accepted job.
pub fn of_accepted(job: &Job, hazard: u64, sheet: Point) -> Result<Corners, Refusal> {
    let (hazard, approach) = envelope::adjacent_approach(job, hazard)?;
    Ok(from_sheet(points(job, &hazard, &approach), sheet))
}

/// Upstream end, flare's beginning and hazard's end, not cut at A and B.
pub fn points(job: &Job, hazard: &Hazard, approach: &Approach) -> [Point; 3] {
    let offset = i128::from(job.barrier_offset);
    let upstream_by = |length: u64| upstream_by(hazard, approach.direction, length);
    let length = envelope::length(job, approach);
    let straight = Point {
        station: upstream_by(length),
        offset,
    };
    let at_hazard = Point {
        station: upstream_by(0),
        offset,
    };
    // Where the flare is not entered the second corner repeats the first.
    if !flare_entered(job, approach) {
        return [straight, straight, at_hazard];
    }
    let upstream = Point {
        offset: offset + i128::from(across(job, length)),
        ..straight
    };
    let flare = Point {
        station: upstream_by(job.straight),
        offset,
    };
    [upstream, flare, at_hazard]
}

/// Whether b is above 0 and the length before raising to panels above T.
pub fn flare_entered(job: &Job, approach: &Approach) -> bool {
    job.flare_across > 0 && envelope::before_raising(job, approach) > job.straight
}

/// b × (length − T) / a, rounded down. A raised length is not below the length
/// before raising, so it is above T where the flare is entered.
pub fn across(job: &Job, length: u64) -> u64 {
    job.flare_across * (length - job.straight) / job.flare_along
}

/// The station so far upstream of the hazard's end that the traffic comes to
/// first.
pub fn upstream_by(hazard: &Hazard, direction: Direction, length: u64) -> i128 {
    match direction {
        Direction::Forward => i128::from(hazard.start) - i128::from(length),
        Direction::Opposite => i128::from(hazard.end) + i128::from(length),
    }
}

/// The subtraction is done in floats: every number is far below 2 to the 53rd,
/// so nothing is lost.
pub fn from_sheet(points: [Point; 3], sheet: Point) -> Corners {
    let [upstream, flare, hazard] = points.map(|point| Corner {
        station: point.station as f64 - sheet.station as f64,
        offset: point.offset as f64 - sheet.offset as f64,
    });
    Corners {
        upstream,
        flare,
        hazard,
    }
}
