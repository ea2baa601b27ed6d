//! The sample job of barrier.h, from which the programs begin.

use barrier_engine::{Hazard, Header, Job, NC_3, RIGHT};

/// One kilometre of road with forward traffic only.
pub const HEADER: Header = Header {
    begin: 0,
    end: 1_000_000,
    runout_forward: 101_000,
    runout_opposite: 0,
    clear_zone: 9_000,
    centreline: 0,
    barrier_offset: 3_000,
    deflection: 1_000,
    flare_along: 15,
    flare_across: 1,
    straight: 13_340,
    continuity: 0,
    panel: None,
};

/// A culvert headwall on the right.
pub const HEADWALL: Hazard = Hazard {
    side: RIGHT,
    start: 200_000,
    end: 210_000,
    near_offset: 5_000,
    far_offset: 9_000,
    level: NC_3,
};

/// The header, and the headwall as its one hazard.
pub fn job() -> Job {
    Job {
        header: HEADER,
        hazards: vec![HEADWALL],
    }
}
