//! What a job's draft gives, for the tests of the paper's cases.
#![allow(dead_code)]

use reference::calls::LONG_ENOUGH;
pub use reference::draft::*;
use reference::{Refusal, plan, planned, schedule};

pub trait Planned {
    /// Plans and reads back: start, end and level of each run.
    fn runs(&self, side: u64) -> Result<Vec<(u64, u64, u64)>, Refusal>;

    /// The runs of the right side of an accepted job.
    fn right(&self) -> Vec<(u64, u64, u64)> {
        self.runs(0).unwrap()
    }

    /// The overhangs of one side of an accepted job, before A and behind B.
    fn overhangs(&self, side: u64) -> (u64, u64);

    fn refused(&self) -> (u64, u64) {
        let right = self.runs(0).unwrap_err();
        assert_eq!(self.runs(1).unwrap_err(), right);
        (right.number, right.value)
    }
}

impl Planned for Draft {
    fn runs(&self, side: u64) -> Result<Vec<(u64, u64, u64)>, Refusal> {
        let planned = planned(&self.bytes(), side)?;
        let records = schedule::read(&planned).expect("a planned schedule is read");
        Ok(records
            .iter()
            .map(|r| (r.run.stretch.start, r.run.stretch.end, r.run.level))
            .collect())
    }

    fn overhangs(&self, side: u64) -> (u64, u64) {
        let planned = plan(&self.bytes(), side, &mut [0; LONG_ENOUGH]).unwrap();
        (planned.before, planned.after)
    }
}

/// A runout length of 1 without a flare makes every approach length 1, so the
/// envelopes can be given as they are: start, end and level.
pub fn with_envelopes(continuity: u64, envelopes: &[(u64, u64, u64)]) -> Draft {
    let hazards: Vec<[u64; FIELDS]> = envelopes
        .iter()
        .map(|&(start, end, level)| [0, start + 1, end, 5_000, 9_000, level])
        .collect();
    let short = PRINTED.with(FLARE_B, 0).with(LF, 1);
    short.with(G, continuity).with_hazards(&hazards)
}
