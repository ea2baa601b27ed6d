//! Schedules to runs and back.

use crate::numbers::{fault_at_byte, put_numbers, Reader};
use crate::{put_number, Fault, Place, NC_1, NC_6, RUNS_MAX, STATION_MAX};

/// A run of barrier, the millimetres [start, end), and its level.
#[derive(Clone, Copy, Debug, PartialEq, Eq)]
pub struct Run {
    pub start: u64,
    pub end: u64,
    pub level: u64,
}

impl Run {
    /// What is wrong with this run after that one, for a schedule.
    fn fault_after(&self, before: Option<&Run>) -> Option<&'static str> {
        let free_from = before.map_or(0, |before| before.end);
        let touches = self.start == free_from;
        if self.start < free_from {
            Some("it begins before the end of the run before it")
        } else if self.end <= self.start {
            Some("it has no length")
        } else if !(NC_1..=NC_6).contains(&self.level) {
            Some("its level is not 1 to 6")
        } else if self.end > STATION_MAX {
            Some("it ends after the greatest station")
        } else if touches && before.is_some_and(|before| before.level == self.level) {
            Some("it touches the run before it, which has the same level")
        } else {
            None
        }
    }
}

/// The runs of a schedule, with rising stations. Bytes that the engine would
/// refuse with 10 are a fault.
pub fn decode_schedule(schedule: &[u8]) -> Result<Vec<Run>, Fault> {
    let mut reader = Reader {
        bytes: schedule,
        at: 0,
    };
    let count = reader.count(RUNS_MAX, "the run count is above 511")?;
    let mut runs: Vec<Run> = Vec::with_capacity(count);
    let mut free_from = 0;
    for _ in 0..count {
        let begin = reader.at;
        // A record has the distance from the run before, not the station.
        let [distance, length, level] = reader.numbers()?;
        let start = free_from + distance;
        let end = start + length;
        let run = Run { start, end, level };
        if let Some(what) = run.fault_after(runs.last()) {
            return fault_at_byte(begin, what);
        }
        runs.push(run);
        free_from = end;
    }
    reader.end()?;
    Ok(runs)
}

/// The schedule of these runs, which stand with rising stations. Runs that make
/// no schedule are a fault.
pub fn encode_schedule(runs: &[Run]) -> Result<Vec<u8>, Fault> {
    let mut schedule = Vec::new();
    put_number(&mut schedule, runs.len() as u64);
    let mut before = None;
    for (index, run) in runs.iter().enumerate() {
        let place = Place::Run(index);
        if index == RUNS_MAX {
            let what = "a schedule has at most 511 runs";
            return Err(Fault { place, what });
        }
        if let Some(what) = run.fault_after(before) {
            return Err(Fault { place, what });
        }
        let distance = run.start - before.map_or(0, |before| before.end);
        put_numbers(&mut schedule, &[distance, run.end - run.start, run.level]);
        before = Some(run);
    }
    Ok(schedule)
}

/// One record, of the bytes that `lookup` names: the run's distance from the end
/// of the one before it, its length and its level.
pub fn decode_record(record: &[u8]) -> Result<[u64; 3], Fault> {
    let mut reader = Reader {
        bytes: record,
        at: 0,
    };
    let numbers = reader.numbers()?;
    reader.end()?;
    Ok(numbers)
}
