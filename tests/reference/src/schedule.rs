//! The schedule of one side: writing and reading.

use std::ops::Range;

use crate::job::LAST_STATION;
use crate::level::{HIGHEST, Run};
use crate::number;
use crate::stretch::Stretch;

/// A run list has at most this many runs.
pub const MOST_RUNS: usize = 511;

/// A run and the bytes of its three numbers in the schedule.
#[derive(Clone, Debug, PartialEq, Eq)]
pub struct Record {
    pub run: Run,
    pub bytes: Range<usize>,
}

/// The run count, then for each run its start less the previous run's end
/// (less 0 for the first), its length and its level. The runs are rising.
pub fn writing(runs: &[Run]) -> Vec<u8> {
    let mut bytes = Vec::new();
    let mut previous_end = 0;
    number::write(runs.len() as u64, &mut bytes);
    for run in runs {
        number::write(run.stretch.start - previous_end, &mut bytes);
        number::write(run.stretch.length(), &mut bytes);
        number::write(run.level, &mut bytes);
        previous_end = run.stretch.end;
    }
    bytes
}

/// At most 511 runs, lengths from 1, levels 1 to 6, ends up to
/// 1,000,000,000,000, rising, touching runs of different level.
pub fn is_run_list(runs: &[Run]) -> bool {
    runs.len() <= MOST_RUNS
        && runs.iter().all(is_run)
        && runs.windows(2).all(|pair| may_follow(&pair[0], &pair[1]))
}

fn is_run(run: &Run) -> bool {
    run.stretch.length() >= 1
        && (1..=HIGHEST).contains(&run.level)
        && run.stretch.end <= LAST_STATION
}

fn may_follow(run: &Run, next: &Run) -> bool {
    let touching = run.stretch.end == next.stretch.start;
    run.stretch.end <= next.stretch.start && !(touching && run.level == next.level)
}

/// The records of a schedule; none if the bytes are not the writing of a run
/// list.
pub fn read(schedule: &[u8]) -> Option<Vec<Record>> {
    let records = records(schedule)?;
    let runs: Vec<Run> = records.iter().map(|record| record.run).collect();
    let is_writing = is_run_list(&runs) && writing(&runs) == schedule;
    is_writing.then_some(records)
}

/// The numbers of a schedule as records, whatever their values are. The bound
/// on the count keeps the sum of the numbers far inside 64 bits.
fn records(schedule: &[u8]) -> Option<Vec<Record>> {
    let mut records = Vec::new();
    let count = number::read(schedule, 0).ok()?;
    if count.value > MOST_RUNS as u64 {
        return None;
    }
    let mut begin = count.next;
    let mut previous_end = 0;
    for _ in 0..count.value {
        let record = record(schedule, begin, previous_end)?;
        begin = record.bytes.end;
        previous_end = record.run.stretch.end;
        records.push(record);
    }
    Some(records)
}

fn record(schedule: &[u8], begin: usize, previous_end: u64) -> Option<Record> {
    let distance = number::read(schedule, begin).ok()?;
    let length = number::read(schedule, distance.next).ok()?;
    let level = number::read(schedule, length.next).ok()?;
    let start = previous_end + distance.value;
    Some(Record {
        run: Run {
            stretch: Stretch::new(start, start + length.value),
            level: level.value,
        },
        bytes: begin..level.next,
    })
}

#[cfg(test)]
mod tests {
    use super::*;

    fn run(start: u64, end: u64, level: u64) -> Run {
        Run {
            stretch: Stretch::new(start, end),
            level,
        }
    }

    fn is_read(runs: &[Run]) -> bool {
        read(&writing(runs)).is_some()
    }

    #[test]
    fn reading_gives_back_the_runs() {
        let runs = [run(0, 5, 1), run(5, 300, 6), run(1_000, LAST_STATION, 6)];
        let bytes = writing(&runs);
        let records = read(&bytes).unwrap();
        let back: Vec<Run> = records.iter().map(|r| r.run).collect();
        assert_eq!(back, runs);
        assert_eq!(records[0].bytes, 1..4);
        assert_eq!(records[1].bytes, 4..8);
        assert_eq!(records[2].bytes.end, bytes.len());
    }

    #[test]
    fn ends_of_a_run_list() {
        assert!(is_read(&[]));
        assert!(!is_read(&[run(5, 5, 1)]));
        assert!(!is_read(&[run(5, 6, 0)]));
        assert!(!is_read(&[run(5, 6, 7)]));
        assert!(is_read(&[run(5, LAST_STATION, 6)]));
        assert!(!is_read(&[run(5, LAST_STATION + 1, 6)]));
        assert!(!is_read(&[run(5, 6, 2), run(6, 7, 2)]));
        assert!(is_read(&[run(5, 6, 2), run(6, 7, 3)]));
        assert!(is_read(&[run(5, 6, 2), run(7, 8, 2)]));
    }

    #[test]
    fn most_runs() {
        let many: Vec<Run> = (0..512).map(|i| run(2 * i, 2 * i + 1, 1)).collect();
        assert!(is_read(&many[..511]));
        assert!(!is_read(&many));
    }

    #[test]
    fn only_the_writing() {
        assert!(read(&[]).is_none());
        assert!(read(&[0x00]).is_some());
        assert!(read(&[0x00, 0x00]).is_none(), "a byte left over");
        assert!(read(&[0x80, 0x00]).is_none(), "not the shortest form");
        assert!(read(&[0x01, 0x00, 0x01]).is_none(), "a number missing");
        assert!(read(&[0x01, 0x80, 0x00, 0x01, 0x01]).is_none());
        assert!(read(&[0xFF; 40]).is_none());
    }
}
