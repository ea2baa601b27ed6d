//! What the owner demands of the schedules, asked of the reference.

use cases::draft::{Draft, G, KIND};
use cases::{Random, jobs};
use reference::calls::required;
use reference::envelope::{self, Envelope};
use reference::level::{self, Required, Run};
use reference::{Outcome, Stretch, job, lookup, schedule};

const JOBS: u64 = 1_500;

/// Accepted jobs, small and wide ones in turn.
fn accepted(family: &str) -> Vec<Draft> {
    let mut random = Random::new(1, family);
    let mut list = Vec::new();
    for index in 0..JOBS {
        let draft = match index % 2 {
            0 => jobs::small(&mut random),
            _ => jobs::wide(&mut random),
        };
        if required(&draft.bytes(), 0).is_ok() {
            list.push(draft);
        }
    }
    list
}

fn required_on(draft: &Draft, side: u64) -> Required {
    required(&draft.bytes(), side).expect("the job is accepted")
}

fn envelopes(draft: &Draft, side: u64) -> Vec<Envelope> {
    let job = job::read(&draft.bytes()).expect("the job is accepted");
    let all = envelope::envelopes(&job).expect("the job is accepted");
    all.into_iter().filter(|e| e.side == side).collect()
}

fn planned(draft: &Draft, side: u64) -> Vec<u8> {
    reference::planned(&draft.bytes(), side).expect("the job is accepted")
}

fn runs(schedule: &[u8]) -> Vec<Run> {
    let records = schedule::read(schedule).expect("a planned schedule is read");
    records.into_iter().map(|record| record.run).collect()
}

/// The stretches at which the runs show level v or higher.
fn shown(runs: &[Run], v: u64) -> Vec<Stretch> {
    let high_enough = runs.iter().filter(|run| run.level >= v);
    level::set(high_enough.map(|run| run.stretch).collect())
}

fn covers(set: &[Stretch], stretch: &Stretch) -> bool {
    set.iter()
        .any(|s| s.start <= stretch.start && stretch.end <= s.end)
}

/// The level that the right schedule shows at a station.
fn shows(schedule: &[u8], station: u64) -> u64 {
    let found = lookup(schedule, &[], 0, station);
    match found.outcome {
        Outcome::Found => u64::from(schedule[found.start + found.length - 1]),
        _ => 0,
    }
}

#[test]
fn each_envelope_is_covered_and_no_short_gap_is_left() {
    for draft in accepted("covered") {
        for side in 0..2 {
            let runs = runs(&planned(&draft, side));
            for envelope in envelopes(&draft, side) {
                assert!(covers(&shown(&runs, envelope.level), &envelope.stretch));
            }
            for v in 1..=level::HIGHEST {
                let gaps = level::gaps(&shown(&runs, v));
                assert!(gaps.iter().all(|gap| gap.length() >= draft.header[G]));
            }
        }
    }
}

#[test]
fn reading_gives_back_the_levels() {
    for draft in accepted("read").into_iter().take(600) {
        let required = required_on(&draft, 0);
        let schedule = planned(&draft, 0);
        for run in runs(&schedule) {
            let Stretch { start, end } = run.stretch;
            for station in [start.saturating_sub(1), start, end - 1, end] {
                let level = shows(&schedule, station);
                assert_eq!(level, required.level(station));
                assert_eq!(reference::level(&draft.bytes(), 0, station), Ok(level));
            }
        }
    }
}

#[test]
fn a_further_hazard_lowers_no_level() {
    let mut random = Random::new(1, "further");
    for draft in accepted("further") {
        if draft.hazards.is_empty() {
            continue;
        }
        let mut fewer = draft.clone();
        fewer.hazards.remove(random.index(draft.hazards.len()));
        random.shuffle(&mut fewer.hazards);
        for side in 0..2 {
            let more = required_on(&draft, side);
            for run in runs(&planned(&fewer, side)) {
                assert!(covers(more.set(run.level), &run.stretch));
            }
        }
    }
}

#[test]
fn kind_1_acts_as_panel_length_1() {
    for draft in accepted("kinds") {
        if draft.header[KIND] == 1 {
            for side in 0..2 {
                let in_panels = draft.clone().in_panels(1);
                assert_eq!(planned(&draft, side), planned(&in_panels, side));
            }
        }
    }
}

#[test]
fn the_order_of_hazards_changes_nothing() {
    let mut random = Random::new(1, "order");
    for draft in accepted("order") {
        let mut shuffled = draft.clone();
        random.shuffle(&mut shuffled.hazards);
        for side in 0..2 {
            assert_eq!(planned(&draft, side), planned(&shuffled, side));
        }
    }
}
