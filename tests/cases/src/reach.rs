//! The families of jobs with one hazard less, and what is asked of their
//! schedules.

use std::fmt;

use reference::job::{self, Job, LAST_STATION};
use reference::level::Run;
use reference::memory::{self, BYTES};
use reference::open::Name;
use reference::reach::{altered, outside, reach_on};
use reference::{Stretch, calls, planned, schedule};

use crate::Random;
use crate::calls::Reply;
use crate::compare::{Checker, reply_text};
use crate::draft::{A, B, Draft, E, G, LEVEL, LO, PRINTED, S, SIDE};
use crate::families::{self, Outcome};
use crate::{hex, jobs, open};

/// The schedules of both sides, right first, or the refusals in their place.
pub type Sides = [Result<Vec<u8>, Reply>; 2];

/// How far a hazard reaches on each side, right first.
pub type Reach = [Option<Stretch>; 2];

/// The schedules with a hazard and without it.
pub struct Sheets {
    pub before: Sides,
    pub after: Sides,
}

impl fmt::Display for Sheets {
    fn fmt(&self, f: &mut fmt::Formatter) -> fmt::Result {
        let text = |side: &Result<Vec<u8>, Reply>| match side {
            Ok(schedule) => hex::write(schedule),
            Err(refusal) => reply_text(*refusal),
        };
        let [right, left] = self.before.each_ref().map(text);
        write!(f, "before: right {right} left {left}, ")?;
        let [right, left] = self.after.each_ref().map(text);
        write!(f, "after: right {right} left {left}")
    }
}

pub fn both_sides<T>(mut of_side: impl FnMut(u64) -> T) -> [T; 2] {
    [of_side(0), of_side(1)]
}

/// A job without one of its hazards, and how far that one reaches.
pub struct Without {
    pub job: Vec<u8>,
    pub reach: Reach,
}

/// None if the job is not accepted or has no such hazard.
pub fn without(bytes: &[u8], hazard: u64) -> Option<Without> {
    let job = calls::accepted(bytes).ok()?;
    let index = usize::try_from(hazard).ok()?;
    let hazard = job.hazards.get(index)?;
    Some(Without {
        job: bytes_of(&reference::reach::without(&job, index)),
        reach: both_sides(|side| reach_on(&job, hazard, side)),
    })
}

pub fn bytes_of(job: &Job) -> Vec<u8> {
    let draft = Draft {
        header: memory::header_numbers(job),
        hazards: job.hazards.iter().map(job::fields).collect(),
    };
    draft.bytes()
}

/// How far the hazard of this name reaches; a withdrawal that is refused reaches
/// nowhere.
pub fn of_withdrawal(memory: &[u8; BYTES], name: Name) -> Reach {
    let open = memory::read(memory);
    both_sides(|side| {
        let open = open.as_ref()?;
        reach_on(&open.header, open.standing.get(&name)?, side)
    })
}

/// What differs from the reference.
pub fn note_reference(what: &mut Vec<String>, expected: &Sheets, got: &Sheets) {
    for (side, name) in SIDES {
        if expected.before[side] != got.before[side] {
            what.push(format!("the {name} schedule before"));
        }
        if expected.after[side] != got.after[side] {
            what.push(format!("the {name} schedule after"));
        }
    }
}

const SIDES: [(usize, &str); 2] = [(0, "right"), (1, "left")];

/// What the engine's own schedules show against each other: with the hazard and
/// without it none is refused, and none alters where the hazard does not reach.
/// Where it reaches nothing, they are the same byte for byte.
pub fn note_reach(what: &mut Vec<String>, got: &Sheets, reach: &Reach) {
    for (side, name) in SIDES {
        let (Ok(before), Ok(after)) = (&got.before[side], &got.after[side]) else {
            what.push(format!("a refusal for the {name} side"));
            continue;
        };
        let bytes_alter = reach[side].is_none() && before != after;
        match (runs(before), runs(after)) {
            (Some(before), Some(after)) => {
                let beyond = outside(&altered(&before, &after), reach[side]);
                if let Some(Stretch { start, end }) = beyond.first() {
                    let beyond = format!("[{start}, {end}) of the {name} side alters");
                    what.push(format!("{beyond}, beyond the hazard's reach"));
                } else if bytes_alter {
                    what.push(format!("the {name} side's bytes alter"));
                }
            }
            _ => what.push(format!("no schedule of the {name} side")),
        }
    }
}

/// The runs of a schedule; none if it is not the writing of a run list.
pub fn runs(bytes: &[u8]) -> Option<Vec<Run>> {
    let records = schedule::read(bytes)?;
    Some(records.into_iter().map(|record| record.run).collect())
}

// The cases.

/// Accepted jobs, most of them with hazards whose envelopes nearly meet and with
/// some that are equal, or equal but for the side.
pub fn job_of_one_less(random: &mut Random) -> Draft {
    loop {
        let mut draft = families::accepted(random, 1, 10);
        if random.percent(60) {
            lay_in_a_row(&mut draft, random);
        }
        if random.percent(40) {
            add_twins(&mut draft, random);
        }
        if planned(&draft.bytes(), 0).is_ok() {
            return draft;
        }
    }
}

/// Each hazard moved behind the envelope of the one before, as far as the road
/// goes; few levels.
fn lay_in_a_row(draft: &mut Draft, random: &mut Random) {
    if random.percent(50) {
        draft.header[G] = random.between(2, draft.header[G].max(2));
    }
    if random.percent(50) {
        let first = draft.hazards[0][LEVEL];
        for hazard in &mut draft.hazards {
            hazard[LEVEL] = random.pick(&[first, first, first, hazard[LEVEL]]);
        }
    }
    for second in 1..draft.hazards.len() {
        jobs::move_behind(draft, second - 1, second, random);
    }
    random.shuffle(&mut draft.hazards);
}

fn add_twins(draft: &mut Draft, random: &mut Random) {
    for _ in 0..random.between(1, 2) {
        let mut twin = draft.hazards[random.index(draft.hazards.len())];
        if random.percent(30) {
            twin[SIDE] = 1 - twin[SIDE];
        }
        let at = random.index(draft.hazards.len() + 1);
        draft.hazards.insert(at, twin);
    }
}

/// The least and the greatest G that fills a gap and some between, with three
/// hazards of one level in a row: gaps of G − 1 on both sides of the one in the
/// middle. On either side, in both kinds, on one-way and two-way roads, near the
/// datum and up to the last station, there with the first and the last envelope
/// cut.
pub fn rows(random: &mut Random) -> Vec<Draft> {
    let mut list = Vec::new();
    for (limit, side) in [(2, 0), (50, 1), (50_000, 0), (200_000, 1)] {
        for panel in [None, Some(4_000)] {
            for two_way in [false, true] {
                let draft = PRINTED.with(G, limit);
                let draft = match two_way {
                    true => draft.with(LO, 88_000),
                    false => draft,
                };
                let draft = match panel {
                    Some(panel) => draft.in_panels(panel),
                    None => draft,
                };
                list.push(row(draft.with(B, 2_000_000), random, side));
            }
        }
    }
    let far = list.clone().into_iter().map(cut_at_its_hazards);
    list.extend(far.map(|draft| {
        let furthest = LAST_STATION - draft.header[B];
        draft.moved(furthest)
    }));
    list
}

/// The road from the first hazard on and up to a millimetre behind the last, so
/// that the approaches at its ends are cut.
fn cut_at_its_hazards(mut draft: Draft) -> Draft {
    if let Some(hazards) = jobs::taken(&draft.hazards, &[]) {
        draft.header[A] = hazards.start;
        draft.header[B] = hazards.end + 1;
    }
    draft
}

fn row(draft: Draft, random: &mut Random, side: u64) -> Draft {
    let level = random.between(1, 6);
    let hazard = [side, 200_000, 210_000, 5_000, 9_000, level];
    let alone = draft.clone().with_hazards(&[hazard]);
    let envelopes = jobs::envelopes(&alone).unwrap_or_default();
    let length = envelopes.first().map_or(0, |e| e.stretch.length());
    let step = length + draft.header[G] - 1;
    let hazards = [0, 1, 2].map(|place| {
        let mut moved = hazard;
        moved[S] += place * step;
        moved[E] += place * step;
        moved
    });
    draft.with_hazards(&hazards)
}

/// The jobs of one round.
pub fn jobs_of_a_round(random: &mut Random) -> Vec<Draft> {
    let mut list = rows(random);
    for _ in 0..60 {
        list.push(job_of_one_less(random));
    }
    let side = random.below(2);
    for mut draft in [
        jobs::islands(random, side, 255),
        jobs::dense(random, 256),
        jobs::sparse(random, 256),
    ] {
        random.shuffle(&mut draft.hazards);
        list.push(draft);
    }
    list
}

/// Each hazard of a job, or some of many.
pub fn some_hazards(random: &mut Random, count: usize) -> Vec<u64> {
    let mut list: Vec<u64> = (0..count as u64).collect();
    if count > 20 {
        random.shuffle(&mut list);
        list.truncate(6);
    }
    list
}

/// The jobs of one round, each asked with some of its hazards.
pub fn each_hazard(random: &mut Random, mut ask: impl FnMut(&[u8], u64) -> Outcome) -> Outcome {
    for draft in jobs_of_a_round(random) {
        let job = draft.bytes();
        for hazard in some_hazards(random, draft.hazards.len()) {
            ask(&job, hazard)?;
        }
    }
    Ok(())
}

/// Each hazard removed in turn.
pub fn one_less(checker: &mut Checker, random: &mut Random) -> Outcome {
    each_hazard(random, |job, hazard| checker.one_less(job, hazard))
}

/// After a list of calls each hazard that stands withdrawn, each time from the
/// same memory, and a name that does not stand; then all, one after the other.
pub fn open_one_less(checker: &mut Checker, random: &mut Random) -> Outcome {
    for draft in rows(random).into_iter().take(8) {
        let mut open = open::Open::new(checker, random, &draft)?;
        open.add_all(checker, random, &draft)?;
        each_withdrawn(checker, random, open)?;
    }
    for index in 0..40 {
        let draft = match index % 2 {
            0 => open::source(random),
            _ => job_of_one_less(random),
        };
        let mut open = open::after_calls(checker, random, &draft)?;
        open.add_all(checker, random, &draft)?;
        each_withdrawn(checker, random, open)?;
    }
    Ok(())
}

fn each_withdrawn(checker: &mut Checker, random: &mut Random, mut open: open::Open) -> Outcome {
    let mut names: Vec<Name> = open.standing.keys().copied().collect();
    random.shuffle(&mut names);
    for name in &names {
        checker.open_one_less(&open.memory, *name)?;
    }
    checker.open_one_less(&open.memory, open::any_name(random))?;
    for name in names {
        open.withdraw(checker, name)?;
        if let Some(next) = open.standing.keys().next() {
            checker.open_one_less(&open.memory, *next)?;
        }
    }
    Ok(())
}
