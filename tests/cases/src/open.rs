//! The families of open jobs: lists of calls on one memory.

use std::collections::BTreeMap;

use reference::job;
use reference::memory::BYTES;
use reference::open::{MOST_STANDING, Name, STATES};
use reference::planned;

use crate::Random;
use crate::compare::{Checker, Step};
pub use crate::draft::hazard;
use crate::draft::{Draft, FIELDS, number_bytes, range};
use crate::families::{KINDS, Outcome, accepted_of_kind, around};
use crate::faults::{BAD_SIDES, Broken, FAULTS, GREATEST_READ, wrong_forms};
use crate::jobs;

/// Hazards by their names.
pub type Standing = BTreeMap<Name, [u64; FIELDS]>;

/// The memory of an open job; and by the replies to the calls, the hazards that
/// stand, and those that stood when each state was last kept.
#[derive(Clone)]
pub struct Open {
    pub memory: [u8; BYTES],
    pub header: Draft,
    pub standing: Standing,
    pub kept: [Option<Standing>; STATES],
}

impl Open {
    /// Opens a job without hazards in memory of any content.
    pub fn new(
        checker: &mut Checker,
        random: &mut Random,
        draft: &Draft,
    ) -> Result<Open, Difference> {
        let mut open = Open {
            memory: any_memory(random),
            header: draft.clone().with_hazards(&[]),
            standing: Standing::new(),
            kept: [const { None }; STATES],
        };
        open.open(checker, open.header.bytes())?;
        Ok(open)
    }

    fn open(&mut self, checker: &mut Checker, bytes: Vec<u8>) -> Outcome {
        let reply = checker.step(&mut self.memory, Step::Open { bytes })?;
        if reply.number == 0 {
            self.standing.clear();
            self.kept.fill(None);
        }
        Ok(())
    }

    pub fn add(&mut self, checker: &mut Checker, name: Name, fields: [u64; FIELDS]) -> Outcome {
        let step = Step::Add {
            name,
            hazard: hazard(fields),
        };
        if checker.step(&mut self.memory, step)?.number == 0 {
            self.standing.insert(name, fields);
        }
        Ok(())
    }

    /// Adds the hazards of a job under any names.
    pub fn add_all(
        &mut self,
        checker: &mut Checker,
        random: &mut Random,
        draft: &Draft,
    ) -> Outcome {
        for fields in &draft.hazards {
            self.add(checker, any_name(random), *fields)?;
        }
        Ok(())
    }

    pub fn withdraw(&mut self, checker: &mut Checker, name: Name) -> Outcome {
        let reply = checker.step(&mut self.memory, Step::Withdraw { name })?;
        if reply.number == 0 {
            self.standing.remove(&name);
        }
        Ok(())
    }

    pub fn keep(&mut self, checker: &mut Checker, state: u64) -> Outcome {
        let reply = checker.step(&mut self.memory, Step::Keep { state })?;
        if reply.number == 0 {
            self.kept[state as usize] = Some(self.standing.clone());
        }
        Ok(())
    }

    pub fn return_to(&mut self, checker: &mut Checker, state: u64) -> Outcome {
        let reply = checker.step(&mut self.memory, Step::Return { state })?;
        if reply.number == 0 {
            let kept = self.kept[state as usize].clone();
            self.standing = kept.expect("a state that was kept");
        }
        Ok(())
    }

    /// One of the names that stand, if there is one.
    fn standing_name(&self, random: &mut Random) -> Name {
        let names: Vec<Name> = self.standing.keys().copied().collect();
        match names.is_empty() {
            true => any_name(random),
            false => random.pick(&names),
        }
    }

    /// A name that does not stand.
    fn free_name(&self, random: &mut Random) -> Name {
        loop {
            let name = any_name(random);
            if !self.standing.contains_key(&name) {
                return name;
            }
        }
    }

    /// The job made from the header and the hazards that stand, in any order.
    fn job(&self, random: &mut Random) -> Vec<u8> {
        let mut hazards: Vec<[u64; FIELDS]> = self.standing.values().copied().collect();
        random.shuffle(&mut hazards);
        self.header.clone().with_hazards(&hazards).bytes()
    }

    /// One schedule with an output that is long enough or not.
    fn schedule(&self, checker: &mut Checker, random: &mut Random) -> Outcome {
        let side = match random.below(8) {
            0 => random.pick(&BAD_SIDES),
            _ => random.below(2),
        };
        let needed = planned(&self.job(random), side).map_or(0, |bytes| bytes.len());
        let length = match random.below(5) {
            0 => random.index(needed + 1),
            1 => needed + random.index(40),
            _ => needed,
        };
        checker.open_schedule(&self.memory, side, length)?;
        Ok(())
    }

    /// Both schedules are those that plan gives for the hazards that stand.
    pub fn as_planned(&self, checker: &mut Checker, random: &mut Random) -> Outcome {
        let job = self.job(random);
        for side in 0..2 {
            let schedule = planned(&job, side).expect("the hazards that stand are accepted");
            checker.plan(&job, side, schedule.len())?;
            checker.open_schedule(&self.memory, side, schedule.len())?;
            // Each agreed with the reference, so this asks the reference alone.
            let mut out = vec![0; schedule.len()];
            let planned = reference::plan(&job, side, &mut schedule.clone());
            let of_open_job = reference::open_schedule(&self.memory, side, &mut out);
            assert_eq!(
                (of_open_job, out),
                (planned, schedule),
                "the reference's open job differs from its plan"
            );
        }
        Ok(())
    }
}

pub type Difference = Box<crate::Difference>;

pub fn any_memory(random: &mut Random) -> [u8; BYTES] {
    match random.below(3) {
        0 => [0; BYTES],
        1 => [random.draw() as u8; BYTES],
        _ => random_memory(random),
    }
}

pub fn random_memory(random: &mut Random) -> [u8; BYTES] {
    let mut memory = [0; BYTES];
    for bytes in memory.chunks_mut(8) {
        let drawn = random.draw().to_le_bytes();
        bytes.copy_from_slice(&drawn[..bytes.len()]);
    }
    memory
}

/// A job whose header is accepted; most of its hazards are, each alone.
pub fn source(random: &mut Random) -> Draft {
    loop {
        let mut draft = match random.below(10) {
            0..=3 => jobs::small(random),
            4..=5 => jobs::wide(random),
            6..=8 => jobs::national(random),
            _ => jobs::dense(random, 30),
        };
        if draft.hazards.is_empty() {
            continue;
        }
        draft.hazards.truncate(30);
        if job::read(&draft.bytes()).is_ok() {
            return draft;
        }
    }
}

// Lists of calls.

pub fn lists(checker: &mut Checker, random: &mut Random) -> Outcome {
    for _ in 0..250 {
        list(checker, random)?;
    }
    Ok(())
}

/// Tens of calls with few names, so that they often stand already or not. At the
/// end each state that is kept, one after the other.
fn list(checker: &mut Checker, random: &mut Random) -> Outcome {
    let draft = source(random);
    let mut open = after_calls(checker, random, &draft)?;
    open.as_planned(checker, random)?;
    for state in 0..STATES as u64 {
        open.return_to(checker, state)?;
        if random.percent(25) {
            open.as_planned(checker, random)?;
        }
    }
    Ok(())
}

/// An open job after tens of calls with hazards of this job.
pub fn after_calls(
    checker: &mut Checker,
    random: &mut Random,
    draft: &Draft,
) -> Result<Open, Difference> {
    let names = few_names(random);
    let mut open = Open::new(checker, random, draft)?;
    for _ in 0..random.between(10, 60) {
        let name = random.pick(&names);
        match random.below(100) {
            0..=49 => {
                let fields = draft.hazards[random.index(draft.hazards.len())];
                let fields = faulty(random, draft, fields);
                open.add(checker, name, fields)?;
            }
            50..=67 => open.withdraw(checker, name)?,
            68..=77 => open.keep(checker, state(random))?,
            78..=87 => open.return_to(checker, state(random))?,
            88..=97 => open.schedule(checker, random)?,
            _ => open.open(checker, opening(random, draft))?,
        }
    }
    Ok(open)
}

/// The state numbers mostly, few of them more often than others; some above 7,
/// among them such as are below 8 in one byte or in 32 bits.
pub fn state(random: &mut Random) -> u64 {
    match random.below(10) {
        0 => random.pick(&[8, 9, 255, u64::MAX]),
        1 => random.pick(&[8, 256, 1 << 32, 1 << 63]) + random.below(8),
        2..=4 => random.below(8),
        _ => random.below(3),
    }
}

/// The ends of what a byte and two bytes hold, with a sign and without.
const NAMES: [Name; 12] = [
    0, 1, 127, 128, 254, 255, 256, 257, 32_767, 32_768, 65_534, 65_535,
];

/// Any name, those of a byte and the ends more often than others.
pub fn any_name(random: &mut Random) -> Name {
    match random.below(4) {
        0 => byte_name(random),
        1 => random.pick(&NAMES),
        _ => random.draw() as Name,
    }
}

fn byte_name(random: &mut Random) -> Name {
    random.below(256) as Name
}

/// Few names: at times those of a byte alone, at times some that are alike in
/// their lower byte or in their upper one.
fn few_names(random: &mut Random) -> Vec<Name> {
    let bytes_alone = random.percent(30);
    let mut list: Vec<Name> = Vec::new();
    for _ in 0..random.between(1, 12) {
        let name = match random.below(4) {
            _ if bytes_alone => byte_name(random),
            0 if !list.is_empty() => random.pick(&list) ^ (256 * byte_name(random)),
            1 if !list.is_empty() => random.pick(&list) ^ byte_name(random),
            _ => any_name(random),
        };
        list.push(name);
    }
    list
}

/// At times a field at an end of its range or beyond it, one that 32 bits or
/// one byte do not hold, a hazard too near, one whose envelope leaves the road,
/// or one at an end of the road.
fn faulty(random: &mut Random, draft: &Draft, fields: [u64; FIELDS]) -> [u64; FIELDS] {
    let mut changed = fields;
    match random.below(12) {
        0..=1 => {
            let job = draft.clone().with_hazards(&[fields]);
            let field = random.index(FIELDS);
            let place = job.numbers().len() - FIELDS + field;
            let values = around(range(&job.numbers(), place));
            changed[field] = random.pick(&values);
        }
        2 => {
            let field = random.index(FIELDS);
            changed[field] += random.pick(&[1 << 8, 1 << 16, 1 << 32, 1 << 40, 1 << 63]);
        }
        3 => {
            let mut broken = Broken::new(&draft.clone().with_hazards(&[fields]), 0);
            match random.below(3) {
                0 => broken.come_near(0),
                1 => broken.leave_road(0),
                _ => {
                    broken.come_near(0);
                    broken.leave_road(0);
                }
            }
            let first = broken.numbers.len() - FIELDS;
            changed.copy_from_slice(&broken.numbers[first..]);
        }
        4..=5 => {
            let moved = jobs::at_road_ends(draft, fields);
            if !moved.is_empty() {
                changed = random.pick(&moved);
            }
        }
        _ => (),
    }
    changed
}

/// 256 hazards that are accepted.
fn full_draft(random: &mut Random) -> Draft {
    let side = random.below(2);
    let draft = match random.percent(50) {
        true => jobs::sparse(random, 256),
        false => jobs::islands(random, side, 255),
    };
    match random.percent(50) {
        true => jobs::far_away(draft, random),
        false => draft,
    }
}

/// 256 names in rising order: those of a byte, the last that there are, or such
/// as lie far from each other.
fn full_names(random: &mut Random) -> Vec<Name> {
    let first = random.pick(&[0, 0, 200, 65_280]);
    match random.percent(60) {
        true => (first..=first + 255).collect(),
        false => (0..=255)
            .map(|high| 256 * high + byte_name(random))
            .collect(),
    }
}

/// 256 hazards stand under these names, added in no order.
fn full(
    checker: &mut Checker,
    random: &mut Random,
    draft: &Draft,
    mut names: Vec<Name>,
) -> Result<Open, Difference> {
    random.shuffle(&mut names);
    let mut open = Open::new(checker, random, draft)?;
    for (name, fields) in names.iter().zip(&draft.hazards) {
        open.add(checker, *name, *fields)?;
    }
    Ok(open)
}

/// 256 hazards under names of a byte, then under others.
pub fn full_jobs(checker: &mut Checker, random: &mut Random) -> Outcome {
    let spread = (0..=255).map(|index| 257 * index).collect();
    for names in [(0..=255).collect(), full_names(random), spread] {
        full_job(checker, random, names)?;
    }
    Ok(())
}

/// More hazards than may stand, under names that stand and under others; room
/// made and used again; a full job kept and returned to; then all withdrawn.
fn full_job(checker: &mut Checker, random: &mut Random, names: Vec<Name>) -> Outcome {
    let draft = full_draft(random);
    let any_hazard = |random: &mut Random| draft.hazards[random.index(MOST_STANDING)];
    let mut open = full(checker, random, &draft, names)?;
    open.as_planned(checker, random)?;
    for _ in 0..15 {
        let fields = any_hazard(random);
        let name = match random.percent(40) {
            true => open.standing_name(random),
            false => open.free_name(random),
        };
        open.add(checker, name, faulty(random, &draft, fields))?;
    }
    for _ in 0..20 {
        let withdrawn = open.standing_name(random);
        open.withdraw(checker, withdrawn)?;
        // The name comes back, or another takes the room.
        let name = match random.percent(50) {
            true => withdrawn,
            false => open.free_name(random),
        };
        open.add(checker, name, any_hazard(random))?;
        let name = open.free_name(random);
        open.add(checker, name, any_hazard(random))?;
    }
    open.keep(checker, 5)?;
    for _ in 0..2 {
        let name = open.standing_name(random);
        open.withdraw(checker, name)?;
    }
    open.keep(checker, 6)?;
    for (state, more) in [(5, 1), (6, 3)] {
        open.return_to(checker, state)?;
        for _ in 0..more {
            let name = open.free_name(random);
            open.add(checker, name, any_hazard(random))?;
        }
    }
    open.as_planned(checker, random)?;
    let mut names: Vec<Name> = open.standing.keys().copied().collect();
    random.shuffle(&mut names);
    for name in names {
        open.withdraw(checker, name)?;
    }
    open.as_planned(checker, random)
}

/// Eight states of some 256 hazards each, the first of all of them; each
/// returned to, in no order.
pub fn full_states(checker: &mut Checker, random: &mut Random) -> Outcome {
    let draft = full_draft(random);
    let names = full_names(random);
    let mut open = full(checker, random, &draft, names)?;
    let mut states: Vec<u64> = (0..STATES as u64).collect();
    random.shuffle(&mut states);
    for state in &states {
        open.keep(checker, *state)?;
        for _ in 0..random.between(1, 3) {
            let name = open.standing_name(random);
            open.withdraw(checker, name)?;
        }
    }
    random.shuffle(&mut states);
    for state in states {
        open.return_to(checker, state)?;
        open.as_planned(checker, random)?;
        let name = open.standing_name(random);
        open.withdraw(checker, name)?;
        open.add(checker, name, draft.hazards[random.index(256)])?;
    }
    Ok(())
}

/// An open job in which the hazards of an accepted job stand.
pub fn standing(
    checker: &mut Checker,
    random: &mut Random,
    draft: &Draft,
) -> Result<Open, Difference> {
    let mut open = Open::new(checker, random, draft)?;
    open.add_all(checker, random, draft)?;
    Ok(open)
}

/// The same with three states that are kept: of all that stands, of all but one
/// hazard, and of nothing.
pub fn standing_and_kept(
    checker: &mut Checker,
    random: &mut Random,
    draft: &Draft,
) -> Result<Open, Difference> {
    let mut states: Vec<u64> = (0..STATES as u64).collect();
    random.shuffle(&mut states);
    let mut open = Open::new(checker, random, draft)?;
    open.keep(checker, states[0])?;
    open.add_all(checker, random, draft)?;
    open.keep(checker, states[1])?;
    let first = open.standing.keys().next().copied();
    open.withdraw(checker, first.unwrap_or(0))?;
    open.keep(checker, states[2])?;
    Ok(open)
}

// Openings.

/// The bytes of an opening: mostly the header alone, at times with a fault.
fn opening(random: &mut Random, draft: &Draft) -> Vec<u8> {
    let mut empty = draft.clone().with_hazards(&[]).bytes();
    match random.below(6) {
        0 => draft.bytes(),
        1 => {
            empty.truncate(random.index(empty.len()));
            empty
        }
        2 => {
            empty.push(random.draw() as u8);
            empty
        }
        _ => empty,
    }
}

/// Every refusal of an opening in every place, on memory of any content and on
/// memory of an open job with hazards.
pub fn openings(checker: &mut Checker, random: &mut Random) -> Outcome {
    for kind in [KINDS, KINDS].concat() {
        let draft = accepted_of_kind(random, kind, 1, 4);
        let mut memory = standing_and_kept(checker, random, &draft)?.memory;
        let empty = draft.clone().with_hazards(&[]);
        let numbers = empty.numbers();
        for place in 0..numbers.len() {
            let before = number_bytes(&numbers[..place]);
            let behind = number_bytes(&numbers[place + 1..]);
            let forms = wrong_forms(numbers[place]);
            let form = &forms[random.index(forms.len())];
            let whole = [&before[..], form, &behind].concat();
            checker.step(&mut memory, Step::Open { bytes: whole })?;
            for value in around(range(&numbers, place)) {
                let bytes = [&before[..], &number_bytes(&[value]), &behind].concat();
                let mut memory = match random.percent(50) {
                    true => memory,
                    false => any_memory(random),
                };
                checker.step(&mut memory, Step::Open { bytes })?;
            }
            let bytes = before;
            checker.step(&mut memory, Step::Open { bytes })?;
        }
        hazard_counts(checker, random, &draft, &memory)?;
        for _ in 0..30 {
            let mut broken = Broken::new(&empty, 0);
            broken.add(random.pick(&FAULTS[..4]), random);
            broken.add(random.pick(&FAULTS[..4]), random);
            let bytes = broken.bytes();
            checker.step(&mut memory.clone(), Step::Open { bytes })?;
        }
        let bytes = empty.bytes();
        checker.step(&mut memory, Step::Open { bytes })?;
    }
    Ok(())
}

/// Jobs with hazards; the bytes end, go on or have faults behind the count.
fn hazard_counts(
    checker: &mut Checker,
    random: &mut Random,
    draft: &Draft,
    memory: &[u8; BYTES],
) -> Outcome {
    let mut list = vec![draft.bytes()];
    let mut cut = draft.bytes();
    cut.truncate(random.between(1, cut.len() as u64) as usize);
    list.push(cut);
    let mut behind = draft.bytes();
    behind.push(random.draw() as u8);
    list.push(behind);
    for count in [1, 2, 255, 256, 257, 1 << 32, GREATEST_READ] {
        let mut numbers = draft.clone().with_hazards(&[]).numbers();
        let last = numbers.len() - 1;
        numbers[last] = count;
        list.push(number_bytes(&numbers));
    }
    for bytes in list {
        checker.step(&mut memory.clone(), Step::Open { bytes })?;
    }
    Ok(())
}
