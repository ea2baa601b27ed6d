//! The families of cases. Each makes its share of one round.

use reference::calls::required;
use reference::job::LAST_STATION;
use reference::level::{Required, Run};
use reference::{Stretch, planned, schedule};

use crate::Random;
use crate::compare::{Checker, Difference};
use crate::draft::{
    A, B, C, Draft, E, FIELDS, FLARE_B, G, KIND, LF, LO, M, N, PRINTED, S, SIDE, T, W,
    number_bytes, printed, range,
};
use crate::faults::{BAD_SIDES, Broken, FAULTS, GREAT_VALUES, wrong_forms};
use crate::{chainage, damaged, jobs, layouts, one_hazard, open, reach, reached};

pub type Outcome = Result<(), Box<Difference>>;

pub struct Family {
    pub name: &'static str,
    pub run: fn(&mut Checker, &mut Random) -> Outcome,
}

/// The short families stand first.
pub const ALL: &[Family] = &[
    family("the paper's own cases", paper),
    family("ends of every range", range_ends),
    family("every refusal in every place", every_place),
    family("envelopes at the road's ends", road_ends),
    family("two faults at once", two_faults),
    family("jobs cut at every byte", cut_jobs),
    family("schedules cut at every byte", cut_schedules),
    family("quantities over rising lists", rising_lists),
    family("quantities for whole contracts", contracts),
    family("lookups at every run's ends", run_ends),
    family("levels at every envelope's ends", levels),
    family("levels of refused jobs", refused_levels),
    family("corners of every hazard", one_hazard::corners),
    family("corners of refused jobs", one_hazard::refused_corners),
    family("smallest offsets", one_hazard::offsets),
    family(
        "smallest offsets of refused jobs",
        one_hazard::refused_offsets,
    ),
    family("reaches of every hazard", reached::reaches),
    family("reaches of refused jobs", reached::refused),
    family("jobs with one hazard less", reach::one_less),
    family("layouts of every limit", layouts::every_limit),
    family("layouts at random", layouts::at_random),
    family("layouts refused", layouts::refused),
    family("run lists and nearly run lists", run_lists),
    family("roads on the national chainage", chainage::roads),
    family("numbers of six bytes in jobs", chainage::six_bytes_in_jobs),
    family(
        "numbers of six bytes in schedules",
        chainage::six_bytes_in_schedules,
    ),
    family("schedules on the national chainage", chainage::schedules),
    family("sheets on the national chainage", chainage::sheets),
    family("open jobs, lists of calls", open::lists),
    family("open jobs, 256 hazards", open::full_jobs),
    family("open jobs, full states", open::full_states),
    family("open jobs, reaches of every name", reached::open_reaches),
    family("open jobs, one hazard less", reach::open_one_less),
    family("open jobs, openings", open::openings),
    family("open jobs, damaged memory", damaged::damaged_memory),
    family("jobs of 511 runs", most_runs),
    family("large random jobs", large_jobs),
    family("wide random jobs", wide_jobs),
    family("small random jobs", small_jobs),
    family("jobs with one byte changed", changed_jobs),
    family("schedules with one byte changed", changed_schedules),
];

const fn family(name: &'static str, run: fn(&mut Checker, &mut Random) -> Outcome) -> Family {
    Family { name, run }
}

fn needed(job: &[u8], side: u64) -> usize {
    planned(job, side).map_or(0, |schedule| schedule.len())
}

/// Exactly enough, one too short, longer, none.
pub fn plan_all_lengths(checker: &mut Checker, job: &[u8], side: u64) -> Outcome {
    let needed = needed(job, side);
    for length in [needed, needed.saturating_sub(1), needed + 1, needed + 33, 0] {
        checker.plan(job, side, length)?;
    }
    Ok(())
}

/// One length of output, exactly enough more often than others.
fn plan_one_length(checker: &mut Checker, random: &mut Random, job: &[u8], side: u64) -> Outcome {
    let needed = needed(job, side);
    let length = match random.below(8) {
        0 => 0,
        1 => needed.saturating_sub(1),
        2 => random.index(needed + 1),
        3 => needed + 1,
        4 => needed + random.index(60),
        _ => needed,
    };
    checker.plan(job, side, length)?;
    Ok(())
}

pub fn plan_both_sides(checker: &mut Checker, random: &mut Random, job: &[u8]) -> Outcome {
    for side in 0..2 {
        plan_one_length(checker, random, job, side)?;
    }
    Ok(())
}

/// A small or wide job that is accepted and has some hazards; at times far from
/// the datum.
pub fn accepted(random: &mut Random, least: usize, most: usize) -> Draft {
    loop {
        let mut draft = match random.below(10) {
            0..=4 => jobs::small(random),
            5..=6 => jobs::wide(random),
            _ => jobs::national(random),
        };
        draft.hazards.truncate(most);
        let enough = draft.hazards.len() >= least;
        if enough && planned(&draft.bytes(), 0).is_ok() {
            return draft;
        }
    }
}

/// The same of this kind.
pub fn accepted_of_kind(random: &mut Random, kind: u64, least: usize, most: usize) -> Draft {
    loop {
        let draft = accepted(random, least, most);
        if draft.header[KIND] == kind {
            return draft;
        }
    }
}

/// The kinds of a job.
pub const KINDS: [u64; 2] = [1, 2];

/// The planned schedules, right and left, of a random accepted job.
fn schedules(random: &mut Random, least: usize, most: usize) -> (Vec<u8>, Vec<u8>) {
    let job = accepted(random, least, most).bytes();
    let side = |side| planned(&job, side).unwrap_or_default();
    (side(0), side(1))
}

// The paper's own cases.

/// K1 to K10 with both halves, headwalls protected before the flare begins and
/// just not, each of them in whole panels too, and all on the left side too.
pub fn paper_jobs() -> Vec<Draft> {
    let k2 = printed().with(FLARE_B, 0);
    let k4 = k2.clone().with(LO, 101_000).with(W, 3_500);
    let mut list = vec![
        printed(),
        k2.clone(),
        k2.clone().with(LF, 88_000).with(C, 8_500).with(M, 2_000),
        k4.clone(),
        k4.clone().with_hazard(N, 5_499),
        k4.clone().with_hazard(N, 5_500),
        printed().with_hazard(N, 8_999),
        printed().with_hazard(N, 9_000),
        printed().with_hazard(N, 4_000),
        printed().with_hazard(N, 3_999),
        k2.clone().with_hazard(S, 67_334),
        k2.clone().with_hazard(S, 67_333),
        k4.clone().with(B, 238_056),
        k4.clone().with(B, 238_055),
        k4.clone().with(A, 200_000).with(B, 210_000),
        k4.clone().with_hazard(S, 0).with_hazard(E, 1_000_000),
        k9(49_999),
        k9(50_000),
        k10(50),
        k10(40),
        worked_example_3(),
        PRINTED,
    ];
    // Without flare 67,333 and a third; far traffic 28,055 and five ninths.
    let two_way = printed().with(LO, 101_000).with(W, 3_500);
    for straight in [28_055, 28_056, 67_333, 67_334, 80_000] {
        list.push(printed().with(T, straight));
        list.push(two_way.clone().with(T, straight));
    }
    // 28,000 without flare.
    for straight in [27_999, 28_000, 28_001] {
        list.push(worked_example_3().with(T, straight));
    }
    // 514 measures 67,334, 941 measures 44,227, and 4,000 measures 28,000.
    let in_panels =
        |draft: &Draft| [1, 514, 941, 4_000].map(|panel| draft.clone().in_panels(panel));
    let raised: Vec<Draft> = list.iter().flat_map(in_panels).collect();
    list.extend(raised);
    // The road's ends: 67,334 raised to 68,000, 28,056 to 32,000.
    let k4 = k4.in_panels(4_000);
    for (start, end) in [(68_000, 242_000), (67_999, 242_000), (68_000, 241_999)] {
        list.push(k4.clone().with_hazard(S, start).with(B, end));
    }
    let left: Vec<Draft> = list.iter().map(on_the_left).collect();
    list.extend(left);
    list
}

fn on_the_left(draft: &Draft) -> Draft {
    let mut draft = draft.clone();
    for hazard in &mut draft.hazards {
        hazard[SIDE] = 1;
    }
    draft
}

fn k9(apart: u64) -> Draft {
    let second = 210_000 + apart + 44_227;
    PRINTED.with(G, 50_000).with_hazards(&[
        [0, 200_000, 210_000, 5_000, 9_000, 2],
        [0, second, second + 1_000, 5_000, 9_000, 2],
    ])
}

/// A runout length of 1 without a flare makes each approach length 1.
fn k10(continuity: u64) -> Draft {
    let short = PRINTED.with(FLARE_B, 0).with(LF, 1);
    short
        .with(G, continuity)
        .with_hazards(&[[0, 1, 100, 5_000, 9_000, 3], [0, 141, 200, 5_000, 9_000, 1]])
}

/// Document 004's third example, with the straight length of its data.
fn worked_example_3() -> Draft {
    let header = [
        1, 0, 1_000_000, 46_000, 0, 5_000, 0, 1_800, 1_000, 21, 1, 7_600, 0, 1,
    ];
    Draft {
        header,
        hazards: vec![[0, 200_000, 201_000, 3_000, 4_600, 4]],
    }
}

fn paper(checker: &mut Checker, random: &mut Random) -> Outcome {
    for draft in paper_jobs() {
        let job = draft.bytes();
        for side in 0..2 {
            plan_all_lengths(checker, &job, side)?;
        }
        checker.plan(&job, random.pick(&BAD_SIDES), 20)?;
        let stations = level_stations(&draft);
        for side in 0..2 {
            let some = [(); 4].map(|()| random.pick(&stations));
            checker.levels(&job, side, &some)?;
        }
    }
    Ok(())
}

// Single faults.

/// Each number of a job set to each end of its range and one beyond.
fn range_ends(checker: &mut Checker, random: &mut Random) -> Outcome {
    for kind in [KINDS, KINDS].concat() {
        let numbers = accepted_of_kind(random, kind, 1, 3).numbers();
        for place in 0..numbers.len() {
            for value in around(range(&numbers, place)) {
                let mut changed = numbers.clone();
                changed[place] = value;
                let job = number_bytes(&changed);
                plan_one_length(checker, random, &job, 0)?;
                plan_one_length(checker, random, &job, 1)?;
            }
        }
    }
    full_ranges(checker, random)
}

/// The ends of a range and their neighbours; 0 and great values, in four bytes,
/// five and six.
pub fn around((low, high): (u64, u64)) -> Vec<u64> {
    let mut list = vec![low, low + 1, high, high + 1, 0];
    list.extend(GREAT_VALUES);
    list.extend(low.checked_sub(1));
    list.extend(high.checked_sub(1));
    list
}

/// All header numbers at once at ends of their ranges.
fn full_ranges(checker: &mut Checker, random: &mut Random) -> Outcome {
    for index in 0..200 {
        let draft = match index % 2 {
            0 => PRINTED,
            _ => PRINTED.in_panels(1),
        };
        let mut numbers = draft.numbers();
        for place in 1..numbers.len() - 1 {
            let (low, high) = range(&numbers, place);
            numbers[place] = if random.percent(50) { low } else { high };
        }
        let last = numbers.len() - 1;
        numbers[last] = 1;
        for _ in 0..FIELDS {
            numbers.push(0);
            let place = numbers.len() - 1;
            let (low, high) = range(&numbers, place);
            numbers[place] = random.pick(&[low, high, (low + high) / 2]);
        }
        plan_both_sides(checker, random, &number_bytes(&numbers))?;
    }
    Ok(())
}

fn every_place(checker: &mut Checker, random: &mut Random) -> Outcome {
    for kind in KINDS {
        let draft = accepted_of_kind(random, kind, 1, 4);
        every_place_of(checker, random, &draft)?;
    }
    Ok(())
}

/// For every number of a job: the bytes end before and inside it, it has a
/// wrong form (with and without bytes behind it), it is out of range. Then
/// bytes left over, and each hazard too near, off the road, and both.
fn every_place_of(checker: &mut Checker, random: &mut Random, draft: &Draft) -> Outcome {
    let numbers = draft.numbers();
    for place in 0..numbers.len() {
        let before = number_bytes(&numbers[..place]);
        let behind = number_bytes(&numbers[place + 1..]);
        for form in wrong_forms(numbers[place]) {
            let cut = [&before[..], &form].concat();
            plan_one_length(checker, random, &cut, 0)?;
            let whole = [&cut[..], &behind].concat();
            plan_one_length(checker, random, &whole, 1)?;
            let short = [&before[..], &form[..form.len() - 1]].concat();
            plan_one_length(checker, random, &short, 0)?;
        }
        let (_, high) = range(&numbers, place);
        let outside = number_bytes(&[high + 1]);
        let cut = [&before[..], &outside].concat();
        plan_both_sides(checker, random, &cut)?;
    }
    faulty_hazards(checker, random, draft)?;
    left_over(checker, random, &draft.bytes())
}

fn faulty_hazards(checker: &mut Checker, random: &mut Random, draft: &Draft) -> Outcome {
    for hazard in 0..draft.hazards.len() {
        for (near, off) in [(true, false), (false, true), (true, true)] {
            let mut broken = Broken::new(draft, 0);
            if near {
                broken.come_near(hazard);
            }
            if off {
                broken.leave_road(hazard);
            }
            plan_both_sides(checker, random, &broken.bytes())?;
        }
    }
    Ok(())
}

fn left_over(checker: &mut Checker, random: &mut Random, job: &[u8]) -> Outcome {
    for tail in [&[0x00][..], &[0x80], &[0x01, 0x02], &[0xFF; 9]] {
        plan_both_sides(checker, random, &[job, tail].concat())?;
    }
    let mut long = job.to_vec();
    long.resize(8_192, random.draw() as u8);
    plan_both_sides(checker, random, &long)
}

/// One hazard of a job at each end of its road and beyond it; several hazards,
/// at both ends; many hazards; levels there.
fn road_ends(checker: &mut Checker, random: &mut Random) -> Outcome {
    for _ in 0..100 {
        let mut draft = accepted(random, 1, 6);
        let hazard = random.index(draft.hazards.len());
        for moved in jobs::at_road_ends(&draft, draft.hazards[hazard]) {
            draft.hazards[hazard] = moved;
            plan_both_sides(checker, random, &draft.bytes())?;
        }
        some_levels(checker, random, &draft)?;
    }
    for _ in 0..100 {
        let mut draft = accepted(random, 2, 12);
        jobs::bring_to_road_ends(&mut draft, random);
        for side in 0..2 {
            plan_all_lengths(checker, &draft.bytes(), side)?;
        }
    }
    for count in [100, 256] {
        for mut draft in [jobs::dense(random, count), jobs::sparse(random, count)] {
            jobs::bring_to_road_ends(&mut draft, random);
            plan_both_sides(checker, random, &draft.bytes())?;
            some_levels(checker, random, &draft)?;
        }
    }
    Ok(())
}

/// Two or more faults in one job: the order of refusals.
fn two_faults(checker: &mut Checker, random: &mut Random) -> Outcome {
    for _ in 0..40 {
        let draft = accepted(random, 2, 6);
        for _ in 0..50 {
            let mut broken = Broken::new(&draft, random.below(2));
            broken.add(random.pick(&FAULTS), random);
            broken.add(random.pick(&FAULTS), random);
            if random.percent(10) {
                broken.add(random.pick(&FAULTS), random);
            }
            plan_broken(checker, random, &broken)?;
        }
    }
    Ok(())
}

fn plan_broken(checker: &mut Checker, random: &mut Random, broken: &Broken) -> Outcome {
    let job = broken.bytes();
    let needed = needed(&job, broken.side);
    let length = if broken.short_output {
        random.index(needed.max(1))
    } else {
        needed + random.index(3)
    };
    checker.plan(&job, broken.side, length)?;
    Ok(())
}

// Random jobs.

fn small_jobs(checker: &mut Checker, random: &mut Random) -> Outcome {
    for _ in 0..6_000 {
        let job = jobs::small(random).bytes();
        plan_both_sides(checker, random, &job)?;
    }
    Ok(())
}

fn wide_jobs(checker: &mut Checker, random: &mut Random) -> Outcome {
    for _ in 0..2_000 {
        let job = jobs::wide(random).bytes();
        plan_both_sides(checker, random, &job)?;
    }
    Ok(())
}

fn large_jobs(checker: &mut Checker, random: &mut Random) -> Outcome {
    for _ in 0..12 {
        let count = random.pick(&[40, 100, 255, 256, 256]);
        for draft in [jobs::dense(random, count), jobs::sparse(random, count)] {
            plan_both_sides(checker, random, &draft.bytes())?;
        }
    }
    // One hazard more than a job may have.
    let job = jobs::sparse(random, 257).bytes();
    plan_both_sides(checker, random, &job)
}

/// 511 runs in station order and shuffled, at times with a continuity limit
/// that joins some of them; one lookup for each run's ends.
fn most_runs(checker: &mut Checker, random: &mut Random) -> Outcome {
    for side in 0..2 {
        let mut draft = jobs::islands(random, side, 255);
        plan_all_lengths(checker, &draft.bytes(), side)?;
        random.shuffle(&mut draft.hazards);
        let job = draft.bytes();
        plan_all_lengths(checker, &job, side)?;
        let schedule = planned(&job, side).unwrap_or_default();
        see_runs(checker, &schedule);
        lookup_run_ends(checker, &schedule, side, random)?;
        draft.header[G] = random.between(draft.header[G], 200_000);
        draft.header[T] = random.below(draft.header[T] + 1);
        plan_both_sides(checker, random, &draft.bytes())?;
    }
    Ok(())
}

fn see_runs(checker: &mut Checker, schedule: &[u8]) {
    let runs = schedule::read(schedule).map_or(0, |records| records.len());
    checker.tally.saw_runs(runs as u64);
}

// Bytes cut and changed.

fn cut_jobs(checker: &mut Checker, random: &mut Random) -> Outcome {
    for kind in [KINDS, KINDS, KINDS].concat() {
        let job = accepted_of_kind(random, kind, 0, 4).bytes();
        for length in 0..=job.len() {
            plan_both_sides(checker, random, &job[..length])?;
        }
    }
    let job = jobs::dense(random, 256).bytes();
    for _ in 0..40 {
        let length = random.index(job.len());
        plan_both_sides(checker, random, &job[..length])?;
    }
    Ok(())
}

/// Every other value of every byte of a job, and some of a large one.
fn changed_jobs(checker: &mut Checker, random: &mut Random) -> Outcome {
    for kind in KINDS {
        let job = accepted_of_kind(random, kind, 1, 2).bytes();
        for at in 0..job.len() {
            for other in 1..=255u8 {
                let mut changed = job.clone();
                changed[at] ^= other;
                let side = random.below(2);
                plan_one_length(checker, random, &changed, side)?;
            }
        }
    }
    let job = jobs::sparse(random, 100).bytes();
    for _ in 0..60 {
        let mut changed = job.clone();
        let at = random.index(changed.len());
        changed[at] ^= random.between(1, 255) as u8;
        plan_one_length(checker, random, &changed, 0)?;
    }
    Ok(())
}

/// Quantity, quantities and lookup of bytes that may be a schedule or not.
pub fn ask(checker: &mut Checker, random: &mut Random, schedule: &[u8]) -> Outcome {
    let level = random.between(1, 6);
    let p = any_station(random);
    checker.quantity(schedule, level, 0, u64::MAX)?;
    let q = p + any_station(random);
    checker.quantity(schedule, random.between(1, 6), p, q)?;
    checker.quantities(schedule, level, &[p, q, 0, u64::MAX, q, q])?;
    let other = if random.percent(50) { vec![0] } else { vec![1] };
    checker.lookup(schedule, &other, 0, p)?;
    checker.lookup(&other, schedule, 1, random.edgy(0, 600))?;
    Ok(())
}

/// Near the datum or anywhere, up to just behind the last station.
fn any_station(random: &mut Random) -> u64 {
    let last = random.pick(&[2_000_000_000, LAST_STATION]);
    random.edgy(0, last + 1)
}

fn cut_schedules(checker: &mut Checker, random: &mut Random) -> Outcome {
    for _ in 0..12 {
        let (right, _) = schedules(random, 1, 12);
        for length in 0..=right.len() {
            ask(checker, random, &right[..length])?;
        }
        for tail in [0x00, 0x01, 0x80, 0xFF] {
            ask(checker, random, &[&right[..], &[tail]].concat())?;
        }
    }
    Ok(())
}

/// Every other value of every byte of a schedule.
fn changed_schedules(checker: &mut Checker, random: &mut Random) -> Outcome {
    let runs = random_runs(random, 3);
    let schedule = schedule::writing(&runs);
    for at in 0..schedule.len() {
        for other in 1..=255u8 {
            let mut changed = schedule.clone();
            changed[at] ^= other;
            let level = random.between(1, 6);
            let end = any_station(random);
            checker.quantity(&changed, level, 0, end)?;
            checker.quantities(&changed, level, &[0, end, end, u64::MAX])?;
            let station = station_near(random, &runs);
            checker.lookup(&changed, &schedule, 0, station)?;
        }
    }
    Ok(())
}

// Run lists.

/// Random runs that make a run list, near the datum or up to the last station.
pub fn random_runs(random: &mut Random, count: u64) -> Vec<Run> {
    let mut runs: Vec<Run> = Vec::new();
    let room = random.pick(&[2_000_000_000, LAST_STATION]);
    let longest = room / (2 * count.max(1));
    for _ in 0..count {
        let previous = runs.last().copied();
        let end = previous.map_or(0, |run| run.stretch.end);
        let start = end + random.edgy(0, longest);
        let mut level = random.between(1, 6);
        if previous.is_some_and(|run| run.level == level) && start == end {
            level = level % 6 + 1;
        }
        runs.push(Run {
            stretch: Stretch::new(start, random.edgy(start + 1, start + longest)),
            level,
        });
    }
    runs
}

/// The numbers of a writing, so that they can be changed one by one.
pub fn schedule_numbers(runs: &[Run]) -> Vec<u64> {
    let mut numbers = vec![runs.len() as u64];
    let mut previous_end = 0;
    for run in runs {
        numbers.extend([
            run.stretch.start - previous_end,
            run.stretch.length(),
            run.level,
        ]);
        previous_end = run.stretch.end;
    }
    numbers
}

/// Stations where something may change: 0, the ends of the runs and one to
/// each side of them, the greatest.
fn station_near(random: &mut Random, runs: &[Run]) -> u64 {
    if runs.is_empty() || random.percent(15) {
        return random.pick(&[0, 1, 1 << 32, LAST_STATION, u64::MAX - 1, u64::MAX]);
    }
    let stretch = runs[random.index(runs.len())].stretch;
    let end = random.pick(&[stretch.start, stretch.end]);
    match random.below(4) {
        0 => end.saturating_sub(1),
        1 => end + 1,
        2 => random.edgy(stretch.start, stretch.end),
        _ => end,
    }
}

fn run_lists(checker: &mut Checker, random: &mut Random) -> Outcome {
    for _ in 0..60 {
        let count = random.below(6);
        let runs = random_runs(random, count);
        ask(checker, random, &schedule::writing(&runs))?;
        nearly_run_lists(checker, random, &runs)?;
    }
    last_stations(checker, random)?;
    run_counts(checker, random)
}

/// One number of a run list changed, or in another form.
fn nearly_run_lists(checker: &mut Checker, random: &mut Random, runs: &[Run]) -> Outcome {
    let numbers = schedule_numbers(runs);
    for place in 0..numbers.len() {
        let value = numbers[place];
        let mut values = vec![0, 1, 6, 7, 511, 512, 2_000_000_001, LAST_STATION];
        values.extend(GREAT_VALUES);
        for other in [random.pick(&values), value + 1, value.saturating_sub(1)] {
            let mut changed = numbers.clone();
            changed[place] = other;
            ask(checker, random, &number_bytes(&changed))?;
        }
        let forms = wrong_forms(value);
        let form = &forms[random.index(forms.len())];
        let before = number_bytes(&numbers[..place]);
        let behind = number_bytes(&numbers[place + 1..]);
        ask(checker, random, &[&before[..], form, &behind].concat())?;
    }
    touching(checker, random, runs)
}

/// Every run begins where the one before ends, levels at times equal.
fn touching(checker: &mut Checker, random: &mut Random, runs: &[Run]) -> Outcome {
    let mut numbers = schedule_numbers(runs);
    for record in numbers[1..].chunks_mut(3) {
        record[0] = 0;
        record[2] = random.between(1, 3);
    }
    ask(checker, random, &number_bytes(&numbers))
}

/// Ends at the last station and one beyond; at the end of the longest road from
/// the datum, which is none of a schedule, and one beyond.
fn last_stations(checker: &mut Checker, random: &mut Random) -> Outcome {
    for end in [2_000_000_000, LAST_STATION] {
        for last in [end - 1, end, end + 1] {
            let start = random.edgy(0, end - 2);
            let one = number_bytes(&[1, start, last - start, random.between(1, 6)]);
            ask(checker, random, &one)?;
            let middle = random.between(1, end - 3);
            let two = [2, 0, middle, 1, 0, last - middle, 2];
            ask(checker, random, &number_bytes(&two))?;
        }
    }
    Ok(())
}

/// 510 to 513 runs, and counts that are not those of the records.
fn run_counts(checker: &mut Checker, random: &mut Random) -> Outcome {
    for count in [510, 511, 512, 513] {
        let runs = random_runs(random, count);
        let mut numbers = schedule_numbers(&runs);
        ask(checker, random, &number_bytes(&numbers))?;
        for other in [count - 1, count + 1, 511, 512] {
            numbers[0] = other;
            ask(checker, random, &number_bytes(&numbers))?;
        }
    }
    Ok(())
}

// Quantities.

/// The millimetres of [p, q) at which the job requires exactly this level: the
/// sets lie in each other, so it is a difference of two counts.
fn count_required(required: &Required, level: u64, p: u64, q: u64) -> u64 {
    let asked = Stretch::new(p, q);
    let in_set = |v| -> u64 { required.set(v).iter().map(|s| s.shared(&asked)).sum() };
    in_set(level) - in_set(level + 1)
}

/// Each lot compared, alone and all in one contract; and the reference's lots
/// have to add up to the millimetres at which the job requires the level, over
/// the whole list.
fn rising_lists(checker: &mut Checker, random: &mut Random) -> Outcome {
    for _ in 0..120 {
        let job = accepted(random, 1, 40).bytes();
        let side = random.below(2);
        add_up(checker, random, &job, side)?;
    }
    let job = jobs::islands(random, 0, 255).bytes();
    add_up(checker, random, &job, 0)
}

fn add_up(checker: &mut Checker, random: &mut Random, job: &[u8], side: u64) -> Outcome {
    let (Ok(schedule), Ok(required)) = (planned(job, side), required(job, side)) else {
        return Ok(());
    };
    let runs = required.runs();
    for _ in 0..2 {
        let list = rising_list(random, &runs);
        let level = random.between(1, 6);
        let mut sum = 0u64;
        for lot in list.windows(2) {
            sum = sum.wrapping_add(checker.quantity(&schedule, level, lot[0], lot[1])?.value);
        }
        let (first, last) = (list[0], list[list.len() - 1]);
        let expected = count_required(&required, level, first, last);
        // Each lot agreed with the reference, so this asks the reference alone.
        assert_eq!(
            sum, expected,
            "the reference, level {level}, lots of {list:?}"
        );
        let contract = checker.quantities(&schedule, level, &lots(&list))?;
        let sum: u64 = contract.quantities.iter().sum();
        assert_eq!((contract.records, sum), (runs.len() as u64, expected));
    }
    refused_quantities(checker, random, &schedule, &runs)
}

/// A rising list of one or more stations, equal neighbours allowed.
fn rising_list(random: &mut Random, runs: &[Run]) -> Vec<u64> {
    let count = random.between(1, 12);
    let mut list: Vec<u64> = (0..count).map(|_| station_near(random, runs)).collect();
    if random.percent(20) {
        list.push(random.draw());
    }
    list.sort();
    list
}

/// Levels 0 and above 6, and p > q.
fn refused_quantities(
    checker: &mut Checker,
    random: &mut Random,
    schedule: &[u8],
    runs: &[Run],
) -> Outcome {
    let p = station_near(random, runs);
    let q = station_near(random, runs);
    let level = random.pick(&[0, 7, 8, 255, 256, 257, (1 << 32) + 1, u64::MAX]);
    checker.quantity(schedule, level, p.min(q), p.max(q))?;
    checker.quantity(schedule, random.between(1, 6), p, q)?;
    checker.quantity(schedule, random.between(1, 6), p.saturating_add(1), p)?;
    let bad = &schedule[..schedule.len() - 1];
    checker.quantity(bad, level, p, q)?;
    checker.quantity(bad, 1, p, q)?;
    Ok(())
}

// Quantities for whole contracts.

/// The lots of a rising list as ranges.
fn lots(list: &[u64]) -> Vec<u64> {
    list.windows(2).flatten().copied().collect()
}

fn contracts(checker: &mut Checker, random: &mut Random) -> Outcome {
    for _ in 0..500 {
        let runs = contract_runs(random);
        let schedule = schedule::writing(&runs);
        for _ in 0..4 {
            let ranges = faulty_ranges(random, &runs);
            checker.quantities(&schedule, contract_level(random, &runs), &ranges)?;
        }
        let ranges = faulty_ranges(random, &runs);
        let level = contract_level(random, &runs);
        checker.quantities(&damaged(random, &schedule), level, &ranges)?;
    }
    let (right, _) = schedules(random, 1, 12);
    contract_refusals(checker, &right)?;
    let many = jobs::islands(random, 0, 255).bytes();
    let runs = random_runs(random, 511);
    for schedule in [
        planned(&many, 0).unwrap_or_default(),
        schedule::writing(&runs),
    ] {
        for _ in 0..6 {
            let ranges = ranges(random, &runs);
            checker.quantities(&schedule, random.between(1, 6), &ranges)?;
        }
    }
    Ok(())
}

/// The runs of a random job, or random runs.
fn contract_runs(random: &mut Random) -> Vec<Run> {
    match random.below(10) {
        0..=5 => {
            let job = accepted(random, 1, 40).bytes();
            let of_side = required(&job, random.below(2)).map(|required| required.runs());
            of_side.unwrap_or_default()
        }
        6..=8 => {
            let count = random.below(9);
            random_runs(random, count)
        }
        _ => {
            let count = random.below(81);
            random_runs(random, count)
        }
    }
}

/// A level of the runs more often than others, at times none that there is.
fn contract_level(random: &mut Random, runs: &[Run]) -> u64 {
    match random.below(10) {
        0 => random.pick(&[0, 7, 8, 255, 256, 257, (1 << 32) + 1, u64::MAX]),
        1..=6 if !runs.is_empty() => runs[random.index(runs.len())].level,
        _ => random.between(1, 6),
    }
}

/// 0 to 200 ranges, the limit and its neighbours more often than others:
/// rising lots, or ranges in no order that overlap, repeat or are empty.
fn ranges(random: &mut Random, runs: &[Run]) -> Vec<u64> {
    let few = random.below(8) as usize;
    let any = random.below(201) as usize;
    let count = random.pick(&[0, 1, 2, few, few, few, 63, 64, 65, 66, 200, any]);
    let mut stations: Vec<u64> = (0..=count).map(|_| station(random, runs)).collect();
    let mut list: Vec<[u64; 2]> = Vec::new();
    if random.percent(30) {
        stations.sort();
        list.extend(stations.windows(2).map(|lot| [lot[0], lot[1]]));
    } else {
        for _ in 0..count {
            let (p, q) = (random.pick(&stations), random.pick(&stations));
            list.push([p.min(q), p.max(q)]);
        }
    }
    if random.percent(20) {
        random.shuffle(&mut list);
    }
    if random.percent(20) && !list.is_empty() {
        let again = list[random.index(list.len())];
        let at = random.index(list.len());
        list[at] = again;
    }
    list.concat()
}

/// On the road and off it.
fn station(random: &mut Random, runs: &[Run]) -> u64 {
    match random.below(20) {
        0 => random.draw(),
        1 => any_station(random),
        _ => station_near(random, runs),
    }
}

/// At times with p > q in one range, or a number without its partner.
fn faulty_ranges(random: &mut Random, runs: &[Run]) -> Vec<u64> {
    let mut ranges = ranges(random, runs);
    if random.percent(15) && !ranges.is_empty() {
        let range = random.index(ranges.len() / 2);
        turn(&mut ranges, range);
    }
    if random.percent(10) {
        if random.percent(50) || ranges.is_empty() {
            ranges.push(station(random, runs));
        } else {
            ranges.pop();
        }
    }
    ranges
}

/// Makes p > q in one range.
fn turn(ranges: &mut [u64], range: usize) {
    let (p, q) = (ranges[2 * range], ranges[2 * range + 1]);
    match p == q {
        true => (ranges[2 * range], ranges[2 * range + 1]) = (p.max(1), p.max(1) - 1),
        false => (ranges[2 * range], ranges[2 * range + 1]) = (q, p),
    }
}

/// Cut, made longer, with a byte changed, or other bytes altogether.
fn damaged(random: &mut Random, schedule: &[u8]) -> Vec<u8> {
    let mut bytes = schedule.to_vec();
    let at = random.index(bytes.len());
    match random.below(8) {
        0 => bytes.truncate(at),
        1..=2 => bytes.truncate(bytes.len() - 1),
        3 => bytes.push(random.draw() as u8),
        4 => {
            bytes = (0..random.below(30))
                .map(|_| random.draw() as u8 & 0x87)
                .collect()
        }
        _ => bytes[at] ^= random.between(1, 255) as u8,
    }
    bytes
}

/// Every count of ranges next to the limit, with a level that there is or not,
/// with p > q in no range or in one, with a last number without its partner or
/// not, over a schedule that is one or not: the order of 8, 11 and 10.
fn contract_refusals(checker: &mut Checker, schedule: &[u8]) -> Outcome {
    let cut = &schedule[..schedule.len() - 1];
    for count in [0, 1, 2, 63, 64, 65, 66, 200] {
        for level in [0, 1, 6, 7] {
            for turned in [
                None,
                Some(0),
                Some(count / 2),
                Some(63),
                Some(64),
                Some(count),
            ] {
                let mut ranges: Vec<u64> = (0..2 * count as u64).map(|i| 10 * i).collect();
                match turned {
                    Some(range) if range < count => turn(&mut ranges, range),
                    Some(_) => ranges.push(5),
                    None => (),
                }
                checker.quantities(schedule, level, &ranges)?;
                checker.quantities(cut, level, &ranges)?;
            }
        }
    }
    Ok(())
}

// Lookups.

fn run_ends(checker: &mut Checker, random: &mut Random) -> Outcome {
    for _ in 0..60 {
        let (right, left) = schedules(random, 1, 30);
        lookup_both(checker, random, &right, &left)?;
    }
    let count = random.between(1, 80);
    let right = schedule::writing(&random_runs(random, count));
    let left = schedule::writing(&random_runs(random, 5));
    lookup_both(checker, random, &right, &left)
}

fn lookup_both(checker: &mut Checker, random: &mut Random, right: &[u8], left: &[u8]) -> Outcome {
    for side in 0..2 {
        let asked = if side == 0 { right } else { left };
        for station in end_stations(asked) {
            checker.lookup(right, left, side, station)?;
        }
    }
    let station = random.edgy(0, 1_000);
    for side in BAD_SIDES {
        checker.lookup(right, left, side, station)?;
    }
    with_a_bad_schedule(checker, right, left, station)
}

/// Only the schedule of the asked side is looked at.
fn with_a_bad_schedule(checker: &mut Checker, right: &[u8], left: &[u8], station: u64) -> Outcome {
    for bad in [&[][..], &[0x80, 0x00], &[0x05], &[0x00, 0x00]] {
        for side in 0..3 {
            checker.lookup(bad, left, side, station)?;
            checker.lookup(right, bad, side, station)?;
        }
    }
    Ok(())
}

/// s - 1, s, e - 1 and e of every run, 0 and the greatest stations.
pub fn end_stations(schedule: &[u8]) -> Vec<u64> {
    let mut list = vec![0, 1, 1 << 32, LAST_STATION, u64::MAX - 1, u64::MAX];
    for record in schedule::read(schedule).unwrap_or_default() {
        let Stretch { start, end } = record.run.stretch;
        list.extend(start.checked_sub(1));
        list.extend([start, end - 1, end]);
        list.extend(alike_in_32_bits(start));
    }
    list
}

/// Stations that are this one in 32 bits.
fn alike_in_32_bits(station: u64) -> [u64; 2] {
    [station + (1 << 32), station & 0xFFFF_FFFF]
}

fn lookup_run_ends(
    checker: &mut Checker,
    schedule: &[u8],
    side: u64,
    random: &mut Random,
) -> Outcome {
    let other = schedule::writing(&random_runs(random, 3));
    let (right, left) = if side == 0 {
        (schedule, &other[..])
    } else {
        (&other[..], schedule)
    };
    for station in end_stations(schedule) {
        checker.lookup(right, left, side, station)?;
    }
    Ok(())
}

// Levels.

/// Each end of a hazard, of an envelope (so of a gap, too) and of the road, and
/// a millimetre to either side; each end in 32 bits; the greatest stations.
pub fn level_stations(draft: &Draft) -> Vec<u64> {
    let mut ends = vec![draft.header[A], draft.header[B]];
    for hazard in &draft.hazards {
        ends.extend([hazard[S], hazard[E]]);
    }
    for envelope in jobs::envelopes(draft).unwrap_or_default() {
        let Stretch { start, end } = envelope.stretch;
        ends.extend([start, end]);
    }
    ends.sort();
    ends.dedup();
    let mut list = vec![0, 1 << 32, u64::MAX - 1, u64::MAX];
    for end in ends {
        list.extend(end.checked_sub(1));
        list.extend([end, end + 1]);
        list.extend(alike_in_32_bits(end));
    }
    list
}

fn levels(checker: &mut Checker, random: &mut Random) -> Outcome {
    for _ in 0..30 {
        let draft = accepted(random, 1, 12);
        let stations = level_stations(&draft);
        levels_of(checker, random, &draft, &stations)?;
    }
    for _ in 0..200 {
        let draft = accepted(random, 1, 40);
        some_levels(checker, random, &draft)?;
    }
    let side = random.below(2);
    let mut islands = jobs::islands(random, side, 255);
    random.shuffle(&mut islands.hazards);
    for draft in [islands, jobs::dense(random, 256), jobs::sparse(random, 256)] {
        for _ in 0..6 {
            some_levels(checker, random, &draft)?;
        }
    }
    Ok(())
}

/// At twenty of the stations.
fn some_levels(checker: &mut Checker, random: &mut Random, draft: &Draft) -> Outcome {
    let mut stations = level_stations(draft);
    random.shuffle(&mut stations);
    stations.truncate(20);
    levels_of(checker, random, draft, &stations)
}

fn levels_of(
    checker: &mut Checker,
    random: &mut Random,
    draft: &Draft,
    stations: &[u64],
) -> Outcome {
    let job = draft.bytes();
    for side in 0..2 {
        checker.levels(&job, side, stations)?;
    }
    checker.levels(&job, random.pick(&BAD_SIDES), &stations[..1])
}

/// Faults in their order, 8 first; jobs cut at every byte; every number of a
/// job out of its form and out of its range.
fn refused_levels(checker: &mut Checker, random: &mut Random) -> Outcome {
    for _ in 0..40 {
        let draft = accepted(random, 2, 6);
        let stations = level_stations(&draft);
        for _ in 0..10 {
            let mut broken = Broken::new(&draft, random.below(2));
            broken.add(random.pick(&FAULTS), random);
            broken.add(random.pick(&FAULTS), random);
            checker.levels(&broken.bytes(), broken.side, &[random.pick(&stations)])?;
        }
    }
    for kind in KINDS {
        let draft = accepted_of_kind(random, kind, 1, 3);
        let (job, numbers) = (draft.bytes(), draft.numbers());
        let stations = level_stations(&draft);
        for length in 0..=job.len() {
            let side = random.below(2);
            checker.levels(&job[..length], side, &[random.pick(&stations)])?;
        }
        for (place, value) in numbers.iter().enumerate() {
            let before = number_bytes(&numbers[..place]);
            let behind = number_bytes(&numbers[place + 1..]);
            let mut others: Vec<Vec<u8>> = wrong_forms(*value);
            let values = around(range(&numbers, place));
            others.extend(values.iter().map(|value| number_bytes(&[*value])));
            for other in others {
                let job = [&before[..], &other, &behind].concat();
                checker.levels(&job, random.below(2), &[random.pick(&stations)])?;
            }
        }
    }
    Ok(())
}
