//! The families of stations on the national chainage, and of the numbers of six
//! bytes that it needs.

use reference::job::{LAST_STATION, NATIONAL};
use reference::open::Name;
use reference::planned;
use reference::schedule;

use crate::Random;
use crate::compare::{Checker, Step};
use crate::draft::{
    A, B, Draft, E, FLARE_B, G, LO, PRINTED, S, W, header_length, number_bytes, printed, range,
};
use crate::families::{
    Outcome, around, ask, end_stations, level_stations, plan_all_lengths, plan_both_sides,
    random_runs, schedule_numbers,
};
use crate::faults::{GREAT_VALUES, GREATEST_READ, wrong_forms};
use crate::jobs;
use crate::open::{Open, any_memory, any_name};

const LONGEST_ROAD: u64 = NATIONAL.longest;

/// The ends of what 32 bits and five bytes hold.
const HELD: [u64; 2] = [1 << 32, 1 << 35];

/// Roads at the datum, over each of the ends and beside them, and up to the last
/// station; the longest and the shortest among them.
fn road_ends() -> Vec<(u64, u64)> {
    let mut list = vec![(0, 1), (0, 1_000_000), (0, LONGEST_ROAD)];
    for end in HELD {
        list.extend([
            (end - 1, end),
            (end - 1, end + 1),
            (end, end + 1),
            (end - 500_000, end + 500_000),
            (end - LONGEST_ROAD, end),
            (end - LONGEST_ROAD / 2, end + LONGEST_ROAD / 2),
        ]);
    }
    list.extend([
        (LAST_STATION - LONGEST_ROAD, LAST_STATION),
        (LAST_STATION - 1_000_000, LAST_STATION),
        (LAST_STATION - 2, LAST_STATION - 1),
        (LAST_STATION - 1, LAST_STATION),
    ]);
    list
}

/// A job on this road, with hazards at its ends, over all of it, and on either
/// side of what 32 bits or five bytes hold or of its middle.
fn job_on(random: &mut Random, (begin, end): (u64, u64)) -> Draft {
    let inside = |station: &u64| begin < *station && *station < end;
    let middle = HELD.into_iter().find(inside);
    let middle = middle.unwrap_or(begin + (end - begin) / 2);
    let clip = |station: u64| station.clamp(begin, end);
    let stretches = [
        (begin, begin + 1),
        (end - 1, end),
        (begin, end),
        (clip(middle.saturating_sub(90_000)), middle),
        (middle, clip(middle + 90_000)),
        (clip(middle - middle.min(1)), clip(middle + 1)),
        (clip(begin + 44_227), clip(begin + 44_300)),
    ];
    let mut hazards = Vec::new();
    for (start, end) in stretches {
        if start < end {
            let level = random.between(1, 6);
            hazards.push([random.below(2), start, end, 5_000, 9_000, level]);
        }
    }
    random.shuffle(&mut hazards);
    let draft = PRINTED.with(A, begin).with(B, end).with_hazards(&hazards);
    let draft = draft.with(G, random.pick(&[0, 50_000, 200_000]));
    let draft = match random.percent(50) {
        true => draft.with(LO, 101_000).with(W, 3_500),
        false => draft.with(FLARE_B, 0),
    };
    match random.percent(50) {
        true => draft.in_panels(random.between(1, 10_000)),
        false => draft,
    }
}

/// Every call on jobs of each road; then random jobs, and roads at their limits.
pub fn roads(checker: &mut Checker, random: &mut Random) -> Outcome {
    for road in road_ends() {
        for _ in 0..2 {
            let draft = job_on(random, road);
            every_call(checker, random, &draft)?;
        }
    }
    for _ in 0..10 {
        let mut draft = jobs::national(random);
        draft.hazards.truncate(8);
        if planned(&draft.bytes(), 0).is_ok() {
            every_call(checker, random, &draft)?;
        }
    }
    for _ in 0..1_000 {
        let job = jobs::national(random).bytes();
        plan_both_sides(checker, random, &job)?;
    }
    let islands = jobs::islands(random, 0, 255);
    let sparse = jobs::sparse(random, 256);
    for draft in [islands, sparse] {
        let draft = jobs::far_away(draft, random);
        plan_both_sides(checker, random, &draft.bytes())?;
    }
    limits(checker, random)
}

/// Every call on this accepted job, and on what it plans.
fn every_call(checker: &mut Checker, random: &mut Random, draft: &Draft) -> Outcome {
    let job = draft.bytes();
    let stations = level_stations(draft);
    for side in 0..2 {
        plan_all_lengths(checker, &job, side)?;
        checker.levels(&job, side, &stations)?;
    }
    for (hazard, fields) in (0..).zip(&draft.hazards) {
        for sheet in [0, fields[S], fields[E], LAST_STATION] {
            checker.corners(&job, hazard, (sheet, random.pick(&[0, 3_000, sheet])))?;
        }
        checker.offset(&job, hazard, random.pick(&[0, 60_000, 67_334, 101_000]))?;
    }
    let side = |side| planned(&job, side).expect("the job is accepted");
    of_schedules(checker, random, &side(0), &side(1))?;
    open_job(checker, random, draft)
}

/// Lookups at the ends of every run, and quantities between them.
fn of_schedules(checker: &mut Checker, random: &mut Random, right: &[u8], left: &[u8]) -> Outcome {
    for (side, schedule) in [(0, right), (1, left)] {
        let mut stations = end_stations(schedule);
        for station in &stations {
            checker.lookup(right, left, side, *station)?;
        }
        stations.sort();
        let lots: Vec<u64> = stations.windows(2).flatten().copied().collect();
        for lots in lots.chunks(128) {
            checker.quantities(schedule, random.between(1, 6), lots)?;
        }
        for lot in stations.windows(2) {
            checker.quantity(schedule, random.between(1, 6), lot[0], lot[1])?;
        }
    }
    Ok(())
}

/// The hazards added, kept, withdrawn and returned to; some that are right in 32
/// bits alone.
fn open_job(checker: &mut Checker, random: &mut Random, draft: &Draft) -> Outcome {
    let mut open = Open::new(checker, random, draft)?;
    open.add_all(checker, random, draft)?;
    for fields in &draft.hazards {
        let mut alike = *fields;
        for field in [S, E] {
            alike[field] ^= 1 << 32;
        }
        open.add(checker, any_name(random), alike)?;
    }
    open.as_planned(checker, random)?;
    let state = random.below(8);
    open.keep(checker, state)?;
    let names: Vec<Name> = open.standing.keys().copied().collect();
    for name in names {
        open.withdraw(checker, name)?;
    }
    open.return_to(checker, state)?;
    open.as_planned(checker, random)
}

// Roads at their limits.

/// A at and next to its limits, with B at and next to its own.
fn limits(checker: &mut Checker, random: &mut Random) -> Outcome {
    let furthest = LAST_STATION - LONGEST_ROAD;
    let mut begins = vec![0, 1, LONGEST_ROAD, GREATEST_READ];
    begins.extend(HELD.iter().flat_map(|held| [held - 1, *held]));
    begins.extend([furthest - 1, furthest, furthest + 1]);
    begins.extend([LAST_STATION - 2, LAST_STATION - 1, LAST_STATION]);
    for begin in begins {
        let longest = begin + LONGEST_ROAD;
        let mut ends = vec![0, begin.saturating_sub(1), begin, begin + 1];
        ends.extend([longest - 1, longest, longest + 1]);
        ends.extend([LAST_STATION - 1, LAST_STATION, LAST_STATION + 1]);
        ends.push(GREATEST_READ);
        for end in ends {
            let fields = [random.below(2), begin, begin + 1, 5_000, 9_000, 3];
            let draft = PRINTED.with(A, begin).with(B, end);
            let draft = draft.with_hazards(&[fields]);
            let numbers = draft.numbers();
            every_reading(checker, random, &draft.bytes())?;
            // Another number behind the road out of its range, too.
            let mut two_faults = numbers.clone();
            two_faults[random.pick(&[3, 5, 8])] = GREATEST_READ;
            every_reading(checker, random, &number_bytes(&two_faults))?;
        }
    }
    Ok(())
}

/// Every call that reads a job's bytes; an opening reads them as a job and
/// without the hazard of the job.
fn every_reading(checker: &mut Checker, random: &mut Random, job: &[u8]) -> Outcome {
    plan_both_sides(checker, random, job)?;
    checker.levels(job, random.below(2), &[random.below(LAST_STATION)])?;
    checker.corners(job, 0, (random.below(LAST_STATION), 0))?;
    checker.offset(job, 0, 60_000)?;
    let mut memory = any_memory(random);
    let bytes = job.to_vec();
    checker.step(&mut memory, Step::Open { bytes })?;
    let without_hazards = reference::job::read(job).map(|job| Draft {
        header: reference::memory::header_numbers(&job),
        hazards: Vec::new(),
    });
    if let Ok(header) = without_hazards {
        let bytes = header.bytes();
        checker.step(&mut memory, Step::Open { bytes })?;
    }
    Ok(())
}

// Numbers of six bytes.

/// Other bytes in the place of a number: each top bit of six bytes changed, the
/// sixth byte 0, six top bits, more than six bytes, and great values in five
/// bytes and in six.
fn six_byte_forms(value: u64, (low, high): (u64, u64)) -> Vec<Vec<u8>> {
    let mut forms = wrong_forms(value);
    forms.extend(wrong_forms(high + 1));
    for value in [1 << 35, LAST_STATION - 1, GREATEST_READ] {
        let six = number_bytes(&[value]);
        for at in 0..six.len() {
            let mut changed = six.clone();
            changed[at] ^= 0x80;
            forms.push(changed);
        }
    }
    forms.extend(
        around((low, high))
            .iter()
            .map(|value| number_bytes(&[*value])),
    );
    forms.extend([value | 1 << 32, value | 1 << 41].map(|value| number_bytes(&[value])));
    // A value that six bytes do not hold.
    forms.push(number_bytes(&[1 << 42]));
    forms.push(number_bytes(&[value | 1 << 42]));
    forms
}

/// In every place of a job near the datum and of one at the last station.
pub fn six_bytes_in_jobs(checker: &mut Checker, random: &mut Random) -> Outcome {
    let near = printed().in_panels(4_000);
    let far = printed().moved(LAST_STATION - 1_000_000);
    for draft in [near, far] {
        let numbers = draft.numbers();
        for place in 0..numbers.len() {
            let before = number_bytes(&numbers[..place]);
            let behind = number_bytes(&numbers[place + 1..]);
            for form in six_byte_forms(numbers[place], range(&numbers, place)) {
                let whole = [&before[..], &form, &behind].concat();
                every_reading(checker, random, &whole)?;
                if place < header_length(draft.header[0]) {
                    let empty = draft.clone().with_hazards(&[]).numbers();
                    let behind = number_bytes(&empty[place + 1..]);
                    let bytes = [&before[..], &form, &behind].concat();
                    let mut memory = any_memory(random);
                    checker.step(&mut memory, Step::Open { bytes })?;
                }
            }
            // Six bytes cut at each length, where the job ends.
            for six in [vec![0x80; 7], vec![0xFF; 7], number_bytes(&[GREATEST_READ])] {
                for length in 0..=six.len() {
                    let cut = [&before[..], &six[..length]].concat();
                    every_reading(checker, random, &cut)?;
                }
            }
        }
    }
    Ok(())
}

/// In every place of schedules near the datum and far from it.
pub fn six_bytes_in_schedules(checker: &mut Checker, random: &mut Random) -> Outcome {
    for _ in 0..6 {
        let runs = random_runs(random, 3);
        let numbers = schedule_numbers(&runs);
        for place in 0..numbers.len() {
            let before = number_bytes(&numbers[..place]);
            let behind = number_bytes(&numbers[place + 1..]);
            for form in six_byte_forms(numbers[place], (0, LAST_STATION)) {
                ask(checker, random, &[&before[..], &form, &behind].concat())?;
            }
        }
    }
    // The last number, cut at each length.
    let last = number_bytes(&[1, LAST_STATION - 5, 5]);
    for length in 0..=8 {
        ask(checker, random, &[&last[..], &vec![0x80; length]].concat())?;
    }
    Ok(())
}

// Schedules.

/// Sums of gap and length around what 32 bits, five bytes and six bytes hold, and
/// around the last station, in the first record and in a later one.
pub fn schedules(checker: &mut Checker, random: &mut Random) -> Outcome {
    for sum in [1 << 32, 1 << 35, LAST_STATION, 1 << 42] {
        for sum in [sum - 1, sum, sum + 1, sum + random.below(LAST_STATION)] {
            sums(checker, random, sum)?;
        }
    }
    sums(checker, random, 2 * GREATEST_READ)?;
    for _ in 0..20 {
        let count = random.between(1, 12);
        let right = schedule::writing(&random_runs(random, count));
        let left = schedule::writing(&random_runs(random, 3));
        of_schedules(checker, random, &right, &left)?;
    }
    Ok(())
}

/// Records whose numbers make this sum: gap and length; a gap behind a run; the
/// length of a run that touches the one before.
fn sums(checker: &mut Checker, random: &mut Random, sum: u64) -> Outcome {
    let most = GREATEST_READ.min(sum - 1);
    let least = sum.saturating_sub(GREATEST_READ).max(1);
    let mut parts = vec![least, most, sum / 2, random.between(least, most)];
    parts.extend(
        GREAT_VALUES
            .iter()
            .filter(|part| (least..=most).contains(part)),
    );
    for part in parts {
        let (part, rest) = (part, sum - part);
        let level = random.between(1, 6);
        let other = level % 6 + 1;
        for numbers in [
            vec![1, part, rest, level],
            vec![2, 0, part, other, 0, rest, level],
            vec![2, part - 1, 1, other, rest - 1, 1, level],
            vec![2, 0, 1, other, part - 1, rest, level],
        ] {
            let bytes = number_bytes(&numbers);
            ask(checker, random, &bytes)?;
            let mut stations = end_stations(&bytes);
            stations.extend([sum - 1, sum, sum & 0xFFFF_FFFF, sum & GREATEST_READ]);
            for station in stations {
                checker.lookup(&bytes, &[0], 0, station)?;
                checker.quantity(&bytes, level, 0, station)?;
                checker.quantities(&bytes, level, &[0, station, station, u64::MAX])?;
            }
        }
    }
    Ok(())
}

// Sheets.

/// Numbers of a sheet corner at, next to and beyond the end of their range and of
/// the range that they had, with hazards at the last station and at the datum.
pub fn sheets(checker: &mut Checker, random: &mut Random) -> Outcome {
    const NUMBERS: [u64; 12] = [
        0,
        1,
        LONGEST_ROAD,
        LONGEST_ROAD + 1,
        (1 << 32) - 1,
        1 << 32,
        LAST_STATION - 1,
        LAST_STATION,
        LAST_STATION + 1,
        1 << 42,
        (1 << 53) + 1,
        u64::MAX,
    ];
    let roads = road_ends();
    let first = roads.first().copied().unwrap_or((0, 1));
    let last = roads.last().copied().unwrap_or((0, 1));
    for road in [first, (LAST_STATION - 1_000_000, LAST_STATION), last] {
        let draft = job_on(random, road);
        let job = draft.bytes();
        let hazards = draft.hazards.len() as u64;
        for station in NUMBERS {
            for offset in NUMBERS {
                checker.corners(&job, random.below(hazards), (station, offset))?;
            }
        }
    }
    Ok(())
}
