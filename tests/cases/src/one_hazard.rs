//! The families of the calls on one hazard of a job.

use reference::calls::accepted as accepted_job;
use reference::corners::{Point, SHEET_END, points};
use reference::envelope;
use reference::job::LAST_STATION;
use reference::offset::{self, GREATEST};

use crate::Random;
use crate::compare::Checker;
use crate::draft::{
    B, C, D, Draft, FLARE_A, FLARE_B, LF, LO, M, PRINTED, T, W, number_bytes, range,
};
use crate::families::{KINDS, Outcome, accepted, accepted_of_kind, around, paper_jobs};
use crate::faults::{Broken, FAULTS, wrong_forms};
use crate::jobs;

/// Every hazard of a job, and indices of none: next to the last, and such as are
/// an index in one byte or in 32 bits.
fn indices(draft: &Draft) -> Vec<u64> {
    let count = draft.hazards.len() as u64;
    let mut list: Vec<u64> = (0..=count + 1).collect();
    list.extend([256, 257, 1 << 32, u64::MAX]);
    list
}

/// A hazard of the job mostly.
pub fn index(random: &mut Random, draft: &Draft) -> u64 {
    let all = indices(draft);
    match random.below(10) {
        0 => random.pick(&all),
        _ => random.below(draft.hazards.len().max(1) as u64),
    }
}

/// Accepted jobs of every sort, so many random ones among them, each given with
/// the indices to ask for.
pub fn each_job(
    checker: &mut Checker,
    random: &mut Random,
    random_jobs: u64,
    ask: impl Fn(&mut Checker, &mut Random, &Draft, &[u64]) -> Outcome,
) -> Outcome {
    for draft in paper_jobs().into_iter().chain(steep_jobs()) {
        ask(checker, random, &draft, &indices(&draft))?;
    }
    for round in 0..random_jobs {
        let mut draft = accepted(random, 1, 12);
        if round % 4 == 0 {
            jobs::bring_to_road_ends(&mut draft, random);
        }
        let some: Vec<u64> = (0..4).map(|_| index(random, &draft)).collect();
        ask(checker, random, &draft, &some)?;
    }
    let side = random.below(2);
    let mut large = vec![
        jobs::islands(random, side, 255),
        jobs::dense(random, 256),
        jobs::sparse(random, 256),
    ];
    for draft in &mut large {
        random.shuffle(&mut draft.hazards);
        let mut some: Vec<u64> = (0..8).map(|_| index(random, draft)).collect();
        some.extend([0, 127, 128, 254, 255, 256]);
        ask(checker, random, draft, &some)?;
    }
    Ok(())
}

/// The steepest flare and the longest panels, by which a barrier goes furthest
/// from the road, on both sides and next to both ends of the longest road, from
/// the datum and up to the last station.
fn steep_jobs() -> Vec<Draft> {
    let last = 2_000_000_000;
    let mut list = Vec::new();
    for (side, start, end) in [
        (0, 0, 10),
        (0, last - 10, last),
        (1, 0, 10),
        (1, last - 10, last),
    ] {
        for (straight, panel) in [(0, 10_000), (13_340, 10_000), (13_816, 1), (20_000, 10_000)] {
            let draft = PRINTED.with(FLARE_A, 1).with(FLARE_B, 10);
            let draft = draft.with(T, straight).in_panels(panel);
            let draft = draft.with(LF, 200_000).with(LO, 200_000).with(W, 20_000);
            let draft = draft.with(C, 30_000).with(M, 20_000).with(B, last);
            let draft = draft.with_hazards(&[[side, start, end, 25_000, 60_000, 6]]);
            list.extend([draft.clone(), draft.moved(LAST_STATION - last)]);
        }
    }
    list
}

/// Jobs with faults, cut at every byte, and with every number out of its form
/// and out of its range. Also said is the draft that was accepted, and whether
/// an argument is to be out of its range, too.
pub fn each_refused_job(
    checker: &mut Checker,
    random: &mut Random,
    ask: impl Fn(&mut Checker, &mut Random, &Draft, &[u8], bool) -> Outcome,
) -> Outcome {
    for _ in 0..40 {
        let draft = accepted(random, 2, 6);
        for _ in 0..12 {
            let mut broken = Broken::new(&draft, 0);
            broken.add(random.pick(&FAULTS), random);
            broken.add(random.pick(&FAULTS), random);
            ask(checker, random, &draft, &broken.bytes(), broken.side > 1)?;
        }
    }
    for kind in KINDS {
        let draft = accepted_of_kind(random, kind, 1, 3);
        let (job, numbers) = (draft.bytes(), draft.numbers());
        for length in 0..=job.len() {
            ask(checker, random, &draft, &job[..length], false)?;
        }
        for (place, value) in numbers.iter().enumerate() {
            let before = number_bytes(&numbers[..place]);
            let behind = number_bytes(&numbers[place + 1..]);
            let mut others: Vec<Vec<u8>> = wrong_forms(*value);
            let values = around(range(&numbers, place));
            others.extend(values.iter().map(|value| number_bytes(&[*value])));
            for other in others {
                let job = [&before[..], &other, &behind].concat();
                ask(checker, random, &draft, &job, false)?;
            }
        }
    }
    Ok(())
}

// Corners.

pub fn corners(checker: &mut Checker, random: &mut Random) -> Outcome {
    each_job(checker, random, 500, |checker, random, draft, indices| {
        let job = draft.bytes();
        for hazard in indices {
            let points = points_of(draft, *hazard);
            // One sheet corner, or one for each corner.
            for _ in 0..points.len().max(1) {
                checker.corners(&job, *hazard, sheet(random, &points))?;
            }
        }
        let hazard = index(random, draft);
        checker.corners(&job, hazard, bad_sheet(random))?;
        Ok(())
    })
}

pub fn refused_corners(checker: &mut Checker, random: &mut Random) -> Outcome {
    each_refused_job(checker, random, |checker, random, draft, job, bad| {
        let hazard = index(random, draft);
        let sheet = match bad {
            true => bad_sheet(random),
            false => sheet(random, &points_of(draft, hazard)),
        };
        checker.corners(job, hazard, sheet)?;
        Ok(())
    })
}

/// The corners of a hazard in whole millimetres; none where it has none.
fn points_of(draft: &Draft, hazard: u64) -> Vec<Point> {
    let Ok(job) = accepted_job(&draft.bytes()) else {
        return Vec::new();
    };
    match envelope::adjacent_approach(&job, hazard) {
        Ok((hazard, approach)) => points(&job, &hazard, &approach).to_vec(),
        Err(_) => Vec::new(),
    }
}

/// A sheet corner: the ends of its range, a corner of the hazard itself or a
/// millimetre from it, anything.
fn sheet(random: &mut Random, points: &[Point]) -> (u64, u64) {
    let near = match points.len() {
        0 => Point {
            station: 0,
            offset: 0,
        },
        count => points[random.index(count)],
    };
    (
        sheet_number(random, near.station),
        sheet_number(random, near.offset),
    )
}

fn sheet_number(random: &mut Random, near: i128) -> u64 {
    let near = near.clamp(0, SHEET_END.into()) as u64;
    match random.below(10) {
        0 => 0,
        1 => SHEET_END,
        2 => near.saturating_sub(1),
        3 => (near + 1).min(SHEET_END),
        4..=5 => random.edgy(0, SHEET_END),
        6 => random.pick(&[2_000_000_000, 2_000_000_001, 1 << 32]) + random.below(2),
        _ => near,
    }
}

/// One number or both out of range, some of them in range in 32 bits or in 40.
fn bad_sheet(random: &mut Random) -> (u64, u64) {
    let bad = random.pick(&[
        SHEET_END + 1,
        1 << 40,
        1 << 42,
        (1 << 42) + 200_000,
        (1 << 53) + 1,
        1 << 63,
        u64::MAX,
    ]);
    let other = random.pick(&[0, SHEET_END, bad]);
    random.pick(&[(bad, other), (other, bad)])
}

// Smallest offsets.

pub fn offsets(checker: &mut Checker, random: &mut Random) -> Outcome {
    each_job(checker, random, 120, |checker, random, draft, indices| {
        let job = draft.bytes();
        for hazard in indices {
            for _ in 0..2 {
                checker.offset(&job, *hazard, longest(random, draft, *hazard))?;
            }
        }
        Ok(())
    })?;
    for draft in [last_offsets(), small_jobs(random)].concat() {
        for hazard in indices(&draft) {
            for _ in 0..4 {
                let longest = longest(random, &draft, hazard);
                checker.offset(&draft.bytes(), hazard, longest)?;
            }
        }
    }
    Ok(())
}

pub fn refused_offsets(checker: &mut Checker, random: &mut Random) -> Outcome {
    each_refused_job(checker, random, |checker, random, draft, job, _| {
        let hazard = index(random, draft);
        checker.offset(job, hazard, longest(random, draft, hazard))?;
        Ok(())
    })
}

/// Jobs with few offsets to try, so that many of them can be asked for.
fn small_jobs(random: &mut Random) -> Vec<Draft> {
    let made = (0..150).map(|_| jobs::small(random));
    let accepted = made.filter(|draft| accepted_job(&draft.bytes()).is_ok());
    accepted.filter(|draft| draft.hazards.len() <= 8).collect()
}

/// n − D at 20,000, next to it and at 0, with and without flare and panels.
fn last_offsets() -> Vec<Draft> {
    let mut list = Vec::new();
    for (near, deflection) in [
        (20_001, 1),
        (24_999, 5_000),
        (25_000, 5_000),
        (25_001, 5_000),
        (29_999, 1),
        (5_000, 5_000),
        (1, 1),
    ] {
        for across in [0, 1] {
            let draft = PRINTED.with(M, 0).with(D, deflection).with(FLARE_B, across);
            let draft = draft.with(C, 30_000).with(LF, 200_000);
            let draft = draft.with_hazards(&[[0, 300_000, 300_001, near, 60_000, 2]]);
            list.extend([draft.clone(), draft.in_panels(7)]);
        }
    }
    list
}

/// A wanted longest approach: that of the least M, of the last one, of the
/// header's or of any, or a millimetre to either side of it; 0, 1, the greatest
/// numbers, and such as are short in 32 bits.
fn longest(random: &mut Random, draft: &Draft, hazard: u64) -> u64 {
    let any = match random.below(6) {
        0 => random.pick(&[0, 1, u64::MAX - 1, u64::MAX, 1 << 32]),
        _ => random.edgy(0, 210_000),
    };
    let Ok(job) = accepted_job(&draft.bytes()) else {
        return any;
    };
    let Ok((hazard, approach)) = envelope::adjacent_approach(&job, hazard) else {
        return any;
    };
    let last = (hazard.near - job.deflection).min(GREATEST);
    let offset = match random.below(9) {
        0 => return any,
        1..=2 => 0,
        3..=4 => last,
        5 => job.barrier_offset,
        _ => random.edgy(0, last),
    };
    let length = offset::length(&job, &approach, offset);
    match random.below(8) {
        0..=1 => length - 1,
        2 => length + 1,
        3 => length + (1 << 32),
        4 => envelope::before_raising(&job, &approach),
        _ => length,
    }
}
