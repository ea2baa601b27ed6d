//! Engines with one slip each, made of the reference's parts with one of them
//! exchanged. The test has to find every one of them.

use std::ops::Range;

use reference::approach::{Flare, formula, fraction, raised, whole};
use reference::calls::MOST_RANGES;
use reference::envelope::{self, Approach, Direction, Envelope, Lengthening, Overhang};
use reference::job::{self, Hazard, Job, ReadNumber, Reader};
use reference::level::{self, Required, Run};
use reference::{
    Lookup, Outcome, Planned, Quantities, Refusal, Stretch, lookup, number, quantities, quantity,
    schedule,
};

use crate::calls::{
    Calls, Contract, PlanCall, PlanReply, QuantitiesCall, QuantityCall, Record, Reply, contract,
    plan_reply, record, reply, right,
};
use crate::draft::{G, KIND, PANEL, number_bytes};
use crate::wrong_numbers::{JobReading, RIGHT_READING, by_reading, not_shortest};
use crate::{
    wrong_chainage, wrong_corners, wrong_layout, wrong_level, wrong_memory, wrong_names,
    wrong_offset, wrong_open, wrong_overhang, wrong_reach, wrong_reached, wrong_states,
};

/// Every wrong engine with the name of its slip.
pub fn all() -> Vec<(&'static str, Calls)> {
    let mut list = drawing_practice();
    list.extend(wrong_envelopes());
    list.extend(wrong_straight_parts());
    list.extend(wrong_panels());
    list.extend(wrong_kinds());
    list.extend(wrong_levels());
    list.extend(wrong_refusals());
    list.extend(wrong_memory());
    list.extend(wrong_quantities());
    list.extend(wrong_contracts());
    list.extend(wrong_lookups());
    list.extend(wrong_readings());
    list.extend(wrong_level::all());
    list.extend(wrong_open::all());
    list.extend(wrong_memory::all());
    list.extend(wrong_states::all());
    list.extend(wrong_overhang::all());
    list.extend(wrong_corners::all());
    list.extend(wrong_offset::all());
    list.extend(wrong_chainage::all());
    list.extend(wrong_names::all());
    list.extend(wrong_layout::all());
    list.extend(wrong_reach::all());
    list.extend(wrong_reached::all());
    list
}

pub fn with_plan(plan: Box<PlanCall>) -> Calls {
    Calls { plan, ..right() }
}

pub fn with_quantity(quantity: Box<QuantityCall>) -> Calls {
    Calls {
        quantity,
        ..right()
    }
}

pub fn with_quantities(quantities: Box<QuantitiesCall>) -> Calls {
    Calls {
        quantities,
        ..right()
    }
}

pub fn with_lookup(call: impl Fn(&[u8], &[u8], u64, u64) -> Record + 'static) -> Calls {
    Calls {
        lookup: Box::new(move |right, left, side, station| call(right, left, side, station)),
        ..right()
    }
}

/// The parts of planning that a slip exchanges.
#[derive(Clone, Copy)]
pub struct Rules {
    pub approaches: fn(&Job, &Hazard) -> Vec<Approach>,
    /// The length before it is raised to whole panels.
    pub length: fn(&Job, &Approach) -> u64,
    /// The raising of one traffic's length.
    pub raise: fn(&Job, &Approach, u64) -> u64,
    /// A raising of what both traffics' lengths make together.
    pub raise_both: fn(&Job, &Hazard, Lengthening) -> Lengthening,
    pub refuse: fn(&Job, usize, &Hazard, &Lengthening) -> Result<(), Refusal>,
    /// What is made of an envelope that is cut at the road's ends.
    pub after_cut: fn(&Hazard, &mut Envelope),
    pub runs: fn(&[Envelope], &Job) -> Vec<Run>,
    /// Whether the hazards are looked at before the bytes left over.
    pub hazards_before_left_over: bool,
    /// Whether hazards of the other side are looked at.
    pub both_sides: bool,
    /// Whether a hazard that nobody reaches is looked at.
    pub unreached: bool,
}

pub const RIGHT: Rules = Rules {
    approaches: envelope::approaches,
    length: envelope::before_raising,
    raise: |job, _, length| raised(length, job.panel),
    raise_both: |_, _, longer| longer,
    refuse: |job, index, hazard, _| too_near(job, index, hazard),
    after_cut: |_, _| (),
    runs: |envelopes, job| Required::new(envelopes, job.continuity).runs(),
    hazards_before_left_over: false,
    both_sides: true,
    unreached: false,
};

/// Planning by these rules.
pub fn by(rules: Rules) -> Calls {
    with_plan(Box::new(move |job, side, room, lent| {
        let planned = runs_and_overhang_by(&rules, job, side);
        plan_reply(planned.and_then(|(runs, Overhang { before, after })| {
            let written = put(&schedule::writing(&runs), &mut room[lent])?;
            Ok(Planned {
                written,
                before,
                after,
            })
        }))
    }))
}

pub fn runs_by(rules: &Rules, bytes: &[u8], side: u64) -> Result<Vec<Run>, Refusal> {
    let (runs, _) = runs_and_overhang_by(rules, bytes, side)?;
    Ok(runs)
}

fn runs_and_overhang_by(
    rules: &Rules,
    bytes: &[u8],
    side: u64,
) -> Result<(Vec<Run>, Overhang), Refusal> {
    if side > 1 {
        return Err(Refusal::argument());
    }
    let mut reader = Reader::new(bytes);
    let job = job::read_numbers(&mut reader)?;
    let envelopes = envelopes_by(rules, &job, side);
    let rest = match bytes.len() > reader.at {
        true => Err(Refusal::left_over(reader.at)),
        false => Ok(()),
    };
    let envelopes = if rules.hazards_before_left_over {
        let envelopes = envelopes?;
        rest?;
        envelopes
    } else {
        rest?;
        envelopes?
    };
    let runs = (rules.runs)(&envelopes, &job);
    Ok((runs, envelope::greatest_overhang(&envelopes)))
}

pub fn put(bytes: &[u8], out: &mut [u8]) -> Result<u64, Refusal> {
    if out.len() < bytes.len() {
        return Err(Refusal::output_short(bytes.len()));
    }
    out[..bytes.len()].copy_from_slice(bytes);
    Ok(bytes.len() as u64)
}

fn envelopes_by(rules: &Rules, job: &Job, side: u64) -> Result<Vec<Envelope>, Refusal> {
    let mut list = Vec::new();
    for (index, hazard) in job.hazards.iter().enumerate() {
        if hazard.side == side || rules.both_sides {
            list.extend(envelope_by(rules, job, index, hazard)?);
        }
    }
    list.retain(|e| e.side == side);
    Ok(list)
}

fn envelope_by(
    rules: &Rules,
    job: &Job,
    index: usize,
    hazard: &Hazard,
) -> Result<Option<Envelope>, Refusal> {
    let approaches = (rules.approaches)(job, hazard);
    if approaches.is_empty() && !rules.unreached {
        return Ok(None);
    }
    let each = lengthening_by(&approaches, |approach| {
        (rules.raise)(job, approach, (rules.length)(job, approach))
    });
    let longer = (rules.raise_both)(job, hazard, each);
    (rules.refuse)(job, index, hazard, &longer)?;
    if approaches.is_empty() {
        return Ok(None);
    }
    let mut envelope = envelope::cut(job, hazard, &longer);
    (rules.after_cut)(hazard, &mut envelope);
    Ok(Some(envelope))
}

fn lengthening_by(approaches: &[Approach], length: impl Fn(&Approach) -> u64) -> Lengthening {
    let mut longer = Lengthening::default();
    for approach in approaches {
        match approach.direction {
            Direction::Forward => longer.lower += length(approach),
            Direction::Opposite => longer.higher += length(approach),
        }
    }
    longer
}

/// Refusal 5.
pub fn too_near(job: &Job, index: usize, hazard: &Hazard) -> Result<(), Refusal> {
    match envelope::too_near(job, hazard) {
        true => Err(Refusal::too_near(index)),
        false => Ok(()),
    }
}

// The six slips from drawing practice.

fn drawing_practice() -> Vec<(&'static str, Calls)> {
    vec![
        (
            "rounding to the nearest millimetre",
            by(Rules {
                length: nearest,
                ..RIGHT
            }),
        ),
        (
            "the end station given to both lots",
            with_quantity(Box::new(|schedule, level, p, q| {
                reply(match quantity(schedule, level, p, q) {
                    Ok(_) => quantity(schedule, level, p, q.saturating_add(1)),
                    refused => refused,
                })
            })),
        ),
        (
            "a gap of exactly G filled",
            by(Rules {
                runs: |envelopes, job| Required::new(envelopes, job.continuity + 1).runs(),
                ..RIGHT
            }),
        ),
        (
            "W forgotten for far traffic",
            by(Rules {
                approaches: |job, hazard| far_without(job, hazard, true, true, true),
                ..RIGHT
            }),
        ),
        (
            "filled between different levels with the higher",
            by(Rules {
                runs: |envelopes, job| filled_between(envelopes, job.continuity, u64::max),
                ..RIGHT
            }),
        ),
        (
            "touching envelopes of one level as two runs",
            by(Rules {
                runs: two_runs,
                ..RIGHT
            }),
        ),
    ]
}

fn nearest(job: &Job, approach: &Approach) -> u64 {
    let (numerator, divisor) = parts(job, approach);
    whole((2 * numerator + divisor) / (2 * divisor))
}

fn down(job: &Job, approach: &Approach) -> u64 {
    let (numerator, divisor) = parts(job, approach);
    whole(numerator / divisor)
}

fn down_and_one_more(job: &Job, approach: &Approach) -> u64 {
    down(job, approach) + 1
}

/// The fraction of the length that the rule chooses.
fn parts(job: &Job, approach: &Approach) -> (u128, u128) {
    let flare = envelope::flare(job);
    let chosen = match without_flare(job, approach) <= job.straight {
        true => flare.without(),
        false => flare,
    };
    let runout = envelope::runout(job, approach.direction);
    fraction(runout, approach.reach, approach.offset, chosen)
}

fn without_flare(job: &Job, approach: &Approach) -> u64 {
    by_formula(job, approach, envelope::flare(job).without())
}

pub fn with_flare(job: &Job, approach: &Approach) -> u64 {
    by_formula(job, approach, envelope::flare(job))
}

fn by_formula(job: &Job, approach: &Approach, flare: Flare) -> u64 {
    let runout = envelope::runout(job, approach.direction);
    formula(runout, approach.reach, approach.offset, flare)
}

/// Far traffic without W in whether it reaches, in R, or in m.
fn far_without(job: &Job, hazard: &Hazard, reaches: bool, r: bool, m: bool) -> Vec<Approach> {
    let w = |forgotten| if forgotten { 0 } else { job.centreline };
    let c = job.clear_zone;
    let mut list = envelope::approaches(job, hazard);
    list.truncate(1);
    if let Some(direction) = envelope::far(job, hazard.side)
        && hazard.near + w(reaches) < c
    {
        list.push(Approach {
            direction,
            far: true,
            reach: (hazard.far + w(r)).min(c),
            offset: job.barrier_offset + w(m),
        });
    }
    list
}

/// Fills every short gap of the runs with one level made of its two
/// neighbours' levels.
pub fn filled_between(envelopes: &[Envelope], limit: u64, choose: fn(u64, u64) -> u64) -> Vec<Run> {
    let mut filled: Vec<Run> = Vec::new();
    for run in Required::new(envelopes, 0).runs() {
        if let Some(last) = filled.last().copied()
            && run.stretch.start - last.stretch.end < limit
        {
            join(
                &mut filled,
                Run {
                    stretch: Stretch::new(last.stretch.end, run.stretch.start),
                    level: choose(last.level, run.level),
                },
            );
        }
        join(&mut filled, run);
    }
    filled
}

/// Two runs that touch have no gap to fill: its stretch is empty.
fn join(runs: &mut Vec<Run>, next: Run) {
    if next.stretch.length() > 0 {
        level::lengthen_or_push(runs, next);
    }
}

/// Cuts a run wherever one envelope of its level ends and another begins.
fn two_runs(envelopes: &[Envelope], job: &Job) -> Vec<Run> {
    let runs = Required::new(envelopes, job.continuity).runs();
    let touch = |at: u64, level: u64| {
        let ends = |e: &&Envelope| e.level == level && e.stretch.end == at;
        let begins = |e: &&Envelope| e.level == level && e.stretch.start == at;
        envelopes.iter().any(|e| ends(&e)) && envelopes.iter().any(|e| begins(&e))
    };
    let mut cut = Vec::new();
    for Run { mut stretch, level } in runs {
        let mut starts: Vec<u64> = envelopes.iter().map(|e| e.stretch.start).collect();
        starts.sort();
        starts.dedup();
        for at in starts {
            if stretch.start < at && at < stretch.end && touch(at, level) {
                cut.push(Run {
                    stretch: Stretch::new(stretch.start, at),
                    level,
                });
                stretch.start = at;
            }
        }
        cut.push(Run { stretch, level });
    }
    cut
}

// Envelopes.

fn wrong_envelopes() -> Vec<(&'static str, Calls)> {
    let approaches = |approaches| {
        by(Rules {
            approaches,
            ..RIGHT
        })
    };
    let length = |length| by(Rules { length, ..RIGHT });
    vec![
        ("rounding down", length(down)),
        ("a whole length made one more", length(down_and_one_more)),
        (
            "W forgotten in whether far traffic reaches",
            approaches(|job, hazard| far_without(job, hazard, true, false, false)),
        ),
        (
            "W forgotten in far traffic's R",
            approaches(|job, hazard| far_without(job, hazard, false, true, false)),
        ),
        (
            "W forgotten in far traffic's m",
            approaches(|job, hazard| far_without(job, hazard, false, false, true)),
        ),
        ("reach not cut at C", approaches(uncut)),
        ("reached at n = C", approaches(reached_at_the_clear_zone)),
        ("left taken as right", approaches(left_as_right)),
        ("LO = 0 on the left taken as opposite", approaches(mirrored)),
        ("both traffics' runouts exchanged", length(other_runout)),
        ("T kept where there is no flare", length(straight_always)),
    ]
}

fn uncut(job: &Job, hazard: &Hazard) -> Vec<Approach> {
    let mut list = envelope::approaches(job, hazard);
    if let Some(adjacent) = list.first_mut() {
        adjacent.reach = hazard.far;
    }
    list
}

fn reached_at_the_clear_zone(job: &Job, hazard: &Hazard) -> Vec<Approach> {
    let inside = Hazard {
        near: hazard.near.saturating_sub(1),
        ..*hazard
    };
    envelope::approaches(job, &inside)
}

fn left_as_right(job: &Job, hazard: &Hazard) -> Vec<Approach> {
    envelope::approaches(job, &Hazard { side: 0, ..*hazard })
}

/// On the left of a one-way road the approach comes from the wrong end.
fn mirrored(job: &Job, hazard: &Hazard) -> Vec<Approach> {
    let mut list = envelope::approaches(job, hazard);
    if hazard.side == 1 && job.runout_opposite == 0 {
        for approach in &mut list {
            approach.direction = Direction::Opposite;
        }
    }
    list
}

fn other_runout(job: &Job, approach: &Approach) -> u64 {
    let mut swapped = job.clone();
    if job.runout_opposite > 0 {
        swapped.runout_forward = job.runout_opposite;
        swapped.runout_opposite = job.runout_forward;
    }
    envelope::before_raising(&swapped, approach)
}

/// T taken along even where there is no flare.
fn straight_always(job: &Job, approach: &Approach) -> u64 {
    let length = envelope::before_raising(job, approach);
    match job.flare_across {
        0 => length.max(job.straight),
        _ => length,
    }
}

// Approaches that end in the straight part.

fn wrong_straight_parts() -> Vec<(&'static str, Calls)> {
    let length = |length| by(Rules { length, ..RIGHT });
    vec![
        ("the formula with flare always", length(with_flare)),
        ("the formula without flare always", length(without_flare)),
        (
            "the straight part for adjacent traffic alone",
            length(|job, approach| match approach.far {
                true => with_flare(job, approach),
                false => envelope::before_raising(job, approach),
            }),
        ),
        (
            "the straight part for far traffic alone",
            length(|job, approach| match approach.far {
                true => envelope::before_raising(job, approach),
                false => with_flare(job, approach),
            }),
        ),
        (
            "the straight part of far traffic asked with adjacent traffic's m",
            length(|job, approach| {
                let asked = Approach {
                    offset: job.barrier_offset,
                    ..*approach
                };
                where_straight(job, approach, without_flare(job, &asked) <= job.straight)
            }),
        ),
        (
            "at most twice T",
            length(|job, approach| {
                let straight = without_flare(job, approach) <= 2 * job.straight;
                where_straight(job, approach, straight)
            }),
        ),
        (
            "at most half of T",
            length(|job, approach| {
                let straight = 2 * without_flare(job, approach) <= job.straight;
                where_straight(job, approach, straight)
            }),
        ),
        (
            "the runout length at most T",
            length(|job, approach| {
                let runout = envelope::runout(job, approach.direction);
                where_straight(job, approach, runout <= job.straight)
            }),
        ),
        (
            "the whole straight part built",
            length(|job, approach| match without_flare(job, approach) {
                without if without <= job.straight && job.flare_across > 0 => job.straight,
                _ => envelope::before_raising(job, approach),
            }),
        ),
        (
            "a length in the straight part rounded down",
            length(|job, approach| match without_flare(job, approach) {
                without if without <= job.straight => down(job, approach).max(1),
                _ => envelope::before_raising(job, approach),
            }),
        ),
        (
            "a length with flare rounded down",
            length(|job, approach| match without_flare(job, approach) {
                without if without <= job.straight => without,
                _ => down(job, approach).max(1),
            }),
        ),
    ]
}

fn where_straight(job: &Job, approach: &Approach, straight: bool) -> u64 {
    match straight {
        true => without_flare(job, approach),
        false => with_flare(job, approach),
    }
}

// Approaches in whole panels.

fn wrong_panels() -> Vec<(&'static str, Calls)> {
    let raise = |raise| by(Rules { raise, ..RIGHT });
    let raise_both = |raise_both| {
        by(Rules {
            raise: |_, _, length| length,
            raise_both,
            ..RIGHT
        })
    };
    vec![
        ("the panel length passed over", raise(|_, _, length| length)),
        (
            "lengths that end in the straight part not raised",
            raise(
                |job, approach, length| match without_flare(job, approach) <= job.straight {
                    true => length,
                    false => raised(length, job.panel),
                },
            ),
        ),
        (
            "lengths with flare not raised",
            raise(
                |job, approach, length| match without_flare(job, approach) <= job.straight {
                    true => raised(length, job.panel),
                    false => length,
                },
            ),
        ),
        (
            "always one panel more",
            raise(|job, _, length| match job.kind {
                2 => length / job.panel * job.panel + job.panel,
                _ => length,
            }),
        ),
        (
            "raised down",
            raise(|job, _, length| length / job.panel * job.panel),
        ),
        (
            "raised to the nearest multiple",
            raise(|job, _, length| (2 * length + job.panel) / (2 * job.panel) * job.panel),
        ),
        (
            "raised for adjacent traffic alone",
            raise(|job, approach, length| match approach.far {
                true => length,
                false => raised(length, job.panel),
            }),
        ),
        (
            "raised for far traffic alone",
            raise(|job, approach, length| match approach.far {
                true => raised(length, job.panel),
                false => length,
            }),
        ),
        (
            "one panel laid for a whole approach",
            raise(|job, _, length| length.max(job.panel)),
        ),
        (
            "the panel length added",
            raise(|job, _, length| match job.kind {
                2 => length + job.panel,
                _ => length,
            }),
        ),
        (
            "panel lengths in one byte",
            raise(|job, _, length| raised(length, (job.panel & 0xFF).max(1))),
        ),
        (
            "both approaches raised together",
            raise_both(|job, _, longer| {
                let sum = longer.lower + longer.higher;
                at_an_end(longer, raised(sum, job.panel) - sum)
            }),
        ),
        (
            "the whole envelope raised",
            raise_both(|job, hazard, longer| {
                let whole = longer.lower + (hazard.end - hazard.start) + longer.higher;
                at_an_end(longer, raised(whole, job.panel) - whole)
            }),
        ),
    ]
}

/// What is missing to whole panels, at the end where a traffic approaches.
fn at_an_end(longer: Lengthening, missing: u64) -> Lengthening {
    match longer.lower {
        0 => Lengthening {
            higher: longer.higher + missing,
            ..longer
        },
        lower => Lengthening {
            lower: lower + missing,
            ..longer
        },
    }
}

// The header of both kinds.

fn wrong_kinds() -> Vec<(&'static str, Calls)> {
    // The job's numbers changed before they are planned.
    let numbers = |change: fn(&mut [u64])| {
        with_plan(Box::new(move |job, side, room, lent| {
            let Some(mut numbers) = all_numbers(job) else {
                return (right().plan)(job, side, room, lent);
            };
            change(&mut numbers);
            (right().plan)(&mut number_bytes(&numbers), side, room, lent)
        }))
    };
    vec![
        (
            "14 for the hazard count of kind 2",
            changed_reply(|reply, _, _| {
                if (reply.number, reply.value) == (3, 15) {
                    reply.value = 14;
                }
            }),
        ),
        (
            "15 for the hazard count of kind 1",
            changed_reply(|reply, job, _| {
                if (reply.number, reply.value) == (3, 14) && job[0] == 1 {
                    reply.value = 15;
                }
            }),
        ),
        (
            "15 for the panel length",
            changed_reply(|reply, job, _| {
                if (reply.number, reply.value) == (3, 14) && job[0] == 2 {
                    reply.value = 15;
                }
            }),
        ),
        (
            "kind 2 refused",
            changed_reply(|reply, job, _| {
                if reply.number != 8 && job.first() == Some(&2) {
                    (reply.number, reply.value) = (3, 1);
                }
            }),
        ),
        (
            "kind 2 read as kind 1",
            numbers(|list| other_kind(list, 2, 1)),
        ),
        (
            "kind 1 read as kind 2",
            numbers(|list| other_kind(list, 1, 2)),
        ),
        (
            "kind 3 read as kind 2",
            numbers(|list| other_kind(list, 3, 2)),
        ),
        (
            "kind 0 read as kind 1",
            numbers(|list| other_kind(list, 0, 1)),
        ),
        (
            "a panel length of 0 taken as 1",
            numbers(|list| other_panel(list, 0, 1)),
        ),
        (
            "a panel length of 10,001 taken",
            numbers(|list| other_panel(list, 10_001, 10_000)),
        ),
        (
            "a panel length of 10,000 refused",
            numbers(|list| other_panel(list, 10_000, 10_001)),
        ),
        (
            "the panel length before G",
            numbers(|list| {
                if list.first() == Some(&2) && list.len() > PANEL {
                    list.swap(G, PANEL);
                }
            }),
        ),
    ]
}

/// One kind taken as another.
fn other_kind(numbers: &mut [u64], kind: u64, other: u64) {
    if numbers.first() == Some(&kind) {
        numbers[KIND] = other;
    }
}

/// One panel length of kind 2 taken as another.
fn other_panel(numbers: &mut [u64], panel: u64, other: u64) {
    if numbers.first() == Some(&2) && numbers.get(PANEL) == Some(&panel) {
        numbers[PANEL] = other;
    }
}

/// The numbers of the bytes, if they are all in the number form.
fn all_numbers(bytes: &[u8]) -> Option<Vec<u64>> {
    let mut list = Vec::new();
    let mut at = 0;
    while at < bytes.len() {
        let number = number::read(bytes, at).ok()?;
        list.push(number.value);
        at = number.next;
    }
    Some(list)
}

// Levels.

fn wrong_levels() -> Vec<(&'static str, Calls)> {
    let runs = |runs| by(Rules { runs, ..RIGHT });
    vec![
        (
            "gaps never filled",
            runs(|envelopes, _| Required::new(envelopes, 0).runs()),
        ),
        (
            "gaps of G - 1 left open",
            runs(|envelopes, job| {
                Required::new(envelopes, job.continuity.saturating_sub(1)).runs()
            }),
        ),
        (
            "gaps filled in the runs and not for each level",
            runs(|envelopes, job| filled_between(envelopes, job.continuity, u64::min)),
        ),
        ("envelopes of exactly level v only", runs(each_level_alone)),
        (
            "filled up to the road's ends",
            runs(filled_to_the_road_ends),
        ),
        ("a level lowered by the last hazard", runs(last_on_top)),
        ("level 6 left out", runs(without_level_6)),
    ]
}

/// Takes only the envelopes of level v itself into the set of v.
pub fn each_level_alone(envelopes: &[Envelope], job: &Job) -> Vec<Run> {
    let mut filled = Vec::new();
    for v in 1..=level::HIGHEST {
        let alone: Vec<Stretch> = envelopes
            .iter()
            .filter(|e| e.level == v)
            .map(|e| e.stretch)
            .collect();
        let set = level::fill(&level::set(alone), job.continuity);
        filled.extend(set.into_iter().map(|stretch| Envelope {
            side: 0,
            stretch,
            level: v,
            overhang: Overhang::default(),
        }));
    }
    Required::new(&filled, 0).runs()
}

/// Takes the road's ends as if a barrier of level 1 stood there.
fn filled_to_the_road_ends(envelopes: &[Envelope], job: &Job) -> Vec<Run> {
    let mut runs = Required::new(envelopes, job.continuity).runs();
    if let Some(first) = runs.first_mut()
        && first.stretch.start - job.road_begin < job.continuity
    {
        first.stretch.start = job.road_begin;
    }
    if let Some(last) = runs.last_mut()
        && job.road_end - last.stretch.end < job.continuity
    {
        last.stretch.end = job.road_end;
    }
    runs
}

/// Where envelopes overlap, the hazard that stands last in the job decides.
pub fn last_on_top(envelopes: &[Envelope], job: &Job) -> Vec<Run> {
    let mut changed = envelopes.to_vec();
    if let [.., before, last] = &mut changed[..]
        && before.stretch.shared(&last.stretch) > 0
    {
        before.level = before.level.min(last.level);
    }
    Required::new(&changed, job.continuity).runs()
}

fn without_level_6(envelopes: &[Envelope], job: &Job) -> Vec<Run> {
    let mut changed = envelopes.to_vec();
    for envelope in &mut changed {
        envelope.level = envelope.level.min(5);
    }
    Required::new(&changed, job.continuity).runs()
}

// Refusals of plan.

fn wrong_refusals() -> Vec<(&'static str, Calls)> {
    vec![
        (
            "refusal 5 before 7",
            by(Rules {
                hazards_before_left_over: true,
                ..RIGHT
            }),
        ),
        (
            "hazards of the other side not looked at",
            by(Rules {
                both_sides: false,
                ..RIGHT
            }),
        ),
        (
            "a hazard that nobody reaches refused 5",
            by(Rules {
                unreached: true,
                ..RIGHT
            }),
        ),
        (
            "n = M + D refused 5",
            by(Rules {
                refuse: refuse_at_equal,
                ..RIGHT
            }),
        ),
        (
            "every number's form before any range",
            with_plan(plan_after(form_first)),
        ),
        ("refusal 9 before 5", with_plan(output_first())),
        ("the job before the side", with_plan(side_last())),
        (
            "non-shortest numbers accepted in a job",
            with_plan(
                by_reading(JobReading {
                    number: not_shortest,
                    ..RIGHT_READING
                })
                .plan,
            ),
        ),
        (
            "refusal 1 with the index where the bytes end",
            changed_reply(|reply, job, _| {
                if reply.number == 1 {
                    reply.value = job.len() as u64;
                }
            }),
        ),
        (
            "refusal 2 with the index of the faulty byte",
            changed_reply(|reply, job, _| {
                if reply.number == 2 {
                    let rest = &job[reply.value as usize..];
                    let last = rest.iter().take(5).take_while(|byte| **byte > 0x7F);
                    reply.value += last.count() as u64;
                }
            }),
        ),
        (
            "header numbers counted from 0",
            changed_reply(|reply, _, _| {
                if reply.number == 3 {
                    reply.value -= 1;
                }
            }),
        ),
        (
            "hazards counted from 1",
            changed_reply(|reply, _, _| {
                if (4..=5).contains(&reply.number) {
                    reply.value += 1;
                }
            }),
        ),
        (
            "bytes needed, one too few",
            changed_reply(|reply, _, _| {
                if reply.number == 9 {
                    reply.value -= 1;
                }
            }),
        ),
        (
            "bytes missing in place of bytes needed",
            changed_reply(|reply, _, lent| {
                if reply.number == 9 {
                    reply.value -= lent.len() as u64;
                }
            }),
        ),
    ]
}

fn refuse_at_equal(
    job: &Job,
    index: usize,
    hazard: &Hazard,
    _: &Lengthening,
) -> Result<(), Refusal> {
    if hazard.near == job.barrier_offset + job.deflection {
        return Err(Refusal::too_near(index));
    }
    too_near(job, index, hazard)
}

/// The right plan, unless another refusal is seen first.
fn plan_after(first: fn(&[u8]) -> Result<(), Refusal>) -> Box<PlanCall> {
    Box::new(move |job, side, room, lent| {
        if side <= 1
            && let Err(refusal) = first(job)
        {
            return plan_reply(Err(refusal));
        }
        (right().plan)(job, side, room, lent)
    })
}

/// Looks through all bytes of the job for refusal 2.
fn form_first(job: &[u8]) -> Result<(), Refusal> {
    let mut begin = 0;
    while begin < job.len() {
        match number::read(job, begin) {
            Ok(number) => begin = number.next,
            Err(number::Fault::Form) => return Err(Refusal::number_form(begin)),
            Err(number::Fault::Ends) => return Ok(()),
        }
    }
    Ok(())
}

/// An output without a byte is refused before the hazards are looked at.
fn output_first() -> Box<PlanCall> {
    Box::new(|job, side, room, lent| {
        let mut reply = (right().plan)(job, side, room, lent.clone());
        if lent.is_empty() && reply.number == 5 {
            (reply.number, reply.value) = (9, 1);
        }
        reply
    })
}

fn side_last() -> Box<PlanCall> {
    Box::new(|job, side, room, lent| {
        if side > 1
            && let Err(refusal) = reference::calls::runs(job, 0)
        {
            return plan_reply(Err(refusal));
        }
        (right().plan)(job, side, room, lent)
    })
}

/// The right plan with its reply changed.
fn changed_reply(change: fn(&mut PlanReply, &[u8], Range<usize>)) -> Calls {
    with_plan(Box::new(move |job, side, room, lent| {
        let mut reply = (right().plan)(job, side, room, lent.clone());
        change(&mut reply, job, lent);
        reply
    }))
}

// Lent memory.

fn wrong_memory() -> Vec<(&'static str, Calls)> {
    vec![
        (
            "a byte too many written behind the schedule",
            changed_room(|reply, room, lent| {
                let behind = lent.start + reply.value as usize;
                if reply.number == 0 && lent.contains(&behind) {
                    room[behind] = 0;
                }
            }),
        ),
        (
            "a byte written on a refusal",
            changed_room(|reply, room, lent| {
                if reply.number != 0 && !lent.is_empty() {
                    room[lent.start] = 0;
                }
            }),
        ),
        (
            "a schedule begun in a short output",
            changed_room(|reply, room, lent| {
                if reply.number == 9 && !lent.is_empty() {
                    room[lent.start] = reply.value as u8;
                }
            }),
        ),
        (
            "a byte written behind the lent output",
            changed_room(|reply, room, lent| {
                if reply.number == 0 {
                    room[lent.end] = 0;
                }
            }),
        ),
        (
            "a byte written before the lent output",
            changed_room(|reply, room, lent| {
                if reply.number == 9 {
                    room[lent.start - 1] = 0;
                }
            }),
        ),
        (
            "the schedule's last byte not written",
            changed_room(|reply, room, lent| {
                if reply.number == 0 {
                    room[lent.start + reply.value as usize - 1] = 0xEE;
                }
            }),
        ),
        (
            "the job's bytes changed",
            with_plan(Box::new(|job, side, room, lent| {
                let reply = (right().plan)(job, side, room, lent);
                if let Some(last) = job.last_mut() {
                    *last = 0;
                }
                reply
            })),
        ),
        (
            "the schedule's bytes changed by quantity",
            with_quantity(Box::new(|schedule, level, p, q| {
                let reply = (right().quantity)(schedule, level, p, q);
                if let Some(first) = schedule.first_mut() {
                    *first ^= 1;
                }
                reply
            })),
        ),
    ]
}

/// The right plan with the room changed afterwards.
fn changed_room(change: fn(Reply, &mut [u8], Range<usize>)) -> Calls {
    with_plan(Box::new(move |job, side, room, lent| {
        let reply = (right().plan)(job, side, room, lent.clone());
        change(reply.reply(), room, lent);
        reply
    }))
}

// Quantities.

fn wrong_quantities() -> Vec<(&'static str, Calls)> {
    let asked = |call: fn(&[u8], u64, u64, u64) -> Result<u64, Refusal>| {
        with_quantity(Box::new(move |schedule, level, p, q| {
            reply(call(schedule, level, p, q))
        }))
    };
    vec![
        ("that level or higher counted", asked(or_higher)),
        (
            "whole runs counted that begin in the lot",
            asked(whole_runs),
        ),
        (
            "lots in 32 bits",
            asked(|schedule, level, p, q| {
                let most = u64::from(u32::MAX);
                let refused = quantity(schedule, level, p, q);
                refused.and(quantity(
                    schedule,
                    level,
                    p & most,
                    (q & most).max(p & most),
                ))
            }),
        ),
        (
            "an empty lot refused",
            asked(|schedule, level, p, q| match p == q {
                true => Err(Refusal::argument()),
                false => quantity(schedule, level, p, q),
            }),
        ),
        (
            "level 0 taken",
            asked(|schedule, level, p, q| quantity(schedule, level.max(1), p, q)),
        ),
        (
            "p above q counted as nothing",
            asked(|schedule, level, p, q| quantity(schedule, level, p, q.max(p))),
        ),
        (
            "the schedule before the arguments",
            asked(|schedule, level, p, q| match schedule::read(schedule) {
                Some(_) => quantity(schedule, level, p, q),
                None => Err(Refusal::no_schedule()),
            }),
        ),
    ]
}

fn or_higher(schedule: &[u8], level: u64, p: u64, q: u64) -> Result<u64, Refusal> {
    let mut sum = quantity(schedule, level, p, q)?;
    for higher in level + 1..=level::HIGHEST {
        sum += quantity(schedule, higher, p, q)?;
    }
    Ok(sum)
}

fn whole_runs(schedule: &[u8], level: u64, p: u64, q: u64) -> Result<u64, Refusal> {
    quantity(schedule, level, p, q)?;
    let records = schedule::read(schedule).unwrap_or_default();
    let asked = Stretch::new(p, q);
    Ok(records
        .iter()
        .filter(|r| r.run.level == level && asked.has(r.run.stretch.start))
        .map(|r| r.run.stretch.length())
        .sum())
}

// Quantities for whole contracts.

fn wrong_contracts() -> Vec<(&'static str, Calls)> {
    let asked = |call: fn(&[u8], u64, &[u64]) -> Contract| {
        with_quantities(Box::new(move |schedule, level, ranges| {
            call(schedule, level, ranges)
        }))
    };
    let changed = |change: fn(&mut Contract, &[u8], u64, &[u64])| {
        with_quantities(Box::new(move |schedule, level, ranges| {
            let mut reply = contract(quantities(schedule, level, ranges));
            change(&mut reply, schedule, level, ranges);
            reply
        }))
    };
    let reading = |reading: Reading| {
        with_quantities(Box::new(move |schedule, level, ranges| {
            quantities_by(&reading, schedule, level, ranges)
        }))
    };
    let mut list = vec![
        (
            "refusal 11 before 8",
            changed(|reply, _, _, ranges| {
                if reply.number == 8 && ranges.len() > 2 * MOST_RANGES {
                    *reply = refused_contract(11);
                }
            }),
        ),
        (
            "p above q behind the 64th range passed over",
            changed(|reply, schedule, level, ranges| {
                if reply.number == 8 && ranges.len() > 2 * MOST_RANGES && ranges.len() % 2 == 0 {
                    let first = quantities(schedule, level, &ranges[..2 * MOST_RANGES]);
                    *reply = match contract(first).number {
                        8 => *reply,
                        _ => refused_contract(11),
                    };
                }
            }),
        ),
        (
            "p above q looked for in the first range alone",
            changed(|reply, schedule, level, ranges| {
                if reply.number == 8 && ranges.len() % 2 == 0 && ranges.len() <= 2 * MOST_RANGES {
                    let mut set_right = ranges.to_vec();
                    for range in set_right.chunks_exact_mut(2).skip(1) {
                        range[1] = range[1].max(range[0]);
                    }
                    *reply = contract(quantities(schedule, level, &set_right));
                }
            }),
        ),
        (
            "refusal 10 before 11",
            changed(|reply, schedule, _, _| {
                if reply.number == 11 && schedule::read(schedule).is_none() {
                    *reply = refused_contract(10);
                }
            }),
        ),
        (
            "refusal 11 with the count of ranges",
            changed(|reply, _, _, ranges| {
                if reply.number == 11 {
                    reply.value = ranges.len() as u64 / 2;
                }
            }),
        ),
        (
            "a number without its partner passed over",
            asked(|schedule, level, ranges| {
                let whole = &ranges[..ranges.len() / 2 * 2];
                contract(quantities(schedule, level, whole))
            }),
        ),
        (
            "a number without its partner counted as a range of 11",
            changed(|reply, schedule, level, ranges| {
                if ranges.len() % 2 == 1 && ranges.len() > 2 * MOST_RANGES {
                    let mut partner = ranges.to_vec();
                    partner.push(u64::MAX);
                    *reply = contract(quantities(schedule, level, &partner));
                }
            }),
        ),
        (
            "65 ranges taken",
            asked(|schedule, level, ranges| {
                let taken = match contract(quantities(schedule, level, ranges)).number {
                    11 if ranges.len() == 2 * MOST_RANGES + 2 => &ranges[..2 * MOST_RANGES],
                    _ => ranges,
                };
                contract(quantities(schedule, level, taken))
            }),
        ),
        (
            "64 ranges refused 11",
            changed(|reply, _, _, ranges| {
                if reply.number == 0 && ranges.len() == 2 * MOST_RANGES {
                    *reply = refused_contract(11);
                }
            }),
        ),
        (
            "no ranges refused 8",
            changed(|reply, _, _, ranges| {
                if ranges.is_empty() {
                    *reply = refused_contract(8);
                }
            }),
        ),
        (
            "no ranges, so no record read",
            changed(|reply, _, _, ranges| {
                if ranges.is_empty() {
                    reply.records = 0;
                }
            }),
        ),
        (
            "no ranges, so no schedule refused",
            changed(|reply, _, _, ranges| {
                if ranges.is_empty() && reply.number == 10 {
                    *reply = refused_contract(0);
                }
            }),
        ),
        (
            "an empty range refused",
            changed(|reply, _, _, ranges| {
                if ranges.chunks_exact(2).any(|range| range[0] == range[1]) {
                    *reply = refused_contract(8);
                }
            }),
        ),
        (
            "the end station given to both ranges",
            asked(|schedule, level, ranges| {
                let mut longer = ranges.to_vec();
                if contract(quantities(schedule, level, ranges)).number == 0 {
                    for range in longer.chunks_exact_mut(2) {
                        range[1] = range[1].saturating_add(1);
                    }
                }
                contract(quantities(schedule, level, &longer))
            }),
        ),
        (
            "records taken from the head of a damaged schedule",
            changed(|reply, schedule, _, _| {
                if let (10, Ok(head)) = (reply.number, number::read(schedule, 0)) {
                    reply.records = head.value;
                }
            }),
        ),
        (
            "records left after an argument refused",
            changed(|reply, schedule, _, _| {
                if let (8, Some(records)) = (reply.number, schedule::read(schedule)) {
                    reply.records = records.len() as u64;
                }
            }),
        ),
        (
            "records of the level alone",
            changed(|reply, schedule, level, _| {
                let records = schedule::read(schedule).unwrap_or_default();
                let of_level = records.iter().filter(|record| record.run.level == level);
                reply.records = reply.records.min(of_level.count() as u64);
            }),
        ),
        (
            "records up to the last range alone",
            changed(|reply, schedule, _, ranges| {
                let end = ranges.iter().max().copied().unwrap_or(u64::MAX);
                let records = schedule::read(schedule).unwrap_or_default();
                let walked = records.iter().filter(|r| r.run.stretch.start < end);
                reply.records = reply.records.min(walked.count() as u64);
            }),
        ),
        (
            "quantities left after a damaged schedule is refused",
            changed(|reply, schedule, level, ranges| {
                if reply.number == 10 {
                    reply.quantities = quantities_until_the_fault(schedule, level, ranges);
                }
            }),
        ),
        (
            "quantities of the first 64 ranges left after refusal 11",
            changed(|reply, schedule, level, ranges| {
                if reply.number == 11 {
                    let first = quantities(schedule, level, &ranges[..2 * MOST_RANGES]);
                    reply.quantities = contract(first).quantities;
                }
            }),
        ),
        (
            "quantities of the ranges before p above q left",
            changed(|reply, schedule, level, ranges| {
                if reply.number == 8 && ranges.len() <= 2 * MOST_RANGES {
                    let mut pairs = ranges.chunks_exact(2);
                    let whole = pairs.position(|range| range[0] > range[1]).unwrap_or(0);
                    let before = quantities(schedule, level, &ranges[..2 * whole]);
                    reply.quantities = contract(before).quantities;
                }
            }),
        ),
        (
            "a quantity behind the last range",
            changed(|reply, schedule, level, ranges| {
                if let Some(place) = reply.quantities.get_mut(ranges.len() / 2) {
                    *place = quantity(schedule, level, 0, u64::MAX).unwrap_or(0);
                }
            }),
        ),
        (
            "the 64th quantity left out",
            changed(|reply, _, _, _| reply.quantities[MOST_RANGES - 1] = 0),
        ),
        (
            "ranges taken as lots that do not overlap",
            asked(|schedule, level, ranges| {
                let mut apart = ranges.to_vec();
                let mut end = 0;
                if contract(quantities(schedule, level, ranges)).number == 0 {
                    for range in apart.chunks_exact_mut(2) {
                        range[0] = range[0].max(end).min(range[1]);
                        end = range[1];
                    }
                }
                contract(quantities(schedule, level, &apart))
            }),
        ),
        (
            "quantities in the order of the stations",
            asked(|schedule, level, ranges| {
                contract(quantities(schedule, level, &in_order(ranges)))
            }),
        ),
        (
            "that level or higher counted in a contract",
            changed(|reply, schedule, level, ranges| {
                for higher in level..=level::HIGHEST {
                    if higher > level && reply.number == 0 {
                        let more = contract(quantities(schedule, higher, ranges));
                        for (sum, quantity) in reply.quantities.iter_mut().zip(more.quantities) {
                            *sum += quantity;
                        }
                    }
                }
            }),
        ),
        (
            "ranges in 32 bits",
            asked(|schedule, level, ranges| {
                let mut cut = ranges.to_vec();
                if contract(quantities(schedule, level, ranges)).number == 0 {
                    for range in cut.chunks_exact_mut(2) {
                        range[0] &= 0xFFFF_FFFF;
                        range[1] = (range[1] & 0xFFFF_FFFF).max(range[0]);
                    }
                }
                contract(quantities(schedule, level, &cut))
            }),
        ),
        (
            "the ranges put in order in the caller's memory",
            with_quantities(Box::new(|schedule, level, ranges| {
                let reply = contract(quantities(schedule, level, ranges));
                let sorted = in_order(ranges);
                ranges.copy_from_slice(&sorted);
                reply
            })),
        ),
        (
            "the schedule's bytes changed by quantities",
            with_quantities(Box::new(|schedule, level, ranges| {
                let reply = contract(quantities(schedule, level, ranges));
                if let Some(last) = schedule.last_mut() {
                    *last ^= 1;
                }
                reply
            })),
        ),
    ];
    list.extend([
        (
            "512 runs read by quantities",
            reading(Reading {
                most_runs: 512,
                ..STRICT
            }),
        ),
        (
            "touching runs of one level read by quantities",
            reading(Reading {
                touching: true,
                ..STRICT
            }),
        ),
        (
            "bytes behind the last record read by quantities",
            reading(Reading {
                left_over: true,
                ..STRICT
            }),
        ),
        (
            "non-shortest numbers accepted by quantities",
            reading(Reading {
                number: not_shortest,
                ..STRICT
            }),
        ),
    ]);
    list
}

fn refused_contract(number: u64) -> Contract {
    Contract {
        number,
        value: 0,
        records: 0,
        quantities: [0; MOST_RANGES],
    }
}

/// The ranges by their stations; a last number without its partner stays.
fn in_order(ranges: &[u64]) -> Vec<u64> {
    let pairs = ranges.chunks_exact(2);
    let rest = pairs.remainder();
    let mut list: Vec<&[u64]> = pairs.collect();
    list.sort();
    list.push(rest);
    list.concat()
}

/// What the records give that stand before the fault.
fn quantities_until_the_fault(schedule: &[u8], level: u64, ranges: &[u64]) -> [u64; MOST_RANGES] {
    let mut sums = [0; MOST_RANGES];
    let mut at = number::read(schedule, 0).map_or(schedule.len(), |count| count.next);
    let mut previous = None;
    while let Some(values) = next_three(number::read, schedule, &mut at) {
        let Some(run) = run_by(&STRICT, previous, values) else {
            break;
        };
        if run.level == level {
            for (sum, range) in sums.iter_mut().zip(ranges.chunks_exact(2)) {
                *sum += run.stretch.shared(&Stretch::new(range[0], range[1]));
            }
        }
        previous = Some(run);
    }
    sums
}

// Lookups.

fn wrong_lookups() -> Vec<(&'static str, Calls)> {
    vec![
        (
            "the other side's schedule looked up",
            with_lookup(|right, left, side, station| record(lookup(left, right, side, station))),
        ),
        (
            "the empty part at the schedule's end",
            with_lookup(|right, left, side, station| {
                let found = record(lookup(right, left, side, station));
                let asked = if side == 1 { left } else { right };
                elsewhere(found, asked.len() as u64)
            }),
        ),
        (
            "the empty part behind the count",
            with_lookup(|right, left, side, station| {
                elsewhere(record(lookup(right, left, side, station)), 1)
            }),
        ),
        (
            "the end station in the run",
            with_lookup(|right, left, side, station| {
                let found = record(lookup(right, left, side, station));
                match found.found == 0 && found.number == 0 {
                    true => record(lookup(right, left, side, station.saturating_sub(1))),
                    false => found,
                }
            }),
        ),
        (
            "both schedules read",
            with_lookup(|right, left, side, station| {
                let readable = [right, left].iter().all(|s| schedule::read(s).is_some());
                match readable || side > 1 {
                    true => record(lookup(right, left, side, station)),
                    false => refused(10),
                }
            }),
        ),
        (
            "the schedule before the side",
            with_lookup(|right, left, side, station| match schedule::read(right) {
                None if side > 1 => refused(10),
                _ => record(lookup(right, left, side, station)),
            }),
        ),
        (
            "a bad side taken as left",
            with_lookup(|right, left, side, station| {
                record(lookup(right, left, side.min(1), station))
            }),
        ),
        (
            "none said unread",
            with_lookup(|right, left, side, station| {
                let found = lookup(right, left, side, station);
                match found.outcome {
                    Outcome::Found => record(found),
                    _ => refused(0),
                }
            }),
        ),
        (
            "the station in 32 bits",
            with_lookup(|right, left, side, station| {
                record(lookup(right, left, side, station & 0xFFFF_FFFF))
            }),
        ),
        (
            "the record without its level",
            with_lookup(|right, left, side, station| {
                let found = record(lookup(right, left, side, station));
                Record {
                    end: found.end - found.found,
                    ..found
                }
            }),
        ),
        (
            "the next run where the station has none",
            with_lookup(|right, left, side, station| {
                let found = record(lookup(right, left, side, station));
                match found.found == 0 && found.number == 0 {
                    true => record(lookup(right, left, side, station.saturating_add(1))),
                    false => found,
                }
            }),
        ),
    ]
}

/// An empty part at another place.
fn elsewhere(found: Record, place: u64) -> Record {
    match found.found {
        1 => found,
        _ => Record {
            start: place,
            end: place,
            ..found
        },
    }
}

fn refused(number: u64) -> Record {
    Record {
        number,
        found: 0,
        start: 0,
        end: 0,
    }
}

// Reading a schedule.

/// What a careless reading of a schedule lets pass.
#[derive(Clone, Copy)]
pub struct Reading {
    pub most_runs: usize,
    pub last_station: u64,
    pub least_length: u64,
    pub levels: (u64, u64),
    pub touching: bool,
    pub left_over: bool,
    pub number: ReadNumber,
    /// What a run's start and its end are taken as.
    pub start: fn(u64) -> u64,
    pub end: fn(u64) -> u64,
}

pub const STRICT: Reading = Reading {
    most_runs: schedule::MOST_RUNS,
    last_station: job::LAST_STATION,
    least_length: 1,
    levels: (1, level::HIGHEST),
    touching: false,
    left_over: false,
    number: number::read,
    start: |start| start,
    end: |end| end,
};

fn wrong_readings() -> Vec<(&'static str, Calls)> {
    let reading = |reading: Reading| {
        with_quantity(Box::new(move |schedule, level, p, q| {
            reply(quantity_by(&reading, schedule, level, p, q))
        }))
    };
    vec![
        (
            "512 runs read",
            reading(Reading {
                most_runs: 512,
                ..STRICT
            }),
        ),
        (
            "511 runs not read",
            reading(Reading {
                most_runs: 510,
                ..STRICT
            }),
        ),
        (
            "a run without length read",
            reading(Reading {
                least_length: 0,
                ..STRICT
            }),
        ),
        (
            "a run of level 0 read",
            reading(Reading {
                levels: (0, level::HIGHEST),
                ..STRICT
            }),
        ),
        (
            "a run of level 7 read",
            reading(Reading {
                levels: (1, 7),
                ..STRICT
            }),
        ),
        (
            "touching runs of one level read",
            reading(Reading {
                touching: true,
                ..STRICT
            }),
        ),
        (
            "bytes behind the last record read",
            reading(Reading {
                left_over: true,
                ..STRICT
            }),
        ),
        (
            "non-shortest numbers accepted in a schedule",
            reading(Reading {
                number: not_shortest,
                ..STRICT
            }),
        ),
    ]
}

pub fn quantity_by(
    reading: &Reading,
    schedule: &[u8],
    level: u64,
    p: u64,
    q: u64,
) -> Result<u64, Refusal> {
    if !(1..=level::HIGHEST).contains(&level) || p > q {
        return Err(Refusal::argument());
    }
    let records = read_by(reading, schedule).ok_or(Refusal::no_schedule())?;
    Ok(shared_by(&records, level, p, q))
}

/// The millimetres of [p, q) in the runs of this level.
fn shared_by(records: &[schedule::Record], level: u64, p: u64, q: u64) -> u64 {
    let asked = Stretch::new(p, q);
    let runs = records.iter().map(|record| record.run);
    let of_level = runs.filter(|run| run.level == level);
    of_level.map(|run| run.stretch.shared(&asked)).sum()
}

pub fn quantities_by(reading: &Reading, schedule: &[u8], level: u64, ranges: &[u64]) -> Contract {
    // What does not hang on the schedule is refused before it is read.
    let refused = contract(quantities(&[], level, ranges));
    if refused.number != 10 {
        return refused;
    }
    let Some(records) = read_by(reading, schedule) else {
        return refused;
    };
    let shared = |range: &[u64]| shared_by(&records, level, range[0], range[1]);
    contract(Ok(Quantities {
        records: records.len() as u64,
        quantities: ranges.chunks_exact(2).map(shared).collect(),
    }))
}

pub fn lookup_by(reading: &Reading, right: &[u8], left: &[u8], side: u64, station: u64) -> Record {
    let asked = match side {
        0 => right,
        1 => left,
        _ => return refused(8),
    };
    let Some(records) = read_by(reading, asked) else {
        return refused(10);
    };
    let found = records.iter().find(|r| r.run.stretch.has(station));
    found.map_or(refused(0), |found| {
        record(Lookup {
            start: found.bytes.start,
            length: found.bytes.len(),
            outcome: Outcome::Found,
        })
    })
}

pub fn read_by(reading: &Reading, schedule: &[u8]) -> Option<Vec<schedule::Record>> {
    let mut records: Vec<schedule::Record> = Vec::new();
    let count = (reading.number)(schedule, 0).ok()?;
    if count.value > reading.most_runs as u64 {
        return None;
    }
    let mut at = count.next;
    for _ in 0..count.value {
        let begin = at;
        let values = next_three(reading.number, schedule, &mut at)?;
        let previous = records.last().map(|record| record.run);
        records.push(schedule::Record {
            run: run_by(reading, previous, values)?,
            bytes: begin..at,
        });
    }
    (at == schedule.len() || reading.left_over).then_some(records)
}

/// The three numbers of a record.
fn next_three(read: ReadNumber, bytes: &[u8], at: &mut usize) -> Option<[u64; 3]> {
    let mut values = [0; 3];
    for value in &mut values {
        let number = read(bytes, *at).ok()?;
        *value = number.value;
        *at = number.next;
    }
    Some(values)
}

fn run_by(
    reading: &Reading,
    previous: Option<Run>,
    [distance, length, level]: [u64; 3],
) -> Option<Run> {
    let start = (reading.start)(previous.map_or(0, |run| run.stretch.end) + distance);
    let stretch = Stretch::new(start, (reading.end)(start + length));
    let same_level = previous.is_some_and(|run| run.level == level);
    let passes = length >= reading.least_length
        && (reading.levels.0..=reading.levels.1).contains(&level)
        && stretch.end <= reading.last_station
        && (reading.touching || distance > 0 || !same_level);
    passes.then_some(Run { stretch, level })
}

#[cfg(test)]
mod tests {
    use super::*;
    use crate::compare::Checker;

    /// A wrong engine has to be wrong in its slip alone: with no slip at all
    /// its parts are those of the reference.
    #[test]
    fn no_difference_without_a_slip() {
        let calls = Calls {
            level: wrong_level::by(RIGHT).level,
            offset: wrong_offset::by(wrong_offset::RIGHT).offset,
            quantity: Box::new(|schedule, level, p, q| {
                reply(quantity_by(&STRICT, schedule, level, p, q))
            }),
            quantities: Box::new(|schedule, level, ranges| {
                quantities_by(&STRICT, schedule, level, ranges)
            }),
            lookup: Box::new(|right, left, side, station| {
                lookup_by(&STRICT, right, left, side, station)
            }),
            ..by(RIGHT)
        };
        let mut checker = Checker::new(calls);
        if let Err(difference) = crate::run(&mut checker, 5, 1) {
            panic!("{difference}");
        }
    }
}
