//! One hazard less with one slip each: engines that plan again only where they
//! think that the hazard reached, engines in which one hazard reaches further, and
//! withdrawals that take more than one. The test has to find every one of them.

use std::cell::RefCell;
use std::rc::Rc;

use reference::calls::{self, plan_job};
use reference::envelope::{self, Approach, Direction, Envelope, Lengthening, Overhang};
use reference::job::{self, Hazard, Job};
use reference::level::{self, HIGHEST, Required, Run, Set, lengthen_or_push};
use reference::memory::{self, BYTES};
use reference::open::{Name, OpenJob};
use reference::reach::{lengthened, outside, reach_on};
use reference::{Planned, Refusal, Stretch, schedule, withdraw};

use crate::calls::{Calls, PlanReply, plan_reply, reply, right};
use crate::reach::bytes_of;
use crate::wrong::{RIGHT, Rules, by, put, with_plan};
use crate::wrong_open::{BROKEN, DONE, in_no_panels, with_schedule, with_withdraw};

/// Every wrong reach with the name of its slip.
pub fn all() -> Vec<(&'static str, Calls)> {
    let mut list = planned_again();
    list.extend(reaching_further());
    list.extend(wrong_withdrawals());
    list
}

// Planned again as far as the hazard reached.

/// How far a hazard reaches on a side.
pub type Bound = fn(&Job, &Hazard, u64) -> Option<Stretch>;

/// A slip in how far: its name in plan, its name in an open job, and the bound.
/// None of them has every millimetre that can alter. An envelope that is not cut
/// is no slip: it has more of them.
pub const BOUNDS: &[(&str, &str, Bound)] = &[
    (
        "planned again without G",
        "open job: planned again without G",
        |job, hazard, side| with_limit(job, hazard, side, |_| 0),
    ),
    (
        "planned again without G at the lower end",
        "open job: planned again without G at the lower end",
        |job, hazard, side| {
            let start = with_limit(job, hazard, side, |_| 0)?.start;
            let end = reach_on(job, hazard, side)?.end;
            Some(Stretch::new(start, end))
        },
    ),
    (
        "planned again without G at the upper end",
        "open job: planned again without G at the upper end",
        |job, hazard, side| {
            let start = reach_on(job, hazard, side)?.start;
            let end = with_limit(job, hazard, side, |_| 0)?.end;
            Some(Stretch::new(start, end))
        },
    ),
    (
        "planned again with two millimetres less than G",
        "open job: planned again with two millimetres less than G",
        |job, hazard, side| with_limit(job, hazard, side, |limit| limit.saturating_sub(2)),
    ),
    (
        "planned again with half of G",
        "open job: planned again with half of G",
        |job, hazard, side| with_limit(job, hazard, side, |limit| limit / 2),
    ),
    (
        "planned again before the raising to whole panels",
        "open job: planned again before the raising to whole panels",
        |job, hazard, side| reach_on(&in_no_panels(job), hazard, side),
    ),
    (
        "planned again without the approaches",
        "open job: planned again without the approaches",
        |job, hazard, side| {
            reach_on(job, hazard, side)?;
            let alone = Stretch::new(hazard.start, hazard.end);
            Some(lengthened(alone, job.continuity))
        },
    ),
    (
        "planned again without far traffic's approach",
        "open job: planned again without far traffic's approach",
        |job, hazard, side| {
            reach_on(job, hazard, side)?;
            let adjacent = envelope::approaches(job, hazard).into_iter().take(1);
            let adjacent: Vec<Approach> = adjacent.collect();
            let longer = envelope::lengthening(job, &adjacent);
            let stretch = envelope::cut(job, hazard, &longer).stretch;
            Some(lengthened(stretch, job.continuity))
        },
    ),
    (
        "planned again with stations in 32 bits",
        "open job: planned again with stations in 32 bits",
        |job, hazard, side| {
            let Stretch { start, end } = reach_on(job, hazard, side)?;
            Some(Stretch::new(start & 0xFFFF_FFFF, end & 0xFFFF_FFFF))
        },
    ),
    (
        "the other side alone planned again",
        "open job: the other side alone planned again",
        |job, hazard, side| reach_on(job, hazard, 1 - side),
    ),
];

/// The envelope lengthened by another limit.
fn with_limit(job: &Job, hazard: &Hazard, side: u64, limit: fn(u64) -> u64) -> Option<Stretch> {
    let envelope = reach_on(
        &Job {
            continuity: 0,
            ..job.clone()
        },
        hazard,
        side,
    )?;
    Some(lengthened(envelope, limit(job.continuity)))
}

fn planned_again() -> Vec<(&'static str, Calls)> {
    let in_plan = BOUNDS.iter().map(|(name, _, b)| (*name, plan_again(*b)));
    let in_open_job = BOUNDS.iter().map(|(_, name, bound)| {
        let calls = schedule_again(*bound);
        (*name, calls)
    });
    in_plan.chain(in_open_job).collect()
}

/// The runs of before outside the stretch, those of after in it.
fn spliced(before: &[Run], after: &[Run], inside: Option<Stretch>) -> Vec<Run> {
    let mut parts: Vec<Run> = Vec::new();
    for run in before {
        let kept = outside(&[run.stretch], inside);
        parts.extend(kept.into_iter().map(|stretch| Run { stretch, ..*run }));
    }
    let Stretch { start, end } = inside.unwrap_or(Stretch::new(0, 0));
    for run in after {
        let stretch = Stretch::new(run.stretch.start.max(start), run.stretch.end.min(end));
        if stretch.length() > 0 {
            parts.push(Run { stretch, ..*run });
        }
    }
    parts.sort_by_key(|run| run.stretch);
    let mut runs = Vec::new();
    for part in parts {
        lengthen_or_push(&mut runs, part);
    }
    runs
}

fn runs_of(job: &Job, side: u64) -> Result<Vec<Run>, Refusal> {
    calls::runs(&bytes_of(job), side)
}

/// What is written in the place of a right schedule.
fn written(
    right: Result<Planned, Refusal>,
    runs: &[Run],
    out: &mut [u8],
) -> Result<Planned, Refusal> {
    let written = put(&schedule::writing(runs), out)?;
    Ok(Planned { written, ..right? })
}

/// Plan remembers the last job of each side. Where one hazard of it is gone, it
/// plans again inside the bound alone.
fn plan_again(bound: Bound) -> Calls {
    let last: RefCell<[Option<(Job, Vec<Run>)>; 2]> = RefCell::new([None, None]);
    with_plan(Box::new(move |bytes, side, room, lent| {
        let out = &mut room[lent];
        let (Ok(job), true) = (calls::accepted(bytes), side < 2) else {
            return plan_reply(reference::plan(bytes, side, out));
        };
        let remembered = &mut last.borrow_mut()[side as usize];
        let mut runs = runs_of(&job, side).unwrap_or_default();
        if let Some((before, runs_before)) = remembered
            && let Some(gone) = gone(before, &job)
        {
            runs = spliced(runs_before, &runs, bound(before, &gone, side));
        }
        let mut long_enough = vec![0; calls::LONG_ENOUGH];
        let right = plan_job(&job, side, &mut long_enough);
        let reply = plan_reply(written(right, &runs, out));
        *remembered = Some((job, runs));
        reply
    }))
}

/// The hazard of the first job that the second is without.
fn gone(before: &Job, after: &Job) -> Option<Hazard> {
    if before.hazards.len() != after.hazards.len() + 1 {
        return None;
    }
    let differing = before.hazards.iter().zip(&after.hazards);
    let index = differing.take_while(|(b, a)| b == a).count();
    let fewer = reference::reach::without(before, index);
    (fewer == *after).then(|| before.hazards[index])
}

/// A withdrawal is remembered: the memory that it leaves, the job before it, and
/// the hazard. The schedules of that memory are planned again inside the bound
/// alone.
fn schedule_again(bound: Bound) -> Calls {
    type Last = Option<([u8; BYTES], Job, Hazard)>;
    let last: Rc<RefCell<Last>> = Rc::default();
    let remembered = last.clone();
    Calls {
        withdraw: Box::new(move |memory, name| {
            let before = memory::read(&memory.job);
            let reply = reply(withdraw(&mut memory.job, name));
            if let (DONE, Some(open)) = (reply, before) {
                *last.borrow_mut() = Some((memory.job, open.job(), open.standing[&name]));
            }
            reply
        }),
        open_schedule: Box::new(move |memory, side, room, lent| {
            let out = &mut room[lent];
            match &*remembered.borrow() {
                Some((left, before, hazard)) if side < 2 && *left == memory.job => {
                    let mut long_enough = vec![0; calls::LONG_ENOUGH];
                    let right = reference::open_schedule(left, side, &mut long_enough);
                    let after = memory::read(left).map(|open| open.job());
                    let after = after.and_then(|job| runs_of(&job, side).ok());
                    let before_runs = runs_of(before, side).unwrap_or_default();
                    let inside = bound(before, hazard, side);
                    let runs = spliced(&before_runs, &after.unwrap_or_default(), inside);
                    plan_reply(written(right, &runs, out))
                }
                _ => plan_reply(reference::open_schedule(&memory.job, side, out)),
            }
        }),
        ..right()
    }
}

// One hazard reaches further.

/// A slip by which other hazards change where one does: its name in plan, its name
/// in an open job, and its rules.
const RULES: &[(&str, &str, Rules)] = &[
    (
        "the continuity limit longer by the hazard count",
        "open job: the continuity limit longer by the hazard count",
        Rules {
            runs: |envelopes, job| {
                let count = job.hazards.len() as u64;
                Required::new(envelopes, job.continuity + count).runs()
            },
            ..RIGHT
        },
    ),
    (
        "the side's longest approach for every hazard",
        "open job: the side's longest approach for every hazard",
        Rules {
            raise_both: longest_of_the_side,
            ..RIGHT
        },
    ),
    (
        "twice G behind a gap that was filled",
        "open job: twice G behind a gap that was filled",
        Rules {
            runs: |envelopes, job| by_filling(envelopes, |set| twice(set, job.continuity)),
            ..RIGHT
        },
    ),
    (
        "levels counted from the lowest of the side",
        "open job: levels counted from the lowest of the side",
        Rules {
            runs: |envelopes, job| {
                let lowest = envelopes.iter().map(|envelope| envelope.level).min();
                let above = lowest.map_or(0, |lowest| lowest - 1);
                let mut lower = envelopes.to_vec();
                lower.iter_mut().for_each(|e| e.level -= above);
                Required::new(&lower, job.continuity).runs()
            },
            ..RIGHT
        },
    ),
    (
        "gaps filled with the side's highest level",
        "open job: gaps filled with the side's highest level",
        Rules {
            runs: |envelopes, job| {
                let highest = envelopes.iter().map(|envelope| envelope.level).max();
                let mut more = envelopes.to_vec();
                let gaps = level::gaps(&level::at_level(envelopes, 1));
                let short = gaps.into_iter().filter(|gap| gap.length() < job.continuity);
                more.extend(short.map(|stretch| of_level(stretch, highest.unwrap_or(1))));
                Required::new(&more, job.continuity).runs()
            },
            ..RIGHT
        },
    ),
    (
        "a gap filled where the other side has a barrier",
        "open job: a gap filled where the other side has a barrier",
        Rules {
            runs: |envelopes, job| {
                let other = other_side(envelopes, job);
                by_filling(envelopes, |set| {
                    let mut filled = level::fill(set, job.continuity);
                    let gaps = level::gaps(&filled);
                    let barrier = |gap: &Stretch| other.iter().any(|o| o.shared(gap) > 0);
                    filled.extend(gaps.into_iter().filter(barrier));
                    level::set(filled)
                })
            },
            ..RIGHT
        },
    ),
    (
        "a gap left open where a hazard stands that nobody reaches",
        "open job: a gap left open where a hazard stands that nobody reaches",
        Rules {
            runs: |envelopes, job| {
                let unreached = unreached(envelopes, job);
                by_filling(envelopes, |set| {
                    let open = |gap: &Stretch| unreached.iter().any(|u| u.shared(gap) > 0);
                    let gaps = level::gaps(set).into_iter();
                    let short = gaps.filter(|gap| gap.length() < job.continuity && !open(gap));
                    level::set(set.iter().copied().chain(short).collect())
                })
            },
            ..RIGHT
        },
    ),
    (
        "a hazard that nobody reaches covered without approaches",
        "open job: a hazard that nobody reaches covered without approaches",
        Rules {
            runs: |envelopes, job| {
                let mut more = envelopes.to_vec();
                let unreached = unreached(envelopes, job).into_iter();
                more.extend(unreached.map(|stretch| of_level(stretch, 1)));
                Required::new(&more, job.continuity).runs()
            },
            ..RIGHT
        },
    ),
];

/// The slips that the engine's own schedules show, held against each other.
pub fn reaching_further() -> Vec<(&'static str, Calls)> {
    let mut list = Vec::new();
    for (in_plan, in_open_job, rules) in RULES {
        list.push((*in_plan, by(*rules)));
        let plan = by(*rules).plan;
        let calls = on_open_job(move |open, side, out| {
            let written = 0..out.len();
            plan(&mut bytes_of(&open.job()), side, out, written)
        });
        list.push((*in_open_job, calls));
    }
    list.push((
        "a job that is left without hazards refused",
        with_plan(Box::new(|bytes, side, room, lent| {
            match calls::accepted(bytes) {
                Ok(job) if job.hazards.is_empty() && side < 2 => refused(&job),
                _ => (right().plan)(bytes, side, room, lent),
            }
        })),
    ));
    list.push((
        "open job: one that is left without hazards refused",
        on_open_job(
            |open, side, out| match open.standing.is_empty() && side < 2 {
                true => refused(&open.header),
                false => plan_reply(plan_job(&open.job(), side, out)),
            },
        ),
    ));
    list
}

fn refused(job: &Job) -> PlanReply {
    let count = job::count_number(job.kind);
    plan_reply(Err(Refusal::header_range(count)))
}

fn on_open_job(call: impl Fn(&OpenJob, u64, &mut [u8]) -> PlanReply + 'static) -> Calls {
    with_schedule(Box::new(
        move |memory, side, room, lent| match memory::read(&memory.job) {
            Some(open) => call(&open, side, &mut room[lent]),
            None => BROKEN.into(),
        },
    ))
}

/// Runs of sets that are filled in another way.
fn by_filling(envelopes: &[Envelope], fill: impl Fn(&[Stretch]) -> Set) -> Vec<Run> {
    let mut filled = Vec::new();
    for v in 1..=HIGHEST {
        let set = fill(&level::at_level(envelopes, v));
        filled.extend(set.into_iter().map(|stretch| of_level(stretch, v)));
    }
    Required::new(&filled, 0).runs()
}

fn of_level(stretch: Stretch, level: u64) -> Envelope {
    Envelope {
        side: 0,
        stretch,
        level,
        overhang: Overhang::default(),
    }
}

fn twice(set: &[Stretch], continuity: u64) -> Set {
    let mut limit = continuity;
    let mut filled = set.to_vec();
    for gap in level::gaps(set) {
        let short = gap.length() < limit;
        limit = match short {
            true => 2 * continuity,
            false => continuity,
        };
        if short {
            filled.push(gap);
        }
    }
    level::set(filled)
}

fn longest_of_the_side(job: &Job, hazard: &Hazard, longer: Lengthening) -> Lengthening {
    let of_side = job.hazards.iter().filter(|h| h.side == hazard.side);
    let approaches: Vec<Approach> = of_side
        .flat_map(|hazard| envelope::approaches(job, hazard))
        .collect();
    let longest = |direction: Direction| {
        let lengths = approaches.iter().filter(|a| a.direction == direction);
        lengths
            .map(|approach| envelope::length(job, approach))
            .max()
    };
    let of_end = |length: u64, direction: Direction| match length {
        0 => 0,
        _ => longest(direction).unwrap_or(length),
    };
    Lengthening {
        lower: of_end(longer.lower, Direction::Forward),
        higher: of_end(longer.higher, Direction::Opposite),
    }
}

/// The other side's envelopes; none where this side has none itself.
fn other_side(envelopes: &[Envelope], job: &Job) -> Vec<Stretch> {
    let side = envelopes.first().map(|envelope| envelope.side);
    let all = envelope::envelopes(job).unwrap_or_default();
    let other = all.iter().filter(|e| side.is_some_and(|s| s != e.side));
    other.map(|envelope| envelope.stretch).collect()
}

/// The hazards of this side that nobody reaches; none where it has no other.
fn unreached(envelopes: &[Envelope], job: &Job) -> Vec<Stretch> {
    let side = envelopes.first().map(|envelope| envelope.side);
    let hazards = job.hazards.iter().filter(|h| side == Some(h.side));
    let unreached = hazards.filter(|hazard| envelope::approaches(job, hazard).is_empty());
    unreached.map(|h| Stretch::new(h.start, h.end)).collect()
}

// Withdrawals of more than one, or of another.

fn wrong_withdrawals() -> Vec<(&'static str, Calls)> {
    vec![
        (
            "a withdrawal takes every equal hazard with it",
            taking(|_, gone, _, other| other == gone),
        ),
        (
            "a withdrawal takes the same hazard of the other side with it",
            taking(|_, gone, _, other| {
                let side = 1 - gone.side;
                *other == Hazard { side, ..*gone }
            }),
        ),
        (
            "a withdrawal takes the hazards that begin in its reach with it",
            taking(|job, gone, _, other| {
                let reach = reach_on(job, gone, other.side);
                reach.is_some_and(|reach| reach.has(other.start))
            }),
        ),
        (
            "a withdrawal takes the hazards of its stations with it",
            taking(|_, gone, _, other| (other.start, other.end) == (gone.start, gone.end)),
        ),
        (
            "a withdrawal takes the hazard of the next name with it",
            taking(|_, _, distance, _| distance == 1),
        ),
        (
            "an equal hazard of a lower name withdrawn in the place of the named one",
            withdrawing(|open, name| {
                let gone = open.standing[&name];
                let mut standing = open.standing.iter();
                let first = standing.find(|(_, hazard)| **hazard == gone);
                let first = first.map_or(name, |(name, _)| *name);
                open.standing.remove(&first);
            }),
        ),
        (
            "a hazard left standing where an equal one stands",
            withdrawing(|open, name| {
                let gone = open.standing[&name];
                let mut equal = open.standing.values().filter(|hazard| **hazard == gone);
                if equal.nth(1).is_none() {
                    open.standing.remove(&name);
                }
            }),
        ),
    ]
}

/// A withdrawal that is done otherwise.
fn withdrawing(change: impl Fn(&mut OpenJob, Name) + 'static) -> Calls {
    with_withdraw(Box::new(move |memory, name| {
        let before = memory::read(&memory.job);
        let reply = reply(withdraw(&mut memory.job, name));
        if let (DONE, Some(mut open)) = (reply, before) {
            change(&mut open, name);
            memory::write(&open, &mut memory.job);
        }
        reply
    }))
}

/// A withdrawal that takes others too: asked are the job, the hazard withdrawn,
/// how far the other's name is above its name, and the other.
fn taking(other: fn(&Job, &Hazard, i32, &Hazard) -> bool) -> Calls {
    withdrawing(move |open, name| {
        let job = open.header.clone();
        let gone = open.standing.remove(&name).expect("it was withdrawn");
        open.standing.retain(|of_other, hazard| {
            let distance = i32::from(*of_other) - i32::from(name);
            !other(&job, &gone, distance, hazard)
        });
    })
}

#[cfg(test)]
mod tests {
    use super::*;
    use crate::compare::Checker;
    use crate::{Random, families};

    /// Planning again inside the right reach is right: that is the request. And a
    /// wrong engine has to be wrong in its slip alone.
    #[test]
    fn no_difference_with_the_right_reach() {
        let withdrawing = withdrawing(|open, name| {
            open.standing.remove(&name);
        });
        let filling = by(Rules {
            runs: |envelopes, job| by_filling(envelopes, |set| level::fill(set, job.continuity)),
            ..RIGHT
        });
        let engines = [
            plan_again(reach_on),
            schedule_again(reach_on),
            withdrawing,
            filling,
            on_open_job(|open, side, out| plan_reply(plan_job(&open.job(), side, out))),
        ];
        for calls in engines {
            let mut checker = Checker::new(calls);
            for family in families::ALL {
                if family.name.ends_with("one hazard less") || family.name.starts_with("the paper")
                {
                    checker.begin_family(family.name);
                    let mut random = Random::new(7, family.name);
                    if let Err(difference) = (family.run)(&mut checker, &mut random) {
                        panic!("{difference}");
                    }
                }
            }
        }
    }
}
