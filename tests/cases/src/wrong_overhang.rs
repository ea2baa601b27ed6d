//! Envelopes at the road's ends with one slip each: how they are cut, their
//! overhangs, and refusal 6 where it is still returned. The test has to find
//! every one of them.

use reference::envelope::{self, Envelope, Lengthening, Overhang};
use reference::job::{self, Hazard, Job};
use reference::level::{Required, Run};
use reference::memory;
use reference::{OpenJob, Refusal, add, keep, open_schedule, return_to, withdraw};

use crate::calls::{Calls, Memory, PlanReply, Reply, plan_reply, reply, right};
use crate::wrong::{RIGHT, Rules, by, too_near, with_plan};
use crate::wrong_level;
use crate::wrong_memory::one_call_each;
use crate::wrong_open::{BROKEN, in_no_panels, with_add, with_schedule};

/// Every wrong road end with the name of its slip.
pub fn all() -> Vec<(&'static str, Calls)> {
    let mut list = wrong_overhangs();
    list.extend(overhangs_after_refusals());
    list.extend(wrong_cuts());
    list.extend(six_from_job_bytes());
    list.extend(six_in_open_jobs());
    list
}

/// The envelopes of one side, in the order of their hazards.
fn of_side(job: &Job, side: u64) -> Vec<Envelope> {
    let mut list = envelope::envelopes(job).unwrap_or_default();
    list.retain(|envelope| envelope.side == side);
    list
}

fn greatest(job: &Job, side: u64) -> Overhang {
    envelope::greatest_overhang(&of_side(job, side))
}

/// Each overhang of one side changed, then the greatest.
fn greatest_of(job: &Job, side: u64, change: impl Fn(&Envelope) -> Overhang) -> Overhang {
    let mut list = of_side(job, side);
    for envelope in &mut list {
        envelope.overhang = change(envelope);
    }
    envelope::greatest_overhang(&list)
}

fn each_end(overhang: Overhang, change: impl Fn(u64) -> u64) -> Overhang {
    Overhang {
        before: change(overhang.before),
        after: change(overhang.after),
    }
}

// Overhangs.

/// A slip in the overhangs of a job's side: its name in plan, its name in an
/// open job's schedule, and what it gives.
type Slip = (&'static str, &'static str, fn(&Job, u64) -> Overhang);

const SLIPS: &[Slip] = &[
    (
        "overhangs taken behind the cut, so always 0",
        "open job: overhangs taken behind the cut, so always 0",
        |_, _| Overhang::default(),
    ),
    (
        "overhangs of the other side's hazards",
        "open job: overhangs of the other side's hazards",
        |job, side| greatest(job, 1 - side),
    ),
    (
        "overhangs of both sides' hazards",
        "open job: overhangs of both sides' hazards",
        |job, _| envelope::greatest_overhang(&envelope::envelopes(job).unwrap_or_default()),
    ),
    (
        "overhangs of the last hazard",
        "open job: overhangs of the last hazard",
        |job, side| {
            let last = of_side(job, side).pop();
            last.map_or(Overhang::default(), |last| last.overhang)
        },
    ),
    (
        "overhangs of the first hazard",
        "open job: overhangs of the first hazard",
        |job, side| {
            let list = of_side(job, side);
            envelope::greatest_overhang(&list[..list.len().min(1)])
        },
    ),
    (
        "overhangs of the last hazard that has one",
        "open job: overhangs of the last hazard that has one",
        |job, side| {
            let list = of_side(job, side);
            let overhangs = list.iter().rev().map(|envelope| envelope.overhang);
            let last = |end: fn(Overhang) -> u64| {
                let mut of_end = overhangs.clone().map(end);
                of_end.find(|overhang| *overhang > 0).unwrap_or(0)
            };
            Overhang {
                before: last(|overhang| overhang.before),
                after: last(|overhang| overhang.after),
            }
        },
    ),
    (
        "overhangs added up",
        "open job: overhangs added up",
        |job, side| {
            let list = of_side(job, side);
            Overhang {
                before: list.iter().map(|envelope| envelope.overhang.before).sum(),
                after: list.iter().map(|envelope| envelope.overhang.after).sum(),
            }
        },
    ),
    (
        "both overhangs of the hazard with the greatest before A",
        "open job: both overhangs of the hazard with the greatest before A",
        |job, side| {
            let list = of_side(job, side);
            let most = list.iter().max_by_key(|envelope| envelope.overhang.before);
            most.map_or(Overhang::default(), |most| most.overhang)
        },
    ),
    (
        "overhangs of hazards that nobody reaches",
        "open job: overhangs of hazards that nobody reaches",
        |job, side| {
            let mut reached = job.clone();
            for hazard in &mut reached.hazards {
                hazard.near = hazard.near.min(job.clear_zone - 1);
            }
            // So near that it would be refused.
            reached.hazards.retain(|h| !envelope::too_near(job, h));
            greatest(&reached, side)
        },
    ),
    (
        "the two overhangs exchanged",
        "open job: the two overhangs exchanged",
        |job, side| {
            let Overhang { before, after } = greatest(job, side);
            Overhang {
                before: after,
                after: before,
            }
        },
    ),
    (
        "the greater overhang at both ends",
        "open job: the greater overhang at both ends",
        |job, side| {
            let Overhang { before, after } = greatest(job, side);
            each_end(Overhang::default(), |_| before.max(after))
        },
    ),
    (
        "overhangs counted as far as station 0",
        "open job: overhangs counted as far as station 0",
        |job, side| {
            let Overhang { before, after } = greatest(job, side);
            Overhang {
                before: before.min(job.road_begin),
                after,
            }
        },
    ),
    (
        "no overhang of an envelope that would begin below station 0",
        "open job: no overhang of an envelope that would begin below station 0",
        |job, side| {
            greatest_of(job, side, |Envelope { overhang, .. }| Overhang {
                before: match overhang.before > job.road_begin {
                    true => 0,
                    false => overhang.before,
                },
                ..*overhang
            })
        },
    ),
    (
        "overhangs before the raising to whole panels",
        "open job: overhangs before the raising to whole panels",
        |job, side| greatest(&in_no_panels(job), side),
    ),
    (
        "overhangs in 16 bits",
        "open job: overhangs in 16 bits",
        |job, side| each_end(greatest(job, side), |overhang| overhang & 0xFFFF),
    ),
    (
        "overhangs a millimetre too long",
        "open job: overhangs a millimetre too long",
        |job, side| each_end(greatest(job, side), |overhang| overhang + overhang.min(1)),
    ),
    (
        "the distance to the road's end where there is no overhang",
        "open job: the distance to the road's end where there is no overhang",
        |job, side| {
            greatest_of(job, side, |envelope| Overhang {
                before: envelope.overhang.before + envelope.stretch.start - job.road_begin,
                after: envelope.overhang.after + job.road_end - envelope.stretch.end,
            })
        },
    ),
];

fn wrong_overhangs() -> Vec<(&'static str, Calls)> {
    let in_plan = SLIPS.iter().map(|(name, _, slip)| (*name, in_plan(*slip)));
    let in_open_job = SLIPS.iter().map(|(_, name, slip)| {
        let calls = in_open_job(*slip);
        (*name, calls)
    });
    in_plan.chain(in_open_job).collect()
}

fn in_plan(slip: fn(&Job, u64) -> Overhang) -> Calls {
    with_plan(Box::new(move |bytes, side, room, lent| {
        let reply = (right().plan)(bytes, side, room, lent);
        match (reply.number, job::read(bytes)) {
            (0, Ok(job)) => with_overhangs(reply, slip(&job, side)),
            _ => reply,
        }
    }))
}

fn in_open_job(slip: fn(&Job, u64) -> Overhang) -> Calls {
    with_schedule(Box::new(move |memory, side, room, lent| {
        let reply = plan_reply(open_schedule(&memory.job, side, &mut room[lent]));
        match (reply.number, memory::read(&memory.job)) {
            (0, Some(open)) => with_overhangs(reply, slip(&open.job(), side)),
            _ => reply,
        }
    }))
}

fn with_overhangs(reply: PlanReply, Overhang { before, after }: Overhang) -> PlanReply {
    PlanReply {
        before,
        after,
        ..reply
    }
}

fn overhangs_after_refusals() -> Vec<(&'static str, Calls)> {
    vec![
        (
            "overhangs left after refusal 9",
            with_plan(Box::new(|bytes, side, room, lent| {
                let reply = (right().plan)(bytes, side, room, lent);
                match (reply.number, job::read(bytes)) {
                    (9, Ok(job)) => with_overhangs(reply, greatest(&job, side)),
                    _ => reply,
                }
            })),
        ),
        (
            "overhangs left after refusal 5",
            with_plan(Box::new(|bytes, side, room, lent| {
                let reply = (right().plan)(bytes, side, room, lent);
                match (reply.number, job::read(bytes)) {
                    (5, Ok(mut job)) => {
                        job.hazards.truncate(reply.value as usize);
                        with_overhangs(reply, greatest(&job, side))
                    }
                    _ => reply,
                }
            })),
        ),
        (
            "open job: overhangs left after refusal 9",
            with_schedule(Box::new(|memory, side, room, lent| {
                let reply = plan_reply(open_schedule(&memory.job, side, &mut room[lent]));
                match (reply.number, memory::read(&memory.job)) {
                    (9, Some(open)) => with_overhangs(reply, greatest(&open.job(), side)),
                    _ => reply,
                }
            })),
        ),
    ]
}

// Cuts.

/// A slip in how an envelope is cut: its name in plan, its name in level, and
/// what is made of an envelope that is cut right.
type Cut = (&'static str, &'static str, fn(&Hazard, &mut Envelope));

/// Gaps added before cutting are no slip: every gap lies between two envelopes
/// that each have something of the road, so it lies on the road.
const CUTS: &[Cut] = &[
    (
        "an envelope cut at station 0 and not at A",
        "level: an envelope cut at station 0 and not at A",
        |_, envelope| {
            let start = envelope.stretch.start;
            envelope.stretch.start = start.saturating_sub(envelope.overhang.before);
        },
    ),
    (
        "an envelope not cut at B",
        "level: an envelope not cut at B",
        |_, envelope| envelope.stretch.end += envelope.overhang.after,
    ),
    (
        "an approach left out that passes A",
        "level: an approach left out that passes A",
        |hazard, envelope| {
            if envelope.overhang.before > 0 {
                envelope.stretch.start = hazard.start;
            }
        },
    ),
    (
        "an approach left out that passes B",
        "level: an approach left out that passes B",
        |hazard, envelope| {
            if envelope.overhang.after > 0 {
                envelope.stretch.end = hazard.end;
            }
        },
    ),
    (
        "an envelope cut a millimetre behind A",
        "level: an envelope cut a millimetre behind A",
        |_, envelope| envelope.stretch.start += envelope.overhang.before.min(1),
    ),
    (
        "an envelope cut a millimetre before B",
        "level: an envelope cut a millimetre before B",
        |_, envelope| envelope.stretch.end -= envelope.overhang.after.min(1),
    ),
];

fn wrong_cuts() -> Vec<(&'static str, Calls)> {
    let mut list = Vec::new();
    for (in_plan, in_level, after_cut) in CUTS {
        let rules = Rules {
            after_cut: *after_cut,
            ..RIGHT
        };
        list.push((*in_plan, by(rules)));
        list.push((*in_level, wrong_level::by(rules)));
    }
    let left_out = Rules {
        runs: without_those_that_leave,
        ..RIGHT
    };
    list.push(("a hazard left out that passes an end", by(left_out)));
    list.push((
        "level: a hazard left out that passes an end",
        wrong_level::by(left_out),
    ));
    list
}

fn without_those_that_leave(envelopes: &[Envelope], job: &Job) -> Vec<Run> {
    let mut on_road = envelopes.to_vec();
    on_road.retain(|envelope| envelope.overhang == Overhang::default());
    Required::new(&on_road, job.continuity).runs()
}

// Refusal 6.

/// 6: this hazard's envelope leaves the road.
fn six(index: usize) -> Refusal {
    Refusal {
        number: 6,
        value: index as u64,
    }
}

fn refused_6(
    job: &Job,
    index: usize,
    hazard: &Hazard,
    longer: &Lengthening,
) -> Result<(), Refusal> {
    match envelope::cut(job, hazard, longer).overhang == Overhang::default() {
        true => Ok(()),
        false => Err(six(index)),
    }
}

fn six_from_job_bytes() -> Vec<(&'static str, Calls)> {
    let five_before_six = Rules {
        refuse: |job, index, hazard, longer| {
            too_near(job, index, hazard)?;
            refused_6(job, index, hazard, longer)
        },
        ..RIGHT
    };
    vec![
        ("6 still returned by plan", by(five_before_six)),
        (
            "6 still returned by plan, before 5",
            by(Rules {
                refuse: |job, index, hazard, longer| {
                    refused_6(job, index, hazard, longer)?;
                    too_near(job, index, hazard)
                },
                ..RIGHT
            }),
        ),
        (
            "6 returned for an envelope that would begin below station 0",
            by(Rules {
                refuse: |job, index, hazard, longer| {
                    too_near(job, index, hazard)?;
                    match longer.lower > hazard.start {
                        true => Err(six(index)),
                        false => Ok(()),
                    }
                },
                ..RIGHT
            }),
        ),
        (
            "6 returned for an envelope that would end behind the last station",
            by(Rules {
                refuse: |job, index, hazard, longer| {
                    too_near(job, index, hazard)?;
                    match longer.higher > job::LAST_STATION - hazard.end {
                        true => Err(six(index)),
                        false => Ok(()),
                    }
                },
                ..RIGHT
            }),
        ),
        ("level: 6 still returned", wrong_level::by(five_before_six)),
    ]
}

fn six_in_open_jobs() -> Vec<(&'static str, Calls)> {
    let stands_off_road = |open: &OpenJob| leaves_road(&open.job());
    let mut list = vec![
        ("6 still returned by add", adding(0)),
        ("6 still returned by add, before 5", adding(5)),
    ];
    list.extend(one_call_each(
        [
            "6 still in the memory's test by add",
            "6 still in the memory's test by a withdrawal",
            "6 still in the memory's test by a schedule",
            "6 still in the memory's test by keep",
            "6 still in the memory's test by a return",
        ],
        || testing(stands_off_road),
    ));
    list.push((
        "6 still in the test of kept hazards",
        testing(|open| {
            open.kept.iter().flatten().any(|kept| {
                let hazards = kept.values().copied().collect();
                leaves_road(&Job {
                    hazards,
                    ..open.header.clone()
                })
            })
        }),
    ));
    list.push((
        "6 still in the memory's test for envelopes in whole panels",
        testing(|open| leaves_road(&open.job()) && !leaves_road(&in_no_panels(&open.job()))),
    ));
    list
}

/// Whether an envelope leaves the road.
fn leaves_road(job: &Job) -> bool {
    let envelopes = envelope::envelopes(job).unwrap_or_default();
    envelope::greatest_overhang(&envelopes) != Overhang::default()
}

/// Add refuses 6 where the right reply has this number.
fn adding(number: u64) -> Calls {
    with_add(Box::new(move |memory, name, hazard| {
        let before = memory.clone();
        let right = reply(add(&mut memory.job, name, hazard));
        if let Some(open) = memory::read(&before.job)
            && right.number == number
            && passes_an_end(&open.header, &hazard)
        {
            *memory = before;
            return reply(Err(six(name.into())));
        }
        right
    }))
}

fn passes_an_end(header: &Job, hazard: &Hazard) -> bool {
    let approaches = envelope::approaches(header, hazard);
    let longer = envelope::lengthening(header, &approaches);
    refused_6(header, 0, hazard, &longer).is_err()
}

/// Every call but opening refuses memory that is right, where the open job is
/// such a one.
pub fn testing(refused: impl Fn(&OpenJob) -> bool + Copy + 'static) -> Calls {
    let tested = move |memory: &mut Memory, call: &dyn Fn(&mut Memory) -> Reply| match memory::read(
        &memory.job,
    ) {
        Some(open) if refused(&open) => BROKEN,
        _ => call(memory),
    };
    Calls {
        add: Box::new(move |memory, name, hazard| {
            tested(memory, &|memory| reply(add(&mut memory.job, name, hazard)))
        }),
        withdraw: Box::new(move |memory, name| {
            tested(memory, &|memory| reply(withdraw(&mut memory.job, name)))
        }),
        keep: Box::new(move |memory, state| {
            tested(memory, &|memory| reply(keep(&mut memory.job, state)))
        }),
        return_to: Box::new(move |memory, state| {
            tested(memory, &|memory| reply(return_to(&mut memory.job, state)))
        }),
        open_schedule: Box::new(
            move |memory, side, room, lent| match memory::read(&memory.job) {
                Some(open) if refused(&open) => BROKEN.into(),
                _ => plan_reply(open_schedule(&memory.job, side, &mut room[lent])),
            },
        ),
        ..right()
    }
}
