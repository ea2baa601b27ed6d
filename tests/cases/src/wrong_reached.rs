//! Reaches of one hazard with one slip each, of a job and of an open job. The
//! test has to find every one of them.

use reference::calls::accepted;
use reference::envelope::{self, Approach, Envelope, Overhang};
use reference::job::{self, Hazard, Job};
use reference::memory::{self, NOW_BYTES};
use reference::open::{Name, OpenJob, tested};
use reference::reach::lengthened;
use reference::reached::{of_accepted, of_envelope, of_hazard, on_road};
use reference::{Reached, Refusal, Stretch, open_reach, reach, withdraw};

use crate::calls::{Calls, Memory, ReachReply, reach_reply, right};
use crate::wrong_corners::{first_off_road, nth};
use crate::wrong_open::in_no_panels;

/// Every wrong reach with the name of its slip.
pub fn all() -> Vec<(&'static str, Calls)> {
    let mut list = wrong_numbers();
    list.extend(wrong_indices());
    list.extend(wrong_names());
    list.extend(wrong_replies());
    list.extend(wrong_refusals());
    list.extend(wrong_open_refusals());
    list
}

// What is said of a hazard.

/// The right answer changed; the job has the hazards that stand.
type Change = fn(&mut Reached, &Job, &Hazard);

/// A slip in what is said: its name for a job, its name for an open job, and what
/// it changes. Cutting the envelope only after G is added is no slip: what is cut
/// away is beyond the road's end.
const CHANGES: &[(&str, &str, Change)] = &[
    (
        "reach: the stretch not cut",
        "open reach: the stretch not cut",
        |reached, job, _| {
            of_reached(reached, |r| {
                r.altered = lengthened(r.envelope, job.continuity)
            })
        },
    ),
    (
        "reach: the stretch not cut at A",
        "open reach: the stretch not cut at A",
        |reached, job, _| {
            of_reached(reached, |r| {
                r.altered.start = lengthened(r.envelope, job.continuity).start
            })
        },
    ),
    (
        "reach: the stretch not cut at B",
        "open reach: the stretch not cut at B",
        |reached, job, _| {
            of_reached(reached, |r| {
                r.altered.end = lengthened(r.envelope, job.continuity).end
            })
        },
    ),
    (
        "reach: the stretch without G",
        "open reach: the stretch without G",
        |reached, _, _| reached.altered = reached.envelope,
    ),
    (
        "reach: the stretch without G at the lower end",
        "open reach: the stretch without G at the lower end",
        |reached, _, _| reached.altered.start = reached.envelope.start,
    ),
    (
        "reach: the stretch without G at the upper end",
        "open reach: the stretch without G at the upper end",
        |reached, _, _| reached.altered.end = reached.envelope.end,
    ),
    (
        "reach: the stretch with twice G",
        "open reach: the stretch with twice G",
        |reached, job, _| {
            of_reached(reached, |r| {
                r.altered = on_road(job, r.envelope, 2 * job.continuity)
            })
        },
    ),
    (
        "reach: the stretch longer by G less 1",
        "open reach: the stretch longer by G less 1",
        |reached, job, _| {
            let by = job.continuity.saturating_sub(1);
            of_reached(reached, |r| r.altered = on_road(job, r.envelope, by))
        },
    ),
    (
        "reach: from a millimetre late",
        "open reach: from a millimetre late",
        |reached, _, _| of_reached(reached, |r| r.altered.start += 1),
    ),
    (
        "reach: to a millimetre early",
        "open reach: to a millimetre early",
        |reached, _, _| of_reached(reached, |r| r.altered.end -= 1),
    ),
    (
        "reach: to taken as the last millimetre of the road",
        "open reach: to taken as the last millimetre of the road",
        |reached, job, _| reached.altered.end = reached.altered.end.min(job.road_end - 1),
    ),
    (
        "reach: the envelope a millimetre short",
        "open reach: the envelope a millimetre short",
        |reached, _, _| of_reached(reached, |r| r.envelope.end -= 1),
    ),
    (
        "reach: the other side",
        "open reach: the other side",
        |reached, _, _| reached.side = 1 - reached.side,
    ),
    (
        "reach: the right side always",
        "open reach: the right side always",
        |reached, _, _| reached.side = 0,
    ),
    (
        "reach: no side where nobody reaches",
        "open reach: no side where nobody reaches",
        |reached, _, _| {
            if reached.envelope.length() == 0 {
                reached.side = 0;
            }
        },
    ),
    (
        "reach: far traffic forgotten",
        "open reach: far traffic forgotten",
        |reached, job, hazard| by_traffic(reached, job, hazard, |approach| !approach.far),
    ),
    (
        "reach: adjacent traffic forgotten",
        "open reach: adjacent traffic forgotten",
        |reached, job, hazard| by_traffic(reached, job, hazard, |approach| approach.far),
    ),
    (
        "reach: the hazard without its approaches",
        "open reach: the hazard without its approaches",
        |reached, job, hazard| by_traffic(reached, job, hazard, |_| false),
    ),
    (
        "reach: the panel length passed over",
        "open reach: the panel length passed over",
        |reached, job, hazard| by_header(reached, &in_no_panels(job), hazard),
    ),
    (
        "reach: the flare passed over",
        "open reach: the flare passed over",
        |reached, job, hazard| {
            let straight = Job {
                flare_across: 0,
                ..job.clone()
            };
            by_header(reached, &straight, hazard)
        },
    ),
    (
        "reach: the runout lengths exchanged",
        "open reach: the runout lengths exchanged",
        |reached, job, hazard| {
            if job.runout_opposite > 0 {
                let exchanged = Job {
                    runout_forward: job.runout_opposite,
                    runout_opposite: job.runout_forward,
                    ..job.clone()
                };
                by_header(reached, &exchanged, hazard);
            }
        },
    ),
    (
        "reach: the envelope of the other side",
        "open reach: the envelope of the other side",
        |reached, job, hazard| {
            let side = 1 - hazard.side;
            by_header(reached, job, &Hazard { side, ..*hazard });
            reached.side = hazard.side;
        },
    ),
    (
        "reach: the envelope not cut",
        "open reach: the envelope not cut",
        |reached, _, _| {
            let Overhang { before, after } = reached.overhang;
            reached.envelope.start = reached.envelope.start.saturating_sub(before);
            reached.envelope.end += after;
        },
    ),
    (
        "reach: the stretch in the place of the envelope",
        "open reach: the stretch in the place of the envelope",
        |reached, _, _| reached.envelope = reached.altered,
    ),
    (
        "reach: the hazard in the place of the envelope",
        "open reach: the hazard in the place of the envelope",
        |reached, _, hazard| {
            of_reached(reached, |r| {
                r.envelope = Stretch::new(hazard.start, hazard.end)
            })
        },
    ),
    (
        "reach: no overhangs",
        "open reach: no overhangs",
        |reached, _, _| reached.overhang = Overhang::default(),
    ),
    (
        "reach: the overhangs exchanged",
        "open reach: the overhangs exchanged",
        |reached, _, _| {
            let Overhang { before, after } = reached.overhang;
            reached.overhang = Overhang {
                before: after,
                after: before,
            };
        },
    ),
    (
        "reach: the greatest overhangs of the side",
        "open reach: the greatest overhangs of the side",
        |reached, job, hazard| {
            let all = envelope::envelopes(job).unwrap_or_default();
            let of_side = all.into_iter().filter(|e| e.side == hazard.side);
            let of_side: Vec<Envelope> = of_side.collect();
            reached.overhang = envelope::greatest_overhang(&of_side);
        },
    ),
    (
        "reach: overhangs of the stretch",
        "open reach: overhangs of the stretch",
        |reached, job, _| {
            let limit = job.continuity;
            of_reached(reached, |r| {
                let Stretch { start, end } = r.envelope;
                let before = (job.road_begin + limit).saturating_sub(start);
                let after = (end + limit).saturating_sub(job.road_end);
                r.overhang.before = r.overhang.before.max(before);
                r.overhang.after = r.overhang.after.max(after);
            })
        },
    ),
    (
        "reach: stations in 32 bits",
        "open reach: stations in 32 bits",
        |reached, _, _| {
            for stretch in [&mut reached.envelope, &mut reached.altered] {
                stretch.start &= 0xFFFF_FFFF;
                stretch.end &= 0xFFFF_FFFF;
            }
        },
    ),
    (
        "reach: stations counted from A",
        "open reach: stations counted from A",
        |reached, job, _| {
            let begin = job.road_begin;
            of_reached(reached, |r| {
                for stretch in [&mut r.envelope, &mut r.altered] {
                    stretch.start -= begin;
                    stretch.end -= begin;
                }
            })
        },
    ),
    (
        "reach: the hazard itself where nobody reaches",
        "open reach: the hazard itself where nobody reaches",
        |reached, _, hazard| {
            if reached.envelope.length() == 0 {
                reached.envelope = Stretch::new(hazard.start, hazard.end);
            }
        },
    ),
    (
        "reach: a stretch where nobody reaches",
        "open reach: a stretch where nobody reaches",
        |reached, job, hazard| {
            if reached.envelope.length() == 0 {
                let alone = Stretch::new(hazard.start, hazard.end);
                reached.altered = on_road(job, alone, job.continuity);
            }
        },
    ),
    (
        "reach: the stretch of no envelope at A",
        "open reach: the stretch of no envelope at A",
        |reached, job, _| {
            if reached.envelope.length() == 0 {
                let begin = job.road_begin;
                reached.altered = Stretch::new(begin, begin);
            }
        },
    ),
    (
        "reach: 0 to G where nobody reaches",
        "open reach: 0 to G where nobody reaches",
        |reached, job, _| {
            if reached.envelope.length() == 0 {
                reached.altered.end = job.continuity;
            }
        },
    ),
];

/// The change where somebody reaches the hazard.
fn of_reached(reached: &mut Reached, change: impl FnOnce(&mut Reached)) {
    if reached.envelope.length() > 0 {
        change(reached);
    }
}

/// With these approaches alone.
fn by_traffic(reached: &mut Reached, job: &Job, hazard: &Hazard, counts: fn(&Approach) -> bool) {
    of_reached(reached, |reached| {
        let mut approaches = envelope::approaches(job, hazard);
        approaches.retain(counts);
        let longer = envelope::lengthening(job, &approaches);
        *reached = of_envelope(job, &envelope::cut(job, hazard, &longer));
    });
}

/// By another header, or of another hazard.
fn by_header(reached: &mut Reached, job: &Job, hazard: &Hazard) {
    if let Ok(other) = of_hazard(job, hazard) {
        *reached = other;
    }
}

fn wrong_numbers() -> Vec<(&'static str, Calls)> {
    let in_job = CHANGES.iter().map(|(name, _, c)| (*name, of_job(*c)));
    let in_open_job = CHANGES
        .iter()
        .map(|(_, name, change)| (*name, of_open_job(*change)));
    in_job.chain(in_open_job).collect()
}

fn of_job(change: Change) -> Calls {
    with_reach(move |bytes, index| {
        reach_reply(accepted(bytes).and_then(|job| {
            let mut reached = of_accepted(&job, index)?;
            change(&mut reached, &job, &job.hazards[index as usize]);
            Ok(reached)
        }))
    })
}

fn of_open_job(change: Change) -> Calls {
    with_open_reach(move |memory, name| {
        reach_reply(tested(&memory.job).and_then(|open| {
            let hazard = open.standing.get(&name).ok_or(Refusal::name(name))?;
            let mut reached = of_hazard(&open.header, hazard)?;
            change(&mut reached, &open.job(), hazard);
            Ok(reached)
        }))
    })
}

fn with_reach(call: impl Fn(&[u8], u64) -> ReachReply + 'static) -> Calls {
    Calls {
        reach: Box::new(move |job, hazard| call(job, hazard)),
        ..right()
    }
}

fn with_open_reach(call: impl Fn(&mut Memory, Name) -> ReachReply + 'static) -> Calls {
    Calls {
        open_reach: Box::new(call),
        ..right()
    }
}

fn right_reach(job: &[u8], hazard: u64) -> ReachReply {
    reach_reply(reach(job, hazard))
}

fn right_open_reach(memory: &Memory, name: Name) -> ReachReply {
    reach_reply(open_reach(&memory.job, name))
}

fn refused(refusal: Refusal) -> ReachReply {
    reach_reply(Err(refusal))
}

// Which hazard of a job.

fn wrong_indices() -> Vec<(&'static str, Calls)> {
    // Another index, of a job that is accepted.
    let index = |index: fn(&Job, u64) -> u64| {
        with_reach(move |job, hazard| {
            let other = accepted(job).map_or(hazard, |job| index(&job, hazard));
            right_reach(job, other)
        })
    };
    vec![
        ("reach: the index in 8 bits", index(|_, at| at & 0xFF)),
        (
            "reach: the index in 32 bits",
            index(|_, at| at & 0xFFFF_FFFF),
        ),
        (
            "reach: the index counted from 1",
            index(|_, at| at.wrapping_sub(1)),
        ),
        (
            "reach: the last hazard for an index above it",
            index(|job, at| at.min((job.hazards.len() as u64).saturating_sub(1))),
        ),
        (
            "reach: the index among the hazards that somebody reaches",
            index(|job, at| nth(job, at, |h| !envelope::approaches(job, h).is_empty())),
        ),
        (
            "reach: the index among the hazards of the right side",
            index(|job, at| nth(job, at, |hazard| hazard.side == 0)),
        ),
        (
            "reach: the index in the order of stations",
            index(|job, at| {
                let mut order: Vec<u64> = (0..job.hazards.len() as u64).collect();
                order.sort_by_key(|index| job.hazards[*index as usize].start);
                let place = usize::try_from(at).unwrap_or(usize::MAX);
                order.get(place).copied().unwrap_or(at)
            }),
        ),
    ]
}

// Which hazard of an open job.

fn wrong_names() -> Vec<(&'static str, Calls)> {
    // Another name, of an open job that keeps the rules.
    let name = |other: fn(&OpenJob, Name) -> Name| {
        with_open_reach(move |memory, name| {
            let open = memory::read(&memory.job);
            let other = open.map_or(name, |open| other(&open, name));
            let reply = right_open_reach(memory, other);
            match reply.number {
                12 => refused(Refusal::name(name)),
                _ => reply,
            }
        })
    };
    vec![
        (
            "open reach: the name taken as a place",
            name(|open, name| {
                let at = open.standing.keys().nth(name.into());
                let free = (0..=Name::MAX).find(|name| !open.standing.contains_key(name));
                at.copied().or(free).unwrap_or(name)
            }),
        ),
        (
            "open reach: the name taken as a place where it does not stand",
            name(|open, name| match open.standing.contains_key(&name) {
                true => name,
                false => *open.standing.keys().nth(name.into()).unwrap_or(&name),
            }),
        ),
        ("open reach: the name in 8 bits", name(|_, name| name & 255)),
        (
            "open reach: the name with its bytes exchanged",
            name(|_, name| name.swap_bytes()),
        ),
        (
            "open reach: the next name where it does not stand",
            name(|open, name| {
                let next = open.standing.range(name..).next();
                next.map_or(name, |(next, _)| *next)
            }),
        ),
        (
            "open reach: the last hazard where the name does not stand",
            name(|open, name| match open.standing.contains_key(&name) {
                true => name,
                false => open.standing.keys().last().copied().unwrap_or(name),
            }),
        ),
        (
            "open reach: a hazard that is kept and does not stand",
            with_open_reach(|memory, name| {
                let reply = right_open_reach(memory, name);
                let open = memory::read(&memory.job);
                match (reply.number, open) {
                    (12, Some(open)) => {
                        let kept = open.kept.iter().flatten();
                        let hazard = kept.filter_map(|kept| kept.get(&name)).next();
                        hazard.map_or(reply, |h| reach_reply(of_hazard(&open.header, h)))
                    }
                    _ => reply,
                }
            }),
        ),
    ]
}

// Replies of both calls. 14 is of a job alone, and 12 of an open job.

/// The right reply changed; asked is the index or the name.
type Reply = fn(&mut ReachReply, u64);

const REPLIES: &[(&str, &str, Reply)] = &[
    (
        "reach: no envelope in place of 14",
        "open reach: no envelope in place of 12",
        |reply, _| {
            if matches!(reply.number, 12 | 14) {
                *reply = unreached(0);
            }
        },
    ),
    (
        "reach: the index beside a 14",
        "open reach: the name beside a 12",
        |reply, asked| {
            if matches!(reply.number, 12 | 14) {
                reply.from = asked;
            }
        },
    ),
    (
        "reach: a side above 1 beside a refusal",
        "open reach: a side above 1 beside a refusal",
        |reply, _| {
            if reply.number > 0 {
                reply.side = 2;
            }
        },
    ),
];

fn wrong_replies() -> Vec<(&'static str, Calls)> {
    let mut list = Vec::new();
    for &(in_job, in_open_job, change) in REPLIES {
        list.push((in_job, replied(move |reply, _, index| change(reply, index))));
        let of_name = move |reply: &mut ReachReply, _: &Memory, name: Name| {
            change(reply, name.into());
        };
        list.push((in_open_job, open_replied(of_name)));
    }
    list
}

// Refusals of a job's call.

/// The right reply changed.
fn replied(change: impl Fn(&mut ReachReply, &[u8], u64) + 'static) -> Calls {
    with_reach(move |job, hazard| {
        let mut reply = right_reach(job, hazard);
        change(&mut reply, job, hazard);
        reply
    })
}

fn wrong_refusals() -> Vec<(&'static str, Calls)> {
    let no_such = refused(Refusal::no_such_hazard());
    vec![
        (
            "reach: 14 before 5",
            replied(move |reply, bytes, hazard| {
                if let (5, Ok(job)) = (reply.number, job::read(bytes))
                    && envelope::asked(&job, hazard).is_err()
                {
                    *reply = no_such;
                }
            }),
        ),
        (
            "reach: 14 before 7",
            replied(move |reply, bytes, hazard| {
                if reply.number == 7
                    && let Ok(job) = job::read(&bytes[..reply.value as usize])
                    && envelope::asked(&job, hazard).is_err()
                {
                    *reply = no_such;
                }
            }),
        ),
        (
            "reach: an index above 255 before the job",
            replied(move |reply, _, hazard| {
                if hazard > 255 {
                    *reply = no_such;
                }
            }),
        ),
        (
            "reach: 14 with the index",
            replied(|reply, _, hazard| {
                if reply.number == 14 {
                    reply.value = hazard;
                }
            }),
        ),
        (
            "reach: 14 where nobody reaches",
            replied(move |reply, _, _| {
                if *reply == unreached(reply.side) {
                    *reply = no_such;
                }
            }),
        ),
        (
            "reach: 5 of the asked hazard alone",
            replied(|reply, bytes, hazard| {
                if let (5, Ok(job)) = (reply.number, job::read(bytes))
                    && let Ok(asked) = envelope::asked(&job, hazard)
                    && let Ok(reached) = of_hazard(&job, &asked)
                {
                    *reply = reach_reply(Ok(reached));
                }
            }),
        ),
        (
            "reach: 5 of the asked side alone",
            replied(|reply, bytes, hazard| {
                if let (5, Ok(mut job)) = (reply.number, job::read(bytes))
                    && let Ok(asked) = envelope::asked(&job, hazard)
                {
                    job.hazards.retain(|hazard| hazard.side == asked.side);
                    if envelope::envelopes(&job).is_ok() {
                        *reply = reach_reply(of_hazard(&job, &asked));
                    }
                }
            }),
        ),
        (
            "reach: 6 still returned",
            replied(|reply, bytes, _| {
                if let (0, Ok(job)) = (reply.number, accepted(bytes))
                    && let Some(value) = first_off_road(&job)
                {
                    *reply = refused(Refusal { number: 6, value });
                }
            }),
        ),
        (
            "reach: 6 of the asked hazard",
            replied(|reply, _, hazard| {
                if reply.before + reply.after > 0 {
                    *reply = refused(Refusal {
                        number: 6,
                        value: hazard,
                    });
                }
            }),
        ),
        (
            "reach: bytes behind the job not looked at",
            replied(|reply, bytes, hazard| {
                if reply.number == 7 {
                    *reply = right_reach(&bytes[..reply.value as usize], hazard);
                }
            }),
        ),
        (
            "reach: the hazard's numbers beside a 5",
            replied(|reply, bytes, hazard| {
                if let (5, Ok(job)) = (reply.number, job::read(bytes))
                    && let Ok(asked) = envelope::asked(&job, hazard)
                {
                    (reply.side, reply.start, reply.end) = (asked.side, asked.start, asked.end);
                }
            }),
        ),
        (
            "reach: the road beside a 14",
            replied(|reply, bytes, _| {
                if let (14, Ok(job)) = (reply.number, accepted(bytes)) {
                    (reply.from, reply.to) = (job.road_begin, job.road_end);
                }
            }),
        ),
        (
            "reach: a byte of the job changed",
            Calls {
                reach: Box::new(|job, hazard| {
                    let reply = right_reach(job, hazard);
                    if let Some(last) = job.last_mut() {
                        *last ^= 1;
                    }
                    reply
                }),
                ..right()
            },
        ),
    ]
}

/// The reply where nobody reaches a hazard of this side.
fn unreached(side: u64) -> ReachReply {
    reach_reply(Ok(reference::reached::unreached(side)))
}

// Refusals of an open job's call, and its memory.

/// The right reply changed.
fn open_replied(change: impl Fn(&mut ReachReply, &Memory, Name) + 'static) -> Calls {
    with_open_reach(move |memory, name| {
        let mut reply = right_open_reach(memory, name);
        change(&mut reply, memory, name);
        reply
    })
}

fn wrong_open_refusals() -> Vec<(&'static str, Calls)> {
    vec![
        (
            "open reach: 12 with 0",
            open_replied(|reply, _, _| {
                if reply.number == 12 {
                    reply.value = 0;
                }
            }),
        ),
        (
            "open reach: 14 in place of 12",
            open_replied(|reply, _, _| {
                if reply.number == 12 {
                    *reply = refused(Refusal::no_such_hazard());
                }
            }),
        ),
        (
            "open reach: 12 in place of 3",
            open_replied(|reply, _, name| {
                if reply.number == 3 {
                    *reply = refused(Refusal::name(name));
                }
            }),
        ),
        (
            "open reach: 3 with the name",
            open_replied(|reply, _, name| {
                if reply.number == 3 {
                    reply.value = name.into();
                }
            }),
        ),
        (
            "open reach: 12 where nobody reaches",
            open_replied(|reply, _, name| {
                if *reply == unreached(reply.side) {
                    *reply = refused(Refusal::name(name));
                }
            }),
        ),
        (
            "open reach: the kept states not tested",
            open_replied(|reply, memory, name| {
                if reply.number == 3 {
                    let mut now = memory.clone();
                    now.job[NOW_BYTES..].fill(0);
                    *reply = right_open_reach(&now, name);
                }
            }),
        ),
        (
            "open reach: the hazard withdrawn too",
            with_open_reach(|memory, name| {
                let reply = right_open_reach(memory, name);
                let _ = withdraw(&mut memory.job, name);
                reply
            }),
        ),
        (
            "open reach: memory that breaks the rules cleared",
            with_open_reach(|memory, name| {
                let reply = right_open_reach(memory, name);
                if reply.number == 3 {
                    memory.job.fill(0);
                }
                reply
            }),
        ),
        (
            "open reach: a byte behind the memory changed",
            with_open_reach(|memory, name| {
                memory.after[0] = 0;
                right_open_reach(memory, name)
            }),
        ),
    ]
}

#[cfg(test)]
mod tests {
    use super::*;
    use crate::compare::{Checker, Difference};
    use crate::{Random, families};

    /// The families of the reach, with these calls in the place of the engine's.
    fn families_of_reach(calls: Calls) -> Result<Checker, Box<Difference>> {
        let mut checker = Checker::new(calls);
        let of_reach = |name: &str| name.contains("reaches") || name.contains("damaged");
        for family in families::ALL.iter().filter(|f| of_reach(f.name)) {
            checker.begin_family(family.name);
            let mut random = Random::new(7, family.name);
            (family.run)(&mut checker, &mut random)?;
        }
        Ok(checker)
    }

    fn passed(calls: Calls) -> Checker {
        families_of_reach(calls).unwrap_or_else(|difference| panic!("{difference}"))
    }

    /// A wrong engine has to be wrong in its slip alone.
    #[test]
    fn no_difference_without_a_slip() {
        for calls in [of_job(|_, _, _| ()), of_open_job(|_, _, _| ())] {
            passed(calls);
        }
    }

    /// They need no other family for it.
    #[test]
    fn the_families_of_the_reach_find_their_wrong_engines() {
        for (name, calls) in all() {
            let Err(found) = families_of_reach(calls) else {
                panic!("not found: {name}");
            };
            println!("{:>9}  {name} (in: {})", found.cases, found.family);
        }
    }

    /// Were no level altered by any withdrawal, the schedules could show nothing.
    #[test]
    fn levels_alter_inside_the_reach() {
        let tally = passed(right()).tally;
        assert!(tally.altered() > 1_000, "{tally}");
    }
}
