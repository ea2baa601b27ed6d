//! Smallest offsets with one slip each. The test has to find every one of them.

use reference::Refusal;
use reference::approach::raised;
use reference::calls::accepted;
use reference::envelope::{self, Approach, Lengthening, Overhang};
use reference::job::{self, Hazard, Job};
use reference::offset::{GREATEST, clear, length, offset};

use crate::calls::{Calls, OffsetReply, offset_reply, right};
use crate::wrong::with_flare;
use crate::wrong_corners::{first_off_road, nth};

/// Every wrong offset with the name of its slip.
pub fn all() -> Vec<(&'static str, Calls)> {
    let mut list = wrong_searches();
    list.extend(wrong_lengths());
    list.extend(wrong_arguments());
    list.extend(wrong_replies());
    list.extend(wrong_refusals());
    list
}

/// What was asked, of an accepted job and a hazard that adjacent traffic reaches.
pub struct Asked {
    job: Job,
    hazard: Hazard,
    approach: Approach,
    longest: u64,
}

impl Asked {
    /// The last M with n at least M + D, whatever the greatest is.
    fn last(&self) -> u64 {
        self.hazard.near - self.job.deflection
    }
}

/// The parts of the search that a slip exchanges.
#[derive(Clone, Copy)]
pub struct Rules {
    /// The first and the last M that is tried.
    tried: fn(&Asked) -> (u64, u64),
    /// Whether the hazard, or more than that, lets this M be.
    clear: fn(&Asked, u64) -> bool,
    length: fn(&Asked, u64) -> u64,
    short_enough: fn(u64, u64) -> bool,
    /// What is said of the M that is found.
    found: fn(&Asked, Option<u64>) -> Option<u64>,
}

pub const RIGHT: Rules = Rules {
    tried: |_| (0, GREATEST),
    clear: |asked, offset| clear(&asked.job, &asked.hazard, offset),
    length: |asked, offset| length(&asked.job, &asked.approach, offset),
    short_enough: |length, longest| length <= longest,
    found: |_, found| found,
};

impl Rules {
    fn suits(&self, asked: &Asked, offset: u64) -> bool {
        let length = || (self.length)(asked, offset);
        (self.clear)(asked, offset) && (self.short_enough)(length(), asked.longest)
    }

    fn search(&self, asked: &Asked) -> Option<u64> {
        let (first, last) = (self.tried)(asked);
        let found = (first..=last).find(|offset| self.suits(asked, *offset));
        (self.found)(asked, found)
    }
}

/// The search by these rules.
pub fn by(rules: Rules) -> Calls {
    with_offset(move |bytes, hazard, longest| {
        let asked = asked(bytes, hazard, longest);
        offset_reply(asked.map(|asked| rules.search(&asked)))
    })
}

fn asked(bytes: &[u8], hazard: u64, longest: u64) -> Result<Asked, Refusal> {
    asked_of(accepted(bytes)?, hazard, longest)
}

fn asked_of(job: Job, hazard: u64, longest: u64) -> Result<Asked, Refusal> {
    let (hazard, approach) = envelope::adjacent_approach(&job, hazard)?;
    Ok(Asked {
        job,
        hazard,
        approach,
        longest,
    })
}

fn with_offset(call: impl Fn(&[u8], u64, u64) -> OffsetReply + 'static) -> Calls {
    Calls {
        offset: Box::new(move |job, hazard, longest| call(job, hazard, longest)),
        ..right()
    }
}

/// The right call.
fn right_offset(job: &[u8], hazard: u64, longest: u64) -> OffsetReply {
    offset_reply(offset(job, hazard, longest))
}

fn refused(refusal: Refusal) -> OffsetReply {
    offset_reply(Err(refusal))
}

/// The right reply changed.
fn replied(change: impl Fn(&mut OffsetReply, &[u8], u64, u64) + 'static) -> Calls {
    with_offset(move |job, hazard, longest| {
        let mut reply = right_offset(job, hazard, longest);
        change(&mut reply, job, hazard, longest);
        reply
    })
}

// Which offsets are tried, and which of them is given.

fn wrong_searches() -> Vec<(&'static str, Calls)> {
    let tried = |tried| by(Rules { tried, ..RIGHT });
    let clear = |clear| by(Rules { clear, ..RIGHT });
    let found = |found| by(Rules { found, ..RIGHT });
    vec![
        (
            "offset: n above M + D",
            clear(|asked, offset| asked.hazard.near > offset + asked.job.deflection),
        ),
        (
            "offset: n at least M, without D",
            clear(|asked, offset| asked.hazard.near >= offset),
        ),
        (
            "offset: n not looked at",
            clear(|asked, offset| offset < asked.approach.reach),
        ),
        (
            "offset: n of every reached hazard",
            clear(|asked, offset| {
                let moved = Job {
                    barrier_offset: offset,
                    ..asked.job.clone()
                };
                envelope::envelopes(&moved).is_ok()
            }),
        ),
        (
            "offset: n of every hazard of the side",
            clear(|asked, offset| {
                let of_side = |hazard: &&Hazard| hazard.side == asked.hazard.side;
                let mut of_side = asked.job.hazards.iter().filter(of_side);
                of_side.all(|hazard| reference::offset::clear(&asked.job, hazard, offset))
            }),
        ),
        (
            "offset: the envelope has to stay on the road",
            clear(|asked, offset| {
                let Asked { job, hazard, .. } = asked;
                let length = length(job, &asked.approach, offset);
                let longer = match asked.approach.direction {
                    envelope::Direction::Forward => Lengthening {
                        lower: length,
                        higher: 0,
                    },
                    envelope::Direction::Opposite => Lengthening {
                        lower: 0,
                        higher: length,
                    },
                };
                let envelope = envelope::cut(job, hazard, &longer);
                (RIGHT.clear)(asked, offset) && envelope.overhang == Overhang::default()
            }),
        ),
        (
            "offset: from the header's M on",
            tried(|asked| (asked.job.barrier_offset, GREATEST)),
        ),
        (
            "offset: up to the header's M",
            tried(|asked| (0, asked.job.barrier_offset)),
        ),
        ("offset: from 1 on", tried(|_| (1, GREATEST))),
        ("offset: 0 alone", tried(|_| (0, 0))),
        ("offset: up to 19,999", tried(|_| (0, GREATEST - 1))),
        ("offset: up to 20,001", tried(|_| (0, GREATEST + 1))),
        (
            "offset: as far as n lets it be",
            tried(|asked| (0, asked.last())),
        ),
        (
            "offset: up to half of C",
            tried(|asked| (0, GREATEST.min(asked.job.clear_zone / 2))),
        ),
        (
            "offset: none at the last M",
            found(|asked, found| found.filter(|offset| *offset < asked.last().min(GREATEST))),
        ),
        (
            "offset: the last M where there is none",
            found(|asked, found| Some(found.unwrap_or(asked.last().min(GREATEST)))),
        ),
        (
            "offset: the greatest M",
            found(|asked, found| found.map(|_| asked.last().min(GREATEST))),
        ),
        (
            "offset: the header's M where it is short enough",
            found(|asked, found| {
                let header = asked.job.barrier_offset;
                match RIGHT.suits(asked, header) {
                    true => Some(header),
                    false => found,
                }
            }),
        ),
        (
            "offset: the next M but one",
            found(|asked, found| {
                found.map(|offset| match offset {
                    0 => 0,
                    offset => (offset + 1).min(asked.last().min(GREATEST)),
                })
            }),
        ),
        (
            "offset: one M too early",
            found(|_, found| found.map(|offset| offset.saturating_sub(1))),
        ),
        (
            "offset: M in steps of 10",
            found(|asked, found| {
                let step = found?.next_multiple_of(10);
                RIGHT.suits(asked, step).then_some(step)
            }),
        ),
        (
            "offset: M in 8 bits",
            found(|_, found| found.map(|offset| offset & 0xFF)),
        ),
        (
            "offset: 0 taken as none",
            found(|_, found| found.filter(|offset| *offset > 0)),
        ),
    ]
}

// Lengths.

fn wrong_lengths() -> Vec<(&'static str, Calls)> {
    let length = |length| by(Rules { length, ..RIGHT });
    vec![
        (
            "offset: shorter than wanted",
            by(Rules {
                short_enough: |length, longest| length < longest,
                ..RIGHT
            }),
        ),
        (
            "offset: a millimetre longer than wanted",
            by(Rules {
                short_enough: |length, longest| length <= longest.saturating_add(1),
                ..RIGHT
            }),
        ),
        (
            "offset: as long as wanted exactly",
            by(Rules {
                short_enough: |length, longest| length == longest,
                ..RIGHT
            }),
        ),
        (
            "offset: the panel length passed over",
            length(|asked, offset| envelope::before_raising(&asked.job, &at(asked, offset))),
        ),
        (
            "offset: always one panel more",
            length(|asked, offset| {
                let before = envelope::before_raising(&asked.job, &at(asked, offset));
                match asked.job.kind {
                    2 => raised(before + 1, asked.job.panel),
                    _ => before,
                }
            }),
        ),
        (
            "offset: the straight part passed over",
            length(|asked, offset| {
                let with_flare = with_flare(&asked.job, &at(asked, offset));
                raised(with_flare, asked.job.panel)
            }),
        ),
        (
            "offset: without flare always",
            length(|asked, offset| {
                let straight = Job {
                    flare_across: 0,
                    ..asked.job.clone()
                };
                envelope::length(&straight, &at(asked, offset))
            }),
        ),
        (
            "offset: the straight part judged by the header's M",
            length(|asked, offset| {
                let job = Job {
                    flare_across: match asked.job.straight >= without_flare(asked) {
                        true => 0,
                        false => asked.job.flare_across,
                    },
                    ..asked.job.clone()
                };
                raised(with_flare(&job, &at(asked, offset)), job.panel)
            }),
        ),
        (
            "offset: the header's M in the length",
            length(|asked, _| envelope::length(&asked.job, &asked.approach)),
        ),
        (
            "offset: with W",
            length(|asked, offset| {
                let offset = offset + asked.job.centreline;
                envelope::length(&asked.job, &at(asked, offset))
            }),
        ),
        (
            "offset: reach not cut at C",
            length(|asked, offset| {
                let uncut = Approach {
                    reach: asked.hazard.far,
                    ..at(asked, offset)
                };
                envelope::length(&asked.job, &uncut)
            }),
        ),
        (
            "offset: both approaches together",
            length(|asked, offset| both(asked, offset).iter().sum()),
        ),
        (
            "offset: the longer of both approaches",
            length(|asked, offset| both(asked, offset).into_iter().max().unwrap_or(0)),
        ),
        (
            "offset: forward traffic's runout length always",
            length(|asked, offset| {
                let job = Job {
                    runout_opposite: asked.job.runout_forward,
                    ..asked.job.clone()
                };
                envelope::length(&job, &at(asked, offset))
            }),
        ),
        (
            "offset: the part on the road alone",
            length(|asked, offset| {
                let length = envelope::length(&asked.job, &at(asked, offset));
                length.min(match asked.approach.direction {
                    envelope::Direction::Forward => asked.hazard.start - asked.job.road_begin,
                    envelope::Direction::Opposite => asked.job.road_end - asked.hazard.end,
                })
            }),
        ),
    ]
}

/// The approach with another M.
fn at(asked: &Asked, offset: u64) -> Approach {
    Approach {
        offset,
        ..asked.approach
    }
}

/// The header's length without flare.
fn without_flare(asked: &Asked) -> u64 {
    let straight = Job {
        flare_across: 0,
        ..asked.job.clone()
    };
    envelope::before_raising(&straight, &asked.approach)
}

/// The lengths of every traffic that reaches the hazard, with another M.
fn both(asked: &Asked, offset: u64) -> Vec<u64> {
    let moved = Job {
        barrier_offset: offset,
        ..asked.job.clone()
    };
    let approaches = envelope::approaches(&moved, &asked.hazard);
    let lengths = approaches.iter().map(|each| envelope::length(&moved, each));
    lengths.collect()
}

// Arguments.

fn wrong_arguments() -> Vec<(&'static str, Calls)> {
    // Another wanted length.
    let wanted = |wanted: fn(u64) -> u64| {
        with_offset(move |job, hazard, longest| right_offset(job, hazard, wanted(longest)))
    };
    // Another index, of a job that is accepted.
    let index = |index: fn(&Job, u64) -> u64| {
        with_offset(move |job, hazard, longest| {
            let other = accepted(job).map_or(hazard, |job| index(&job, hazard));
            right_offset(job, other, longest)
        })
    };
    vec![
        (
            "offset: the wanted length in 32 bits",
            wanted(|longest| longest & 0xFFFF_FFFF),
        ),
        (
            "offset: the wanted length in 16 bits",
            wanted(|longest| longest & 0xFFFF),
        ),
        (
            "offset: a wanted length of 0 as no wish",
            wanted(|longest| if longest == 0 { u64::MAX } else { longest }),
        ),
        (
            "offset: the index in one byte",
            index(|_, hazard| hazard & 0xFF),
        ),
        (
            "offset: the index in 32 bits",
            index(|_, hazard| hazard & 0xFFFF_FFFF),
        ),
        (
            "offset: hazards counted from 1",
            index(|_, hazard| hazard.wrapping_sub(1)),
        ),
        (
            "offset: the last hazard where there is no such",
            index(|job, hazard| hazard.min((job.hazards.len() as u64).saturating_sub(1))),
        ),
        (
            "offset: reached hazards counted alone",
            index(|job, hazard| nth(job, hazard, |hazard| hazard.near < job.clear_zone)),
        ),
    ]
}

// Replies.

fn wrong_replies() -> Vec<(&'static str, Calls)> {
    vec![
        (
            "offset: found left 0",
            replied(|reply, _, _, _| reply.found = 0),
        ),
        (
            "offset: found always 1",
            replied(|reply, _, _, _| {
                if reply.number == 0 {
                    reply.found = 1;
                }
            }),
        ),
        (
            "offset: found left 1 after a refusal",
            replied(|reply, _, _, _| {
                if reply.number != 0 {
                    reply.found = 1;
                }
            }),
        ),
        (
            "offset: none with the last M tried",
            replied(|reply, bytes, hazard, longest| {
                if let (0, 0, Ok(asked)) =
                    (reply.number, reply.found, asked(bytes, hazard, longest))
                {
                    reply.value = asked.last().min(GREATEST);
                }
            }),
        ),
        (
            "offset: none with 20,001",
            replied(|reply, _, _, _| {
                if (reply.number, reply.found) == (0, 0) {
                    reply.value = GREATEST + 1;
                }
            }),
        ),
        (
            "offset: none refused 14",
            replied(|reply, _, _, _| {
                if (reply.number, reply.found) == (0, 0) {
                    *reply = refused(Refusal::no_such_hazard());
                }
            }),
        ),
        (
            "offset: the length in place of M",
            replied(|reply, bytes, hazard, longest| {
                if let (1, Ok(asked)) = (reply.found, asked(bytes, hazard, longest)) {
                    reply.value = length(&asked.job, &asked.approach, reply.value);
                }
            }),
        ),
        (
            "offset: the job's bytes changed",
            Calls {
                offset: Box::new(|job, hazard, longest| {
                    let reply = right_offset(job, hazard, longest);
                    if let Some(last) = job.last_mut() {
                        *last ^= 1;
                    }
                    reply
                }),
                ..right()
            },
        ),
    ]
}

// Refusals.

fn wrong_refusals() -> Vec<(&'static str, Calls)> {
    let no_such = refused(Refusal::no_such_hazard());
    let none = offset_reply(Ok(None));
    vec![
        (
            "offset: 14 before 5",
            replied(move |reply, bytes, hazard, _| {
                if let (5, Ok(job)) = (reply.number, job::read(bytes))
                    && envelope::adjacent_approach(&job, hazard).is_err()
                {
                    *reply = no_such;
                }
            }),
        ),
        (
            "offset: 14 before 7",
            replied(move |reply, bytes, hazard, _| {
                if reply.number == 7
                    && let Ok(job) = job::read(&bytes[..reply.value as usize])
                    && envelope::adjacent_approach(&job, hazard).is_err()
                {
                    *reply = no_such;
                }
            }),
        ),
        (
            "offset: an index above 255 before the job",
            replied(move |reply, _, hazard, _| {
                if hazard > 255 {
                    *reply = no_such;
                }
            }),
        ),
        (
            "offset: 14 with the index",
            replied(|reply, _, hazard, _| {
                if reply.number == 14 {
                    reply.value = hazard;
                }
            }),
        ),
        (
            "offset: none in place of 14",
            replied(move |reply, _, _, _| {
                if reply.number == 14 {
                    *reply = none;
                }
            }),
        ),
        (
            "offset: none where nobody reaches",
            replied(move |reply, bytes, hazard, _| {
                if let (14, Ok(job)) = (reply.number, job::read(bytes))
                    && hazard < job.hazards.len() as u64
                {
                    *reply = none;
                }
            }),
        ),
        (
            "offset: 14 where far traffic does not reach",
            replied(move |reply, bytes, hazard, longest| {
                if let (0, Ok(asked)) = (reply.number, asked(bytes, hazard, longest))
                    && asked.job.runout_opposite > 0
                    && both(&asked, asked.job.barrier_offset).len() == 1
                {
                    *reply = no_such;
                }
            }),
        ),
        (
            "offset: a job refused 5 answered, for M is sought",
            replied(|reply, bytes, hazard, longest| {
                if let (5, Ok(job)) = (reply.number, job::read(bytes)) {
                    let at_0 = Job {
                        barrier_offset: 0,
                        ..job
                    };
                    let refusal = envelope::envelopes(&at_0).map(|_| at_0);
                    let asked = refusal.and_then(|job| asked_of(job, hazard, longest));
                    *reply = offset_reply(asked.map(|asked| RIGHT.search(&asked)));
                }
            }),
        ),
        (
            "offset: 5 of the asked hazard alone",
            replied(|reply, bytes, hazard, longest| {
                if let (5, Ok(job)) = (reply.number, job::read(bytes))
                    && reply.value != hazard
                    && let Ok(asked) = asked_of(job, hazard, longest)
                    && !envelope::too_near(&asked.job, &asked.hazard)
                {
                    *reply = offset_reply(Ok(RIGHT.search(&asked)));
                }
            }),
        ),
        (
            "offset: 6 still returned",
            replied(|reply, bytes, _, _| {
                if let (0, Ok(job)) = (reply.number, accepted(bytes))
                    && let Some(value) = first_off_road(&job)
                {
                    *reply = refused(Refusal { number: 6, value });
                }
            }),
        ),
        (
            "offset: a wanted length of 0 refused 8",
            replied(|reply, _, _, longest| {
                if longest == 0 {
                    *reply = refused(Refusal::argument());
                }
            }),
        ),
        (
            "offset: a wanted length above 210,000 refused 8",
            replied(|reply, _, _, longest| {
                if longest > 210_000 {
                    *reply = refused(Refusal::argument());
                }
            }),
        ),
        (
            "offset: bytes behind the job not looked at",
            with_offset(|job, hazard, longest| {
                let reply = right_offset(job, hazard, longest);
                match reply.number {
                    7 => right_offset(&job[..reply.value as usize], hazard, longest),
                    _ => reply,
                }
            }),
        ),
    ]
}
