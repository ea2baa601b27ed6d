//! Open jobs with one slip each. The test has to find every one of them.

use std::ops::Range;

use reference::calls::plan_job;
use reference::envelope;
use reference::job::{self, Hazard, Job};
use reference::memory::{
    self, BYTES, HEADER, HEADER_BYTES, NAME_AT, NOW_BYTES, NUMBER_BYTES, PLACE_BYTES, PLACES,
    SIDE_AT, place_bytes,
};
use reference::open::Name;
use reference::{OpenJob, Refusal, add, open, open_schedule, planned, withdraw};

use crate::calls::{AddCall, Calls, Memory, OpenCall, OpenScheduleCall, WithdrawCall};
use crate::calls::{PlanReply, Reply, plan_reply, reply, right};
use crate::draft::{Draft, KIND, PANEL};

/// Every wrong open job with the name of its slip.
pub fn all() -> Vec<(&'static str, Calls)> {
    let mut list = wrong_adds();
    list.extend(wrong_withdrawals());
    list.extend(wrong_schedules());
    list.extend(wrong_openings());
    list
}

pub fn with_open(open: Box<OpenCall>) -> Calls {
    Calls { open, ..right() }
}

pub fn with_add(add: Box<AddCall>) -> Calls {
    Calls { add, ..right() }
}

pub fn with_withdraw(withdraw: Box<WithdrawCall>) -> Calls {
    Calls {
        withdraw,
        ..right()
    }
}

pub fn with_schedule(open_schedule: Box<OpenScheduleCall>) -> Calls {
    Calls {
        open_schedule,
        ..right()
    }
}

pub const DONE: Reply = Reply {
    number: 0,
    value: 0,
};

/// The bytes of the place with this index.
fn place(memory: &mut Memory, index: usize) -> &mut [u8] {
    let at = HEADER_BYTES + PLACE_BYTES * index;
    &mut memory.job[at..at + PLACE_BYTES]
}

/// How many hazards stand, of memory that is right.
fn count(memory: &Memory) -> usize {
    memory::read(&memory.job).map_or(0, |open| open.standing.len())
}

/// Puts a hazard behind the others, whatever its name is.
fn put_last(memory: &mut Memory, name: Name, hazard: &Hazard) {
    let last = count(memory);
    if last < PLACES {
        place(memory, last).copy_from_slice(&place_bytes(name, hazard));
        set_number(memory, HEADER - 1, last as u64 + 1);
    }
}

// Add.

fn wrong_adds() -> Vec<(&'static str, Calls)> {
    // The right add, with its reply or the memory changed afterwards.
    let after = |change: fn(&mut Reply, &mut Memory, Name, Hazard)| {
        with_add(Box::new(move |memory, name, hazard| {
            let mut reply = reply(add(&mut memory.job, name, hazard));
            change(&mut reply, memory, name, hazard);
            reply
        }))
    };
    // Another hazard or name added in its place.
    let other = |call: fn(&mut Memory, Name, Hazard) -> Reply| {
        with_add(Box::new(move |memory, name, hazard| {
            call(memory, name, hazard)
        }))
    };
    vec![
        (
            "a refused add leaves its hazard behind the others",
            after(|reply, memory, name, hazard| {
                let last = count(memory);
                if (4..=5).contains(&reply.number) && last < PLACES {
                    place(memory, last).copy_from_slice(&place_bytes(name, &hazard));
                }
            }),
        ),
        (
            "a refused add leaves the count raised",
            after(|reply, memory, _, _| {
                if reply.number == 5 {
                    let raised = number_at(&memory.job, HEADER - 1) + 1;
                    set_number(memory, HEADER - 1, raised);
                }
            }),
        ),
        (
            "refusal 4 before 12",
            after(|reply, memory, name, hazard| {
                let open = memory::read(&memory.job);
                if reply.number == 12 && open.is_some_and(|o| !job::in_range(&o.header, &hazard)) {
                    (reply.number, reply.value) = (4, name.into());
                }
            }),
        ),
        (
            "refusal 5 before 12",
            after(|reply, memory, name, hazard| {
                let Some(open) = memory::read(&memory.job) else {
                    return;
                };
                if reply.number == 12 && job::in_range(&open.header, &hazard) {
                    let envelope = envelope::envelope(&open.header, name.into(), &hazard);
                    if let Err(Refusal { number, value }) = envelope {
                        (reply.number, reply.value) = (number, value);
                    }
                }
            }),
        ),
        (
            "refusals 4 and 5 with the index in place of the name",
            after(|reply, memory, _, _| {
                if (4..=5).contains(&reply.number) {
                    reply.value = count(memory) as u64;
                }
            }),
        ),
        (
            "refusal 12 with the index in place of the name",
            after(|reply, memory, name, _| {
                if let (12, Some(open)) = (reply.number, memory::read(&memory.job)) {
                    let mut names = open.standing.keys();
                    reply.value = names.position(|other| *other == name).unwrap_or(0) as u64;
                }
            }),
        ),
        (
            "refusal 12 with 0",
            after(|reply, _, _, _| {
                if reply.number == 12 {
                    reply.value = 0;
                }
            }),
        ),
        (
            "the count of hazards said when added",
            after(|reply, memory, _, _| {
                if reply.number == 0 {
                    reply.value = count(memory) as u64;
                }
            }),
        ),
        (
            "two hazards of one name",
            after(|reply, memory, name, hazard| {
                if reply.number == 12 && count(memory) < PLACES {
                    put_last(memory, name, &hazard);
                    *reply = DONE;
                }
            }),
        ),
        (
            "a standing name's hazard replaced",
            other(|memory, name, hazard| {
                let before = memory.clone();
                let withdrawn = withdraw(&mut memory.job, name);
                let added = reply(add(&mut memory.job, name, hazard));
                if withdrawn.is_ok() && added.number != 0 {
                    *memory = before;
                }
                added
            }),
        ),
        (
            "a hazard added behind the others, whatever its name",
            other(|memory, name, hazard| {
                let mut added = memory.clone();
                let reply = reply(add(&mut added.job, name, hazard));
                if reply.number == 0 {
                    put_last(memory, name, &hazard);
                }
                reply
            }),
        ),
        (
            "the hazard's numbers in 32 bits",
            other(|memory, name, hazard| {
                let low = |value: u64| value & 0xFFFF_FFFF;
                let hazard = Hazard {
                    side: low(hazard.side),
                    start: low(hazard.start),
                    end: low(hazard.end),
                    near: low(hazard.near),
                    far: low(hazard.far),
                    level: low(hazard.level),
                };
                reply(add(&mut memory.job, name, hazard))
            }),
        ),
        (
            "the hazard's level and side in one byte",
            other(|memory, name, hazard| {
                let hazard = Hazard {
                    side: hazard.side & 0xFF,
                    level: hazard.level & 0xFF,
                    ..hazard
                };
                reply(add(&mut memory.job, name, hazard))
            }),
        ),
        (
            "name 0 taken as no name",
            other(|memory, name, hazard| match memory::read(&memory.job) {
                Some(_) if name == 0 => reply(Err(Refusal::name(0))),
                _ => reply(add(&mut memory.job, name, hazard)),
            }),
        ),
        (
            "255 hazards at most",
            other(|memory, name, hazard| match count(memory) {
                255 => reply(Err(Refusal::name(name))),
                _ => reply(add(&mut memory.job, name, hazard)),
            }),
        ),
        (
            "a hazard that nobody reaches not kept",
            other(|memory, name, hazard| {
                let before = memory.clone();
                let reply = reply(add(&mut memory.job, name, hazard));
                if let Some(open) = memory::read(&memory.job)
                    && envelope::approaches(&open.header, &hazard).is_empty()
                {
                    *memory = before;
                }
                reply
            }),
        ),
        (
            "the name before the memory in add",
            after(|reply, memory, name, _| {
                if *reply == BROKEN && name_stands(&memory.job, name) {
                    (reply.number, reply.value) = (12, name.into());
                }
            }),
        ),
        (
            "the hazard before the memory in add",
            after(|reply, _, name, hazard| {
                if *reply == BROKEN && (hazard.side > 1 || !(1..=6).contains(&hazard.level)) {
                    (reply.number, reply.value) = (4, name.into());
                }
            }),
        ),
    ]
}

/// The same job with approaches as they are before they are raised.
pub fn in_no_panels(job: &Job) -> Job {
    Job {
        panel: 1,
        ..job.clone()
    }
}

/// The reply to memory that breaks the rules.
pub const BROKEN: Reply = Reply {
    number: 3,
    value: 0,
};

/// Whether a place has this name, in memory of any content.
fn name_stands(memory: &[u8; BYTES], name: Name) -> bool {
    let count = number_at(memory, HEADER - 1).min(PLACES as u64) as usize;
    (0..count).any(|place| name_at(memory, place) == name)
}

pub fn set_number(memory: &mut Memory, place: usize, value: u64) {
    let at = NUMBER_BYTES * place;
    memory.job[at..at + NUMBER_BYTES].copy_from_slice(&value.to_le_bytes());
}

/// The header number at this place, counted from 0.
pub fn number_at(memory: &[u8; BYTES], place: usize) -> u64 {
    let at = NUMBER_BYTES * place;
    memory::value(&memory[at..at + NUMBER_BYTES])
}

fn name_at(memory: &[u8; BYTES], place: usize) -> Name {
    let at = HEADER_BYTES + PLACE_BYTES * place;
    memory::read_place(&memory[at..at + PLACE_BYTES]).0
}

// Withdraw.

fn wrong_withdrawals() -> Vec<(&'static str, Calls)> {
    // The right withdrawal, with its reply or the memory changed afterwards;
    // the memory of before is there too.
    let after = |change: fn(&mut Reply, &mut Memory, &Memory, Name)| {
        with_withdraw(Box::new(move |memory, name| {
            let mut before = memory.clone();
            let mut reply = reply(withdraw(&mut memory.job, name));
            change(&mut reply, memory, &mut before, name);
            reply
        }))
    };
    vec![
        ("a withdrawn name that cannot come back", gone_for_good()),
        (
            "the place behind the last hazard not cleared",
            after(|reply, memory, before, _| {
                let last = count(memory);
                if reply.number == 0 {
                    let left = place(&mut before.clone(), last).to_vec();
                    place(memory, last).copy_from_slice(&left);
                }
            }),
        ),
        (
            "the last hazard withdrawn in place of the named one",
            after(|reply, memory, before, _| {
                if reply.number == 0 {
                    *memory = before.clone();
                    without_place(memory, count(before) - 1);
                }
            }),
        ),
        (
            "the last hazard moved to the place that is free",
            after(|reply, memory, before, name| {
                let standing = count(before);
                if reply.number == 0 && standing > 1 {
                    let mut whole = before.clone();
                    let at = (0..standing).find(|at| name_at(&before.job, *at) == name);
                    let last = place(&mut whole, standing - 1).to_vec();
                    place(&mut whole, at.unwrap_or(0)).copy_from_slice(&last);
                    without_place(&mut whole, standing - 1);
                    *memory = whole;
                }
            }),
        ),
        (
            "a name that does not stand withdrawn without a word",
            after(|reply, _, _, _| {
                if reply.number == 12 {
                    *reply = DONE;
                }
            }),
        ),
        (
            "refusal 12 of a withdrawal with 0",
            after(|reply, _, _, _| {
                if reply.number == 12 {
                    reply.value = 0;
                }
            }),
        ),
        (
            "the count of hazards said when withdrawn",
            after(|reply, memory, _, _| {
                if reply.number == 0 {
                    reply.value = count(memory) as u64;
                }
            }),
        ),
        (
            "the name before the memory in a withdrawal",
            after(|reply, memory, _, name| {
                if *reply == BROKEN && !name_stands(&memory.job, name) {
                    (reply.number, reply.value) = (12, name.into());
                }
            }),
        ),
        (
            "a withdrawal that leaves the hazard in the count",
            after(|reply, memory, _, _| {
                if reply.number == 0 {
                    let left = number_at(&memory.job, HEADER - 1) + 1;
                    set_number(memory, HEADER - 1, left);
                }
            }),
        ),
    ]
}

/// Takes a place out of the row; the places behind it move up.
fn without_place(memory: &mut Memory, index: usize) {
    let at = HEADER_BYTES + PLACE_BYTES * index;
    memory.job.copy_within(at + PLACE_BYTES..NOW_BYTES, at);
    place(memory, PLACES - 1).fill(0);
    let left = number_at(&memory.job, HEADER - 1) - 1;
    set_number(memory, HEADER - 1, left);
}

/// A withdrawal marks the last place with the name; an add takes the mark as
/// that name standing.
fn gone_for_good() -> Calls {
    Calls {
        withdraw: Box::new(|memory, name| {
            let mut unmarked = memory.clone();
            place(&mut unmarked, PLACES - 1).fill(0);
            let marked = place(memory, PLACES - 1).to_vec();
            let reply = reply(withdraw(&mut unmarked.job, name));
            if reply.number == 0 {
                *memory = unmarked;
                place(memory, PLACES - 1).copy_from_slice(&marked);
                place(memory, PLACES - 1)[NAME_AT..SIDE_AT].copy_from_slice(&name.to_le_bytes());
            }
            reply
        }),
        add: Box::new(|memory, name, hazard| {
            let mark = place(memory, PLACES - 1).to_vec();
            let without_hazard = mark[..NAME_AT].iter().all(|byte| *byte == 0);
            if without_hazard && memory::read_place(&mark).0 == name && name > 0 {
                return reply(Err(Refusal::name(name)));
            }
            reply(add(&mut memory.job, name, hazard))
        }),
        ..right()
    }
}

// Schedule.

fn wrong_schedules() -> Vec<(&'static str, Calls)> {
    // Another job or side planned in place of the open one's.
    let planning = |other: fn(&OpenJob, u64) -> (Job, u64)| {
        with_schedule(Box::new(
            move |memory, side, room, lent| match memory::read(&memory.job) {
                Some(open) if side <= 1 => {
                    let (job, side) = other(&open, side);
                    plan_reply(plan_job(&job, side, &mut room[lent]))
                }
                _ => asked(memory, side, room, lent),
            },
        ))
    };
    // The right schedule, with the memory or the room changed afterwards.
    let after = |change: fn(Reply, &mut Memory, &mut [u8], Range<usize>)| {
        with_schedule(Box::new(move |memory, side, room, lent| {
            let reply = asked(memory, side, room, lent.clone());
            change(reply.reply(), memory, room, lent);
            reply
        }))
    };
    vec![
        (
            "the schedule of the other side",
            planning(|open, side| (open.job(), 1 - side)),
        ),
        (
            "the hazard of the highest name left out",
            planning(|open, side| {
                let mut job = open.job();
                job.hazards.pop();
                (job, side)
            }),
        ),
        (
            "gaps never filled in an open job",
            planning(|open, side| {
                let job = Job {
                    continuity: 0,
                    ..open.job()
                };
                (job, side)
            }),
        ),
        (
            "the panel length passed over in an open job's schedule",
            planning(|open, side| (in_no_panels(&open.job()), side)),
        ),
        (
            "the side before the memory",
            with_schedule(Box::new(|memory, side, room, lent| match side {
                0..=1 => asked(memory, side, room, lent),
                _ => plan_reply(Err(Refusal::argument())),
            })),
        ),
        (
            "an output without a byte refused before the side",
            with_schedule(Box::new(|memory, side, room, lent| {
                let mut reply = asked(memory, side, room, lent.clone());
                if reply.number == 8 && lent.is_empty() {
                    (reply.number, reply.value) = (9, 1);
                }
                reply
            })),
        ),
        (
            "the memory changed by a schedule",
            after(|reply, memory, _, _| {
                if reply.number == 0 {
                    memory.job[BYTES - 1] = 1;
                }
            }),
        ),
        (
            "a byte behind the open job written",
            after(|reply, memory, _, _| {
                if reply.number == 0 {
                    memory.after[0] = 0;
                }
            }),
        ),
        (
            "an open job's schedule begun in a short output",
            after(|reply, _, room, lent| {
                if reply.number == 9 && !lent.is_empty() {
                    room[lent.start] = reply.value as u8;
                }
            }),
        ),
        (
            "a byte too many written behind an open job's schedule",
            after(|reply, _, room, lent| {
                let behind = lent.start + reply.value as usize;
                if reply.number == 0 && lent.contains(&behind) {
                    room[behind] = 0;
                }
            }),
        ),
    ]
}

/// The right schedule.
fn asked(memory: &Memory, side: u64, room: &mut [u8], lent: Range<usize>) -> PlanReply {
    plan_reply(open_schedule(&memory.job, side, &mut room[lent]))
}

// Open.

fn wrong_openings() -> Vec<(&'static str, Calls)> {
    // The right opening, with its reply or the memory changed afterwards; the
    // memory of before is there too.
    let after = |change: fn(&mut Reply, &mut Memory, &Memory, &[u8])| {
        with_open(Box::new(move |memory, bytes| {
            let before = memory.clone();
            let mut reply = reply(open(&mut memory.job, bytes));
            change(&mut reply, memory, &before, bytes);
            reply
        }))
    };
    vec![
        (
            "a refused opening clears the memory",
            after(|reply, memory, _, _| {
                if reply.number != 0 {
                    memory.job.fill(0);
                }
            }),
        ),
        (
            "an opening refused 7 keeps what it has read",
            after(|reply, memory, _, bytes| {
                if reply.number == 7 {
                    let _ = open(&mut memory.job, &bytes[..reply.value as usize]);
                }
            }),
        ),
        (
            "an opening tests the memory of before",
            after(|reply, memory, before, _| {
                if reply.number == 0 && memory::read(&before.job).is_none() {
                    *memory = before.clone();
                    *reply = BROKEN;
                }
            }),
        ),
        (
            "an opening leaves the places as they were",
            after(|reply, memory, before, _| {
                if reply.number == 0 {
                    let places = HEADER_BYTES..NOW_BYTES;
                    memory.job[places.clone()].copy_from_slice(&before.job[places]);
                }
            }),
        ),
        (
            "the hazards of before stand after an opening",
            after(|reply, memory, before, _| {
                if let (0, Some(mut open)) = (reply.number, memory::read(&memory.job)) {
                    let standing = memory::read(&before.job).map(|before| before.standing);
                    open.standing = standing.unwrap_or_default();
                    memory::write(&open, &mut memory.job);
                }
            }),
        ),
        (
            "a job with hazards opened without them",
            after(|reply, memory, _, bytes| {
                if let (3, Ok(read)) = (reply.number, job::read(bytes)) {
                    let _ = open(&mut memory.job, &header_bytes(&read));
                    *reply = DONE;
                }
            }),
        ),
        (
            "a job with hazards opened with them",
            after(|reply, memory, _, bytes| {
                if let (3, Ok(_), Ok(read)) = (reply.number, planned(bytes, 0), job::read(bytes)) {
                    let header = OpenJob::open(&header_bytes(&read));
                    if let Ok(mut open) = header {
                        open.standing = (0..=255).zip(read.hazards).collect();
                        memory::write(&open, &mut memory.job);
                        *reply = DONE;
                    }
                }
            }),
        ),
        (
            "a hazard count above 0 with the bytes behind it",
            after(|reply, _, _, bytes| {
                if refused_count(reply, bytes)
                    && let Err(Refusal { number, value }) = job::read(bytes)
                {
                    (reply.number, reply.value) = (number, value);
                }
            }),
        ),
        (
            "a hazard count above 0 with 0 in place of its number",
            after(|reply, _, _, bytes| {
                if refused_count(reply, bytes) {
                    reply.value = 0;
                }
            }),
        ),
        (
            "14 for the hazard count of kind 2 when opening",
            after(|reply, _, _, bytes| {
                if refused_count(reply, bytes) {
                    reply.value = job::count_number(1);
                }
            }),
        ),
        (
            "kind 2 opened as kind 1",
            after(|reply, memory, _, _| {
                if reply.number == 0 {
                    set_number(memory, KIND, 1);
                    set_number(memory, PANEL, 1);
                }
            }),
        ),
        (
            "panel length 1 opened as kind 1",
            after(|reply, memory, _, _| {
                if reply.number == 0 && number_at(&memory.job, PANEL) == 1 {
                    set_number(memory, KIND, 1);
                }
            }),
        ),
        (
            "0 as the panel length of kind 1",
            after(|reply, memory, _, _| {
                if reply.number == 0 && number_at(&memory.job, KIND) == 1 {
                    set_number(memory, PANEL, 0);
                }
            }),
        ),
        (
            "kind 2 not opened",
            after(|reply, memory, before, bytes| {
                if bytes.first() == Some(&2) {
                    *memory = before.clone();
                    (reply.number, reply.value) = (3, 1);
                }
            }),
        ),
        (
            "bytes behind the header not looked at",
            after(|reply, memory, _, bytes| {
                if reply.number == 7 {
                    let _ = open(&mut memory.job, &bytes[..reply.value as usize]);
                    *reply = DONE;
                }
            }),
        ),
        (
            "the job's bytes changed by an opening",
            with_open(Box::new(|memory, bytes| {
                let reply = reply(open(&mut memory.job, bytes));
                if let Some(last) = bytes.last_mut() {
                    *last ^= 1;
                }
                reply
            })),
        ),
        (
            "the bytes read said when opened",
            after(|reply, _, _, bytes| {
                if reply.number == 0 {
                    reply.value = bytes.len() as u64;
                }
            }),
        ),
    ]
}

/// Whether an opening was refused for the hazard count of its job.
fn refused_count(reply: &Reply, bytes: &[u8]) -> bool {
    let kind = bytes.first().copied().unwrap_or(0);
    (reply.number, reply.value) == (3, job::count_number(kind.into()))
}

/// The bytes of the same header without hazards.
fn header_bytes(job: &Job) -> Vec<u8> {
    let draft = Draft {
        header: memory::header_numbers(job),
        hazards: Vec::new(),
    };
    draft.bytes()
}
