//! Stations on the national chainage and numbers of six bytes with one slip each.
//! The test has to find every one of them.
//!
//! Some slips make no difference, and are not here. In a schedule a number that
//! is faulty in form and one that is out of range are both 10: so it is all one
//! there whether a value above the last station is refused for its form, and
//! whether a number of seven bytes is read, which has such a value. A sum in 64
//! bits wraps nowhere: 511 runs of two numbers below 2 to the 42nd stay below 2 to
//! the 53rd. No length of a planned run passes 2,000,000,000, so lengths may be
//! written in 32 bits. And nothing of a smallest offset hangs on stations.

use reference::calls::{plan_job, runs};
use reference::corners::SHEET_END;
use reference::envelope::Envelope;
use reference::job::{self, Hazard, Job, LAST_STATION, NATIONAL, RoadLimits};
use reference::level::Run;
use reference::number::{self, Fault, Number};
use reference::open::Standing;
use reference::{Planned, Refusal, add, corners, keep, memory, return_to, withdraw};

use crate::calls::{Calls, Memory, PlanReply, Reply, corners_reply, plan_reply, reply, right};
use crate::draft::number_bytes;
use crate::wrong::{
    RIGHT, Reading, Rules, STRICT, by, lookup_by, quantities_by, quantity_by, with_lookup,
    with_plan, with_quantities, with_quantity,
};
use crate::wrong_level;
use crate::wrong_numbers::{Form, JobReading, RIGHT_FORM, RIGHT_READING, by_reading, read_in};
use crate::wrong_open::{DONE, with_add, with_open, with_schedule, with_withdraw};
use crate::wrong_states::{after, open_job, with_keep, with_return};

/// Every wrong chainage with the name of its slip.
pub fn all() -> Vec<(&'static str, Calls)> {
    let mut list = Vec::new();
    for (slip, reading) in wrong_job_readings() {
        list.extend(in_each_job_call(slip, reading));
    }
    for (slip, reading) in wrong_schedule_readings() {
        list.extend(in_each_schedule_call(slip, reading));
    }
    list.extend(wrong_stations());
    list.extend(wrong_writings());
    list.extend(wrong_open_jobs());
    list.extend(wrong_sheets());
    list
}

/// A slip in one call alone, under a name that lives as long as the test.
fn named(slip: &str, call: &str) -> &'static str {
    format!("{slip}, in {call}").leak()
}

const IN_32_BITS: u64 = (1 << 32) - 1;

// Jobs.

/// The slip in each call that takes a job's bytes.
fn in_each_job_call(slip: &str, reading: JobReading) -> Vec<(&'static str, Calls)> {
    let calls = || by_reading(reading);
    let alone = [
        ("plan", with_plan(calls().plan)),
        (
            "level",
            Calls {
                level: calls().level,
                ..right()
            },
        ),
        (
            "corners",
            Calls {
                corners: calls().corners,
                ..right()
            },
        ),
        (
            "offset",
            Calls {
                offset: calls().offset,
                ..right()
            },
        ),
        ("an opening", with_open(calls().open)),
    ];
    let name = |(call, calls)| (named(slip, call), calls);
    alone.into_iter().map(name).collect()
}

fn wrong_job_readings() -> Vec<(&'static str, JobReading)> {
    let number = |number| JobReading {
        number,
        ..RIGHT_READING
    };
    let limits = |limits| JobReading {
        limits,
        ..RIGHT_READING
    };
    vec![
        ("numbers of five bytes at most", number(five_bytes)),
        ("a value above 32 bits refused 2", number(values_in_32_bits)),
        (
            "a value above the last station refused 2",
            number(|bytes, begin| {
                let form = Form {
                    greatest: LAST_STATION,
                    ..RIGHT_FORM
                };
                read_in(&form, bytes, begin)
            }),
        ),
        (
            "a sixth byte above hex 1F refused 2",
            number(|bytes, begin| {
                let form = Form {
                    greatest: (1 << 40) - 1,
                    ..RIGHT_FORM
                };
                read_in(&form, bytes, begin)
            }),
        ),
        (
            "numbers of seven bytes taken",
            number(|bytes, begin| {
                let form = Form {
                    most_bytes: 7,
                    ..RIGHT_FORM
                };
                read_in(&form, bytes, begin)
            }),
        ),
        ("a sixth byte of 0 taken", number(sixth_byte_0)),
        ("values gathered in 32 bits", number(gathered_in_32_bits)),
        (
            "six top bits at the end refused 1",
            number(|bytes, begin| match number::read(bytes, begin) {
                Err(Fault::Form) if top_bits_to_the_end(bytes, begin) => Err(Fault::Ends),
                read => read,
            }),
        ),
        (
            "five top bits at the end refused 2",
            number(|bytes, begin| match number::read(bytes, begin) {
                Err(Fault::Ends) if bytes.len() == begin + 5 => Err(Fault::Form),
                read => read,
            }),
        ),
        (
            "A and B as near to the datum as before",
            limits(RoadLimits {
                last_begin: 1_999_999_999,
                last_end: 2_000_000_000,
                ..NATIONAL
            }),
        ),
        ("B − A not tested", limits(ANY_LENGTH)),
        (
            "B − A a millimetre too great taken",
            limits(RoadLimits {
                longest: NATIONAL.longest + 1,
                ..NATIONAL
            }),
        ),
        (
            "the greatest B − A refused",
            limits(RoadLimits {
                longest: NATIONAL.longest - 1,
                ..NATIONAL
            }),
        ),
        (
            "A a millimetre too great taken",
            limits(RoadLimits {
                last_begin: NATIONAL.last_begin + 1,
                ..NATIONAL
            }),
        ),
        (
            "the greatest A refused",
            limits(RoadLimits {
                last_begin: NATIONAL.last_begin - 1,
                ..NATIONAL
            }),
        ),
        (
            "B a millimetre too great taken",
            limits(RoadLimits {
                last_end: NATIONAL.last_end + 1,
                ..NATIONAL
            }),
        ),
        (
            "the greatest B refused",
            limits(RoadLimits {
                last_end: NATIONAL.last_end - 1,
                ..NATIONAL
            }),
        ),
        (
            "B − A refused with the number of A",
            JobReading {
                after: |bytes, job| match job {
                    Err(refusal) if too_long(bytes, refusal) => Err(Refusal::header_range(2)),
                    job => job,
                },
                ..RIGHT_READING
            },
        ),
        (
            "B − A tested behind all other numbers",
            JobReading {
                limits: ANY_LENGTH,
                after: |_, job| match job {
                    Ok(job) if job.road_end - job.road_begin > NATIONAL.longest => {
                        Err(Refusal::header_range(3))
                    }
                    job => job,
                },
                ..RIGHT_READING
            },
        ),
    ]
}

/// No road is so long.
const ANY_LENGTH: RoadLimits = RoadLimits {
    longest: LAST_STATION,
    ..NATIONAL
};

/// Whether the job is refused for B − A and for nothing else of B.
fn too_long(bytes: &[u8], refusal: Refusal) -> bool {
    let of_b = Refusal::header_range(3);
    let any_length = JobReading {
        limits: ANY_LENGTH,
        ..RIGHT_READING
    };
    refusal == of_b && any_length.job(bytes) != Err(of_b)
}

fn five_bytes(bytes: &[u8], begin: usize) -> Result<Number, Fault> {
    let form = Form {
        most_bytes: 5,
        ..RIGHT_FORM
    };
    read_in(&form, bytes, begin)
}

fn values_in_32_bits(bytes: &[u8], begin: usize) -> Result<Number, Fault> {
    let form = Form {
        greatest: IN_32_BITS,
        ..RIGHT_FORM
    };
    read_in(&form, bytes, begin)
}

fn sixth_byte_0(bytes: &[u8], begin: usize) -> Result<Number, Fault> {
    let form = Form {
        shortest: |bytes_taken| bytes_taken < 6,
        ..RIGHT_FORM
    };
    read_in(&form, bytes, begin)
}

fn gathered_in_32_bits(bytes: &[u8], begin: usize) -> Result<Number, Fault> {
    let form = Form {
        taken_as: |value| value & IN_32_BITS,
        ..RIGHT_FORM
    };
    read_in(&form, bytes, begin)
}

/// Whether six bytes are left, each with the top bit set.
fn top_bits_to_the_end(bytes: &[u8], begin: usize) -> bool {
    bytes.len() == begin + 6 && bytes[begin..].iter().all(|byte| *byte > 0x7F)
}

// Schedules.

/// The slip in each call that takes a schedule.
fn in_each_schedule_call(slip: &str, reading: Reading) -> Vec<(&'static str, Calls)> {
    vec![
        (
            named(slip, "quantity"),
            with_quantity(Box::new(move |schedule, level, p, q| {
                reply(quantity_by(&reading, schedule, level, p, q))
            })),
        ),
        (
            named(slip, "quantities"),
            with_quantities(Box::new(move |schedule, level, ranges| {
                quantities_by(&reading, schedule, level, ranges)
            })),
        ),
        (
            named(slip, "lookup"),
            with_lookup(move |right, left, side, station| {
                lookup_by(&reading, right, left, side, station)
            }),
        ),
    ]
}

fn wrong_schedule_readings() -> Vec<(&'static str, Reading)> {
    let number = |number| Reading { number, ..STRICT };
    let last_station = |last_station| Reading {
        last_station,
        ..STRICT
    };
    let start = |start| Reading { start, ..STRICT };
    let end = |end| Reading { end, ..STRICT };
    vec![
        ("five bytes at most in a schedule", number(five_bytes)),
        ("a value above 32 bits not read", number(values_in_32_bits)),
        (
            "a sixth byte of 0 taken in a schedule",
            number(sixth_byte_0),
        ),
        (
            "values of a schedule gathered in 32 bits",
            number(gathered_in_32_bits),
        ),
        ("ends up to 2,000,000,000", last_station(2_000_000_000)),
        (
            "an end at the last station not read",
            last_station(LAST_STATION - 1),
        ),
        (
            "an end just behind the last station read",
            last_station(LAST_STATION + 1),
        ),
        ("ends of runs not tested", last_station(u64::MAX)),
        ("starts in 32 bits", start(|start| start & IN_32_BITS)),
        ("ends in 32 bits", end(|end| end & IN_32_BITS)),
        ("ends in 42 bits", end(|end| end & ((1 << 42) - 1))),
    ]
}

// Stations.

/// Stations counted from the last multiple of 2 to the 32nd before A.
fn on_one_page(job: Job) -> Job {
    let page = job.road_begin & !IN_32_BITS;
    let on_page = |hazard: &Hazard| Hazard {
        start: hazard.start - page,
        end: hazard.end - page,
        ..*hazard
    };
    Job {
        road_begin: job.road_begin - page,
        road_end: job.road_end - page,
        hazards: job.hazards.iter().map(on_page).collect(),
        ..job
    }
}

/// An envelope whose stations are cut to 32 bits; none of it is left where it
/// would turn.
fn envelope_in_32_bits(_: &Hazard, envelope: &mut Envelope) {
    let stretch = &mut envelope.stretch;
    stretch.start &= IN_32_BITS;
    stretch.end = (stretch.end & IN_32_BITS).max(stretch.start);
}

fn wrong_stations() -> Vec<(&'static str, Calls)> {
    let mut list = in_each_job_call(
        "stations in 32 bits",
        JobReading {
            after: |_, job| job.map(on_one_page),
            ..RIGHT_READING
        },
    );
    // Nothing of a smallest offset hangs on stations.
    list.retain(|(name, _)| !name.ends_with("in offset"));
    let cut = Rules {
        after_cut: envelope_in_32_bits,
        ..RIGHT
    };
    list.push(("envelopes in 32 bits", by(cut)));
    list.push(("level: envelopes in 32 bits", wrong_level::by(cut)));
    list
}

// Writing.

/// The first number of a record, from the run's start, the end of the run before
/// and A.
type Gap = fn(u64, u64, u64) -> u64;

fn wrong_writings() -> Vec<(&'static str, Calls)> {
    let slips: [(&'static str, Gap); 3] = [
        ("a gap written in 32 bits", |start, before, _| {
            (start - before) & IN_32_BITS
        }),
        ("a gap written in five bytes", |start, before, _| {
            (start - before) & ((1 << 35) - 1)
        }),
        ("the first gap counted from A", |start, before, begin| {
            start - before.max(begin)
        }),
    ];
    slips.map(|(name, gap)| (name, written(gap))).into()
}

fn written(gap: Gap) -> Calls {
    with_plan(Box::new(move |bytes, side, room, lent| {
        let reply = (right().plan)(bytes, side, room, lent.clone());
        let (0, Ok(job), Ok(runs)) = (reply.number, job::read(bytes), runs(bytes, side)) else {
            return reply;
        };
        let bytes = writing(&runs, |start, before| gap(start, before, job.road_begin));
        room[lent][..bytes.len()].copy_from_slice(&bytes);
        PlanReply {
            value: bytes.len() as u64,
            ..reply
        }
    }))
}

/// A writing with other gaps, none of them longer than the right one.
fn writing(runs: &[Run], gap: impl Fn(u64, u64) -> u64) -> Vec<u8> {
    let mut numbers = vec![runs.len() as u64];
    let mut previous_end = 0;
    for Run { stretch, level } in runs {
        let gap = gap(stretch.start, previous_end);
        numbers.extend([gap, stretch.length(), *level]);
        previous_end = stretch.end;
    }
    number_bytes(&numbers)
}

// Open jobs.

/// The stations of these hazards in 32 bits.
fn narrow(standing: &mut Standing) {
    for hazard in standing.values_mut() {
        hazard.start &= IN_32_BITS;
        hazard.end &= IN_32_BITS;
    }
}

/// What stands after a call that was done, in 32 bits.
fn narrowed(memory: &mut Memory, reply: Reply) -> Reply {
    if reply == DONE {
        let mut open = open_job(memory);
        narrow(&mut open.standing);
        memory::write(&open, &mut memory.job);
    }
    reply
}

fn wrong_open_jobs() -> Vec<(&'static str, Calls)> {
    vec![
        (
            "stations in 32 bits after add",
            with_add(Box::new(|memory, name, hazard| {
                let reply = reply(add(&mut memory.job, name, hazard));
                narrowed(memory, reply)
            })),
        ),
        (
            "stations in 32 bits after a withdrawal",
            with_withdraw(Box::new(|memory, name| {
                let reply = reply(withdraw(&mut memory.job, name));
                narrowed(memory, reply)
            })),
        ),
        (
            "stations kept in 32 bits",
            with_keep(after(keep, |done| {
                let kept = &mut done.after.kept[done.state];
                kept.iter_mut().for_each(narrow);
            })),
        ),
        (
            "stations in 32 bits after a return",
            with_return(after(return_to, |done| narrow(&mut done.after.standing))),
        ),
        (
            "stations in 32 bits, in an open job's schedule",
            with_schedule(Box::new(|memory, side, room, lent| {
                match memory::read(&memory.job) {
                    Some(open) => {
                        let job = on_one_page(open.job());
                        plan_reply(plan_job(&job, side, &mut room[lent]))
                    }
                    None => plan_reply(Err::<Planned, _>(Refusal::header_range(0))),
                }
            })),
        ),
    ]
}

// Sheets.

fn wrong_sheets() -> Vec<(&'static str, Calls)> {
    // Refused 8 from a smaller number on.
    let limited = |station_end: u64, offset_end: u64| Calls {
        corners: Box::new(move |job, hazard, station, offset| {
            corners_reply(match station > station_end || offset > offset_end {
                true => Err(Refusal::argument()),
                false => corners(job, hazard, station, offset),
            })
        }),
        ..right()
    };
    let before = 2_000_000_000;
    vec![
        ("sheet corners up to 2,000,000,000", limited(before, before)),
        (
            "a sheet corner's station up to 2,000,000,000",
            limited(before, SHEET_END),
        ),
        (
            "a sheet corner's offset up to 2,000,000,000",
            limited(SHEET_END, before),
        ),
    ]
}
