//! Levels at a station with one slip each. The test has to find every one of
//! them.

use reference::job;
use reference::level::Required;
use reference::{Refusal, Stretch, level, plan};

use crate::calls::{Calls, LevelCall, Reply, reply, right};
use crate::wrong::{
    RIGHT, Rules, each_level_alone, filled_between, last_on_top, runs_by, with_flare,
};

/// Every wrong level with the name of its slip.
pub fn all() -> Vec<(&'static str, Calls)> {
    let mut list = wrong_rules();
    list.extend(wrong_stations());
    list.extend(wrong_refusals());
    list
}

fn with_level(level: Box<LevelCall>) -> Calls {
    Calls { level, ..right() }
}

/// The level of the run that has the station, by these rules.
pub fn by(rules: Rules) -> Calls {
    with_level(Box::new(move |job, side, station| {
        reply(runs_by(&rules, job, side).map(|runs| {
            let run = runs.iter().find(|run| run.stretch.has(station));
            run.map_or(0, |run| run.level)
        }))
    }))
}

/// What plan gets wrong, level can get wrong by itself.
fn wrong_rules() -> Vec<(&'static str, Calls)> {
    let runs = |runs| by(Rules { runs, ..RIGHT });
    vec![
        (
            "level: a gap of exactly G filled",
            runs(|envelopes, job| Required::new(envelopes, job.continuity + 1).runs()),
        ),
        (
            "level: gaps never filled",
            runs(|envelopes, _| Required::new(envelopes, 0).runs()),
        ),
        (
            "level: filled with the higher level",
            runs(|envelopes, job| filled_between(envelopes, job.continuity, u64::max)),
        ),
        (
            "level: gaps filled in the runs and not for each level",
            runs(|envelopes, job| filled_between(envelopes, job.continuity, u64::min)),
        ),
        (
            "level: envelopes of exactly level v only",
            runs(each_level_alone),
        ),
        ("level: lowered by the last hazard", runs(last_on_top)),
        (
            "level: the panel length passed over",
            by(Rules {
                raise: |_, _, length| length,
                ..RIGHT
            }),
        ),
        (
            "level: the formula with flare always",
            by(Rules {
                length: with_flare,
                ..RIGHT
            }),
        ),
        (
            "level: the hazards alone, without their approaches",
            by(Rules {
                length: |_, _| 0,
                ..RIGHT
            }),
        ),
        (
            "level: far traffic passed over",
            by(Rules {
                approaches: |job, hazard| {
                    let mut list = reference::envelope::approaches(job, hazard);
                    list.truncate(1);
                    list
                },
                ..RIGHT
            }),
        ),
        (
            "level: hazards of the other side not looked at for refusals",
            by(Rules {
                both_sides: false,
                ..RIGHT
            }),
        ),
        (
            "level: refusal 5 before 7",
            by(Rules {
                hazards_before_left_over: true,
                ..RIGHT
            }),
        ),
    ]
}

fn wrong_stations() -> Vec<(&'static str, Calls)> {
    // The right level of another side or station.
    let asked = |call: fn(&[u8], u64, u64) -> Result<u64, Refusal>| {
        with_level(Box::new(move |job, side, station| {
            reply(call(job, side, station))
        }))
    };
    vec![
        (
            "level: the end station covered",
            asked(|job, side, station| {
                let before = level(job, side, station.saturating_sub(1))?;
                Ok(before.max(level(job, side, station)?))
            }),
        ),
        (
            "level: the start station not covered",
            asked(|job, side, station| {
                let before = level(job, side, station.saturating_sub(1))?;
                Ok(before.min(level(job, side, station)?))
            }),
        ),
        (
            "level: the other side's hazards",
            asked(|job, side, station| level(job, if side > 1 { side } else { 1 - side }, station)),
        ),
        (
            "level: the hazards of both sides",
            asked(|job, side, station| {
                let other = if side > 1 { side } else { 1 - side };
                Ok(level(job, side, station)?.max(level(job, other, station)?))
            }),
        ),
        (
            "level: the station in 32 bits",
            asked(|job, side, station| level(job, side, station & 0xFFFF_FFFF)),
        ),
        (
            "level: a station off the road refused",
            asked(|job, side, station| {
                let found = level(job, side, station)?;
                let job = job::read(job)?;
                match Stretch::new(job.road_begin, job.road_end).has(station) {
                    true => Ok(found),
                    false => Err(Refusal::argument()),
                }
            }),
        ),
        (
            "level: a station where nothing is required refused",
            asked(|job, side, station| match level(job, side, station)? {
                0 => Err(Refusal::argument()),
                found => Ok(found),
            }),
        ),
    ]
}

fn wrong_refusals() -> Vec<(&'static str, Calls)> {
    // The right level, with its reply or the job changed afterwards.
    let after = |change: fn(&mut Reply, &mut [u8], u64)| {
        with_level(Box::new(move |job, side, station| {
            let mut reply = reply(level(job, side, station));
            change(&mut reply, job, side);
            reply
        }))
    };
    vec![
        (
            "level: refusal 9 of an output that nobody lent",
            after(|reply, job, side| refused_9(reply, job, side, 0)),
        ),
        (
            "level: refusal 9 of a schedule longer than 1,024 bytes",
            after(|reply, job, side| refused_9(reply, job, side, 1_024)),
        ),
        (
            "level: 8 after the job's refusals",
            after(|reply_to_level, job, side| {
                if side > 1
                    && let Err(refusal) = level(job, 0, 0)
                {
                    *reply_to_level = reply(Err(refusal));
                }
            }),
        ),
        (
            "level: a bad side taken as left",
            with_level(Box::new(|job, side, station| {
                reply(level(job, side.min(1), station))
            })),
        ),
        (
            "level: bytes behind the job not looked at",
            with_level(Box::new(|job, side, station| {
                match reply(level(job, side, station)) {
                    Reply { number: 7, value } => {
                        reply(level(&job[..value as usize], side, station))
                    }
                    reply => reply,
                }
            })),
        ),
        (
            "level: 0 after a refusal that is not of the number form",
            after(|reply, _, _| {
                if (3..=5).contains(&reply.number) {
                    (reply.number, reply.value) = (0, 0);
                }
            }),
        ),
        (
            "level: the job's bytes changed",
            after(|_, job, _| {
                if let Some(first) = job.first_mut() {
                    *first ^= 1;
                }
            }),
        ),
    ]
}

/// As plan is refused 9 with so long an output.
fn refused_9(reply: &mut Reply, job: &[u8], side: u64, length: usize) {
    if let Err(Refusal { number: 9, value }) = plan(job, side, &mut vec![0; length]) {
        (reply.number, reply.value) = (9, value);
    }
}
