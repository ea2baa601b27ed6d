//! Bytes that were accepted while stations went to 2,000,000,000 and numbers had
//! five bytes give the same replies. Every case of a round is answered by a
//! reading of those limits, wherever that reading accepts its bytes.

use std::cell::Cell;
use std::rc::Rc;

use cases::calls::{reply, right};
use cases::wrong::{Reading, STRICT, lookup_by, quantities_by, quantity_by, read_by};
use cases::wrong_numbers::{Form, JobReading, RIGHT_FORM, RIGHT_READING, by_reading, read_in};
use cases::{Calls, Checker, round};
use reference::job::{NATIONAL, RoadLimits};
use reference::number::{Fault, Number};
use reference::{job, schedule};

const LAST_STATION: u64 = 2_000_000_000;

fn number(bytes: &[u8], begin: usize) -> Result<Number, Fault> {
    let form = Form {
        most_bytes: 5,
        greatest: 4_294_967_295,
        ..RIGHT_FORM
    };
    read_in(&form, bytes, begin)
}

const JOBS: JobReading = JobReading {
    number,
    limits: RoadLimits {
        last_begin: LAST_STATION - 1,
        last_end: LAST_STATION,
        ..NATIONAL
    },
    ..RIGHT_READING
};

const SCHEDULES: Reading = Reading {
    number,
    last_station: LAST_STATION,
    ..STRICT
};

/// How many calls had bytes that were accepted then, and how many that are
/// accepted now alone.
#[derive(Default)]
struct Seen {
    then: Cell<u64>,
    now_alone: Cell<u64>,
}

impl Seen {
    /// Whether the bytes were accepted then.
    fn accepted(&self, then: bool, now: bool) -> bool {
        let count = match then {
            true => &self.then,
            false => &self.now_alone,
        };
        count.set(count.get() + u64::from(now));
        then
    }

    fn job(&self, bytes: &[u8]) -> bool {
        self.accepted(JOBS.job(bytes).is_ok(), job::read(bytes).is_ok())
    }

    fn schedule(&self, bytes: &[u8]) -> bool {
        let then = read_by(&SCHEDULES, bytes).is_some();
        self.accepted(then, schedule::read(bytes).is_some())
    }
}

/// The calls as they were, where the bytes were accepted.
fn as_they_were(seen: &Rc<Seen>) -> Calls {
    let calls = |job: bool| match job {
        true => by_reading(JOBS),
        false => right(),
    };
    let [plan, level, corners, offset, reach] = [(); 5].map(|()| seen.clone());
    let [quantity, quantities, lookup] = [(); 3].map(|()| seen.clone());
    Calls {
        plan: Box::new(move |job, side, room, lent| {
            (calls(plan.job(job)).plan)(job, side, room, lent)
        }),
        level: Box::new(move |job, side, station| {
            (calls(level.job(job)).level)(job, side, station)
        }),
        corners: Box::new(move |job, hazard, station, offset| {
            (calls(corners.job(job)).corners)(job, hazard, station, offset)
        }),
        offset: Box::new(move |job, hazard, longest| {
            (calls(offset.job(job)).offset)(job, hazard, longest)
        }),
        reach: Box::new(move |job, hazard| (calls(reach.job(job)).reach)(job, hazard)),
        open: Box::new(move |memory, bytes| (calls(JOBS.open(bytes).is_ok()).open)(memory, bytes)),
        quantity: Box::new(
            move |schedule, level, p, q| match quantity.schedule(schedule) {
                true => reply(quantity_by(&SCHEDULES, schedule, level, p, q)),
                false => (right().quantity)(schedule, level, p, q),
            },
        ),
        quantities: Box::new(
            move |schedule, level, ranges| match quantities.schedule(schedule) {
                true => quantities_by(&SCHEDULES, schedule, level, ranges),
                false => (right().quantities)(schedule, level, ranges),
            },
        ),
        lookup: Box::new(move |right_side, left, side, station| {
            let asked = if side == 1 { &*left } else { &*right_side };
            match lookup.schedule(asked) {
                true => lookup_by(&SCHEDULES, right_side, left, side, station),
                false => (right().lookup)(right_side, left, side, station),
            }
        }),
        ..right()
    }
}

#[test]
fn what_was_accepted_is_answered_as_before() {
    let seen = Rc::new(Seen::default());
    let mut checker = Checker::new(as_they_were(&seen));
    for seed in [11, 12] {
        if let Err(difference) = round(&mut checker, seed) {
            panic!("{difference}");
        }
    }
    let (then, now_alone) = (seen.then.get(), seen.now_alone.get());
    println!("{then} accepted then, {now_alone} accepted now alone");
    assert!(then > 100_000 && now_alone > 10_000, "{then} {now_alone}");
}

/// The reading is that of the old limits indeed: what is accepted now alone, it
/// refuses.
#[test]
fn what_is_accepted_now_alone_was_refused() {
    let schedules = Calls {
        quantity: Box::new(|schedule, level, p, q| {
            reply(quantity_by(&SCHEDULES, schedule, level, p, q))
        }),
        ..right()
    };
    for calls in [by_reading(JOBS), schedules] {
        let found = round(&mut Checker::new(calls), 11);
        assert!(found.is_err());
    }
}
