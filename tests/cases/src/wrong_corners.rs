//! Corner points with one slip each. The test has to find every one of them.

use reference::Refusal;
use reference::calls::accepted;
use reference::corners::{
    Corner, Corners, Point, SHEET_END, corners, flare_entered, from_sheet, points, upstream_by,
};
use reference::envelope::{self, Approach, Direction, Overhang};
use reference::job::{self, Hazard, Job};

use crate::calls::{Calls, CornersReply, NO_CORNER, corners_reply, right};

/// Every wrong corner with the name of its slip.
pub fn all() -> Vec<(&'static str, Calls)> {
    let mut list = wrong_offsets();
    list.extend(wrong_stations());
    list.extend(wrong_flares());
    list.extend(wrong_floats());
    list.extend(wrong_sheets());
    list.extend(wrong_hazards());
    list.extend(wrong_refusals());
    list
}

/// What was asked, of an accepted job and a hazard that adjacent traffic reaches.
struct Asked {
    job: Job,
    hazard: Hazard,
    approach: Approach,
    sheet: Point,
}

impl Asked {
    fn of(bytes: &[u8], hazard: u64, station: u64, offset: u64) -> Option<Asked> {
        let job = accepted(bytes).ok()?;
        let (hazard, approach) = envelope::adjacent_approach(&job, hazard).ok()?;
        Some(Asked {
            job,
            hazard,
            approach,
            sheet: sheet_of(station, offset),
        })
    }

    /// The raised length.
    fn length(&self) -> i128 {
        envelope::length(&self.job, &self.approach).into()
    }

    fn before_raising(&self) -> i128 {
        envelope::before_raising(&self.job, &self.approach).into()
    }

    fn straight(&self) -> i128 {
        self.job.straight.into()
    }

    fn entered(&self) -> bool {
        flare_entered(&self.job, &self.approach)
    }

    /// M, a and b.
    fn offset(&self) -> i128 {
        self.job.barrier_offset.into()
    }

    fn along(&self) -> i128 {
        self.job.flare_along.into()
    }

    fn across(&self) -> i128 {
        self.job.flare_across.into()
    }

    fn upstream_by(&self, length: i128) -> i128 {
        upstream_by(&self.hazard, self.approach.direction, length as u64)
    }

    /// How far the flare goes along.
    fn flare_length(&self) -> i128 {
        self.length() - self.straight()
    }

    fn points(&self) -> [Point; 3] {
        points(&self.job, &self.hazard, &self.approach)
    }
}

fn sheet_of(station: u64, offset: u64) -> Point {
    Point {
        station: station.into(),
        offset: offset.into(),
    }
}

const UPSTREAM: usize = 0;
const FLARE: usize = 1;
const HAZARD: usize = 2;

fn with_corners(call: impl Fn(&[u8], u64, u64, u64) -> CornersReply + 'static) -> Calls {
    Calls {
        corners: Box::new(move |job, hazard, station, offset| call(job, hazard, station, offset)),
        ..right()
    }
}

/// The right call.
fn right_corners(job: &[u8], hazard: u64, station: u64, offset: u64) -> CornersReply {
    corners_reply(corners(job, hazard, station, offset))
}

fn refused(refusal: Refusal) -> CornersReply {
    corners_reply(Err(refusal))
}

/// The right points changed before they are made floats.
fn point_slip(change: impl Fn(&Asked, &mut [Point; 3]) + 'static) -> Calls {
    float_slip(move |asked, corners| {
        let mut points = asked.points();
        change(asked, &mut points);
        *corners = list(from_sheet(points, asked.sheet));
    })
}

/// Each of the right points changed.
fn each_point(change: impl Fn(&Asked, &mut Point) + 'static) -> Calls {
    point_slip(move |asked, points| points.iter_mut().for_each(|point| change(asked, point)))
}

/// The right floats changed.
fn float_slip(change: impl Fn(&Asked, &mut [Corner; 3]) + 'static) -> Calls {
    replied(move |reply, job, hazard, (station, offset)| {
        if let (0, Some(asked)) = (reply.number, Asked::of(job, hazard, station, offset)) {
            change(&asked, &mut reply.corners);
        }
    })
}

/// Each of the right floats changed.
fn each_float(change: impl Fn(f64) -> f64 + 'static) -> Calls {
    float_slip(move |_, corners| {
        for corner in corners {
            corner.station = change(corner.station);
            corner.offset = change(corner.offset);
        }
    })
}

/// The right reply changed.
fn replied(change: impl Fn(&mut CornersReply, &[u8], u64, (u64, u64)) + 'static) -> Calls {
    with_corners(move |job, hazard, station, offset| {
        let mut reply = right_corners(job, hazard, station, offset);
        change(&mut reply, job, hazard, (station, offset));
        reply
    })
}

fn list(corners: Corners) -> [Corner; 3] {
    [corners.upstream, corners.flare, corners.hazard]
}

// Offsets.

fn wrong_offsets() -> Vec<(&'static str, Calls)> {
    // Another offset at the upstream end where the flare is entered.
    let across = |across: fn(&Asked) -> i128| {
        point_slip(move |asked, points| {
            if asked.entered() {
                points[UPSTREAM].offset = asked.offset() + across(asked);
            }
        })
    };
    vec![
        (
            "corners: the offset rounded up",
            across(|asked| {
                let numerator = asked.across() * asked.flare_length();
                (numerator + asked.along() - 1) / asked.along()
            }),
        ),
        (
            "corners: the offset rounded to the nearest millimetre",
            across(|asked| {
                let numerator = asked.across() * asked.flare_length();
                (2 * numerator + asked.along()) / (2 * asked.along())
            }),
        ),
        (
            "corners: the offset divided before it is multiplied",
            across(|asked| asked.flare_length() / asked.along() * asked.across()),
        ),
        (
            "corners: the offset by the length before raising",
            across(|asked| {
                let flare_length = asked.before_raising() - asked.straight();
                asked.across() * flare_length / asked.along()
            }),
        ),
        (
            "corners: the offset by the whole length",
            across(|asked| asked.across() * asked.length() / asked.along()),
        ),
        (
            "corners: a and b exchanged",
            across(|asked| asked.along() * asked.flare_length() / asked.across()),
        ),
        ("corners: the flare without its offset", across(|_| 0)),
        (
            "corners: the flare towards the road",
            across(|asked| -(asked.across() * asked.flare_length() / asked.along())),
        ),
        (
            "corners: offsets with W",
            each_point(|asked, point| point.offset += i128::from(asked.job.centreline)),
        ),
        (
            "corners: offsets with D",
            each_point(|asked, point| point.offset += i128::from(asked.job.deflection)),
        ),
        (
            "corners: n at the hazard's end",
            point_slip(|asked, points| points[HAZARD].offset = asked.hazard.near.into()),
        ),
        (
            "corners: the upstream end's offset at the flare's beginning",
            point_slip(|_, points| points[FLARE].offset = points[UPSTREAM].offset),
        ),
        (
            "corners: offsets on the left turned",
            each_point(|asked, point| {
                if asked.hazard.side == 1 {
                    point.offset = -point.offset;
                }
            }),
        ),
        (
            "corners: offsets of opposite traffic turned",
            each_point(|asked, point| {
                if asked.approach.direction == Direction::Opposite {
                    point.offset = -point.offset;
                }
            }),
        ),
        (
            "corners: the flare's offset cut at n - D",
            point_slip(|asked, points| {
                let most = asked.hazard.near - asked.job.deflection;
                points[UPSTREAM].offset = points[UPSTREAM].offset.min(most.into());
            }),
        ),
        (
            "corners: offsets in 16 bits",
            each_point(|_, point| point.offset &= 0xFFFF),
        ),
    ]
}

// Stations.

fn wrong_stations() -> Vec<(&'static str, Calls)> {
    // The same lengths from another end of the hazard.
    let from = |direction: fn(&Job, &Hazard) -> Direction| {
        each_point(move |asked, point| {
            let away = (point.station - asked.upstream_by(0)).unsigned_abs() as u64;
            let direction = direction(&asked.job, &asked.hazard);
            point.station = upstream_by(&asked.hazard, direction, away);
        })
    };
    vec![
        (
            "corners: cut at A",
            each_point(|asked, point| {
                point.station = point.station.max(asked.job.road_begin.into());
            }),
        ),
        (
            "corners: cut at B",
            each_point(|asked, point| {
                point.station = point.station.min(asked.job.road_end.into());
            }),
        ),
        (
            "corners: cut at station 0",
            each_point(|_, point| point.station = point.station.max(0)),
        ),
        (
            "corners: cut at the last station",
            each_point(|_, point| point.station = point.station.min(job::LAST_STATION.into())),
        ),
        (
            "corners: the flare's beginning cut at A",
            point_slip(|asked, points| {
                let begin = asked.job.road_begin.into();
                points[FLARE].station = points[FLARE].station.max(begin);
            }),
        ),
        (
            "corners: the upstream end by the length before raising",
            point_slip(|asked, points| {
                points[UPSTREAM].station = asked.upstream_by(asked.before_raising());
                if !asked.entered() {
                    points[FLARE] = points[UPSTREAM];
                }
            }),
        ),
        (
            "corners: T in whole panels",
            point_slip(|asked, points| {
                if asked.entered() {
                    let raised = asked.job.straight.next_multiple_of(asked.job.panel);
                    points[FLARE].station = asked.upstream_by(raised.into());
                }
            }),
        ),
        (
            "corners: T from the upstream end",
            point_slip(|asked, points| {
                if asked.entered() {
                    points[FLARE].station = asked.upstream_by(asked.flare_length());
                }
            }),
        ),
        (
            "corners: a hazard's last millimetre in place of its end",
            each_point(|asked, point| {
                if asked.approach.direction == Direction::Opposite {
                    point.station -= 1;
                }
            }),
        ),
        (
            "corners: the hazard's other end",
            point_slip(|asked, points| {
                points[HAZARD].station = match asked.approach.direction {
                    Direction::Forward => asked.hazard.end.into(),
                    Direction::Opposite => asked.hazard.start.into(),
                };
            }),
        ),
        (
            "corners: upstream end and hazard's end exchanged",
            point_slip(|_, points| points.swap(UPSTREAM, HAZARD)),
        ),
        (
            "corners: upstream end and flare's beginning exchanged",
            point_slip(|_, points| points.swap(UPSTREAM, FLARE)),
        ),
        (
            "corners: every approach from lower stations",
            from(|_, _| Direction::Forward),
        ),
        (
            "corners: a one-way road's left side from higher stations",
            from(|_, hazard| match hazard.side {
                0 => Direction::Forward,
                _ => Direction::Opposite,
            }),
        ),
        (
            "corners: the sides exchanged",
            from(|job, hazard| envelope::adjacent(job, 1 - hazard.side)),
        ),
        (
            "corners: the runout length of the other traffic",
            point_slip(|asked, points| {
                let mut job = asked.job.clone();
                if job.runout_opposite > 0 {
                    job.runout_forward = asked.job.runout_opposite;
                    job.runout_opposite = asked.job.runout_forward;
                }
                *points = reference::corners::points(&job, &asked.hazard, &asked.approach);
            }),
        ),
        (
            "corners: far traffic's length",
            point_slip(|asked, points| {
                let approaches = envelope::approaches(&asked.job, &asked.hazard);
                if let [_, far] = approaches[..] {
                    *points = reference::corners::points(&asked.job, &asked.hazard, &far);
                }
            }),
        ),
    ]
}

// Whether the flare is entered, and the second corner where it is not.

fn wrong_flares() -> Vec<(&'static str, Calls)> {
    let entered = |entered: fn(&Asked) -> bool| {
        point_slip(move |asked, points| {
            let offset = asked.offset();
            points[UPSTREAM].offset = offset;
            points[FLARE] = points[UPSTREAM];
            if entered(asked) {
                let across = asked.across() * asked.flare_length() / asked.along();
                points[UPSTREAM].offset = offset + across.max(0);
                points[FLARE].station = asked.upstream_by(asked.straight());
            }
        })
    };
    // The second corner where the flare is not entered.
    let second = |second: fn(&Asked, &[Point; 3]) -> Point| {
        point_slip(move |asked, points| {
            if !asked.entered() {
                points[FLARE] = second(asked, points);
            }
        })
    };
    vec![
        (
            "corners: the flare judged by the raised length",
            entered(|asked| asked.across() > 0 && asked.flare_length() > 0),
        ),
        (
            "corners: the flare entered at T itself",
            entered(|asked| asked.across() > 0 && asked.before_raising() >= asked.straight()),
        ),
        (
            "corners: the flare judged by b alone",
            entered(|asked| asked.across() > 0),
        ),
        (
            "corners: the flare judged by T alone",
            entered(|asked| asked.before_raising() > asked.straight()),
        ),
        (
            "corners: the flare judged by the runout length",
            entered(|asked| {
                let runout = envelope::runout(&asked.job, asked.approach.direction);
                asked.across() > 0 && i128::from(runout) > asked.straight()
            }),
        ),
        ("corners: the flare never entered", entered(|_| false)),
        (
            "corners: the second corner T upstream where no flare is entered",
            second(|asked, points| Point {
                station: asked.upstream_by(asked.straight()),
                ..points[UPSTREAM]
            }),
        ),
        (
            "corners: the second corner repeats the third",
            second(|_, points| points[HAZARD]),
        ),
        (
            "corners: no second corner where no flare is entered",
            float_slip(|asked, corners| {
                if !asked.entered() {
                    corners[FLARE] = NO_CORNER;
                }
            }),
        ),
        (
            "corners: the third repeats the second where no flare is entered",
            point_slip(|asked, points| {
                if !asked.entered() {
                    points[HAZARD] = points[FLARE];
                }
            }),
        ),
    ]
}

// Floats.

fn wrong_floats() -> Vec<(&'static str, Calls)> {
    vec![
        (
            "corners: -0.0",
            each_float(|float| if float == 0.0 { -0.0 } else { float }),
        ),
        (
            "corners: -0.0 of offsets alone",
            float_slip(|_, corners| {
                for Corner { offset, .. } in corners {
                    if *offset == 0.0 {
                        *offset = -0.0;
                    }
                }
            }),
        ),
        (
            "corners: in 32 bits",
            each_float(|float| f64::from(float as f32)),
        ),
        (
            "corners: subtracted in 32 bits",
            float_slip(|asked, corners| {
                let subtracted = |a: i128, b: i128| f64::from(a as f32 - b as f32);
                for (corner, point) in corners.iter_mut().zip(asked.points()) {
                    corner.station = subtracted(point.station, asked.sheet.station);
                    corner.offset = subtracted(point.offset, asked.sheet.offset);
                }
            }),
        ),
        (
            "corners: the offset with its fraction",
            float_slip(|asked, corners| {
                if asked.entered() {
                    let across = asked.across() * asked.flare_length();
                    let exact = asked.offset() as f64 + across as f64 / asked.along() as f64;
                    corners[UPSTREAM].offset = exact - asked.sheet.offset as f64;
                }
            }),
        ),
        ("corners: without sign", each_float(f64::abs)),
        (
            "corners: 0 for what lies before the sheet corner",
            each_float(|float| float.max(0.0)),
        ),
        (
            "corners: subtracted in whole numbers without sign",
            each_float(|float| (float as i64 as u64) as f64),
        ),
        ("corners: in metres", each_float(|float| float / 1_000.0)),
        (
            "corners: the difference turned",
            each_float(|float| 0.0 - float),
        ),
    ]
}

// The sheet corner.

fn wrong_sheets() -> Vec<(&'static str, Calls)> {
    // Another sheet corner, where the right one is in range.
    let other = |other: fn(u64, u64) -> (u64, u64)| {
        with_corners(move |job, hazard, station, offset| {
            let (other_station, other_offset) = match station.max(offset) <= SHEET_END {
                true => other(station, offset),
                false => (station, offset),
            };
            right_corners(job, hazard, other_station, other_offset)
        })
    };
    // Another sheet corner, also where the right one is out of range.
    let taken = |other: fn(u64, u64) -> (u64, u64)| {
        with_corners(move |job, hazard, station, offset| {
            let (station, offset) = other(station, offset);
            right_corners(job, hazard, station, offset)
        })
    };
    // Refused 8 where the right reply is not.
    let refused_where = |bad: fn(u64, u64) -> bool| {
        with_corners(
            move |job, hazard, station, offset| match bad(station, offset) {
                true => refused(Refusal::argument()),
                false => right_corners(job, hazard, station, offset),
            },
        )
    };
    vec![
        (
            "corners: the sheet corner's numbers exchanged",
            other(|station, offset| (offset, station)),
        ),
        (
            "corners: the sheet corner's station passed over",
            other(|_, offset| (0, offset)),
        ),
        (
            "corners: the sheet corner's offset passed over",
            other(|station, _| (station, 0)),
        ),
        (
            "corners: the sheet corner added",
            float_slip(|asked, corners| {
                let Point { station, offset } = asked.sheet;
                let sheet = Point {
                    station: -station,
                    offset: -offset,
                };
                *corners = list(from_sheet(asked.points(), sheet));
            }),
        ),
        (
            "corners: the hazard's end not counted from the sheet corner",
            float_slip(|asked, corners| {
                corners[HAZARD].station += asked.sheet.station as f64;
            }),
        ),
        (
            "corners: a sheet corner just out of range taken",
            taken(|station, offset| {
                let within = |number| match number == SHEET_END + 1 {
                    true => SHEET_END,
                    false => number,
                };
                (within(station), within(offset))
            }),
        ),
        (
            "corners: the sheet corner's station alone tested",
            taken(|station, offset| (station, offset.min(SHEET_END))),
        ),
        (
            "corners: the sheet corner's offset alone tested",
            taken(|station, offset| (station.min(SHEET_END), offset)),
        ),
        (
            "corners: the sheet corner in 32 bits",
            taken(|station, offset| (station & 0xFFFF_FFFF, offset & 0xFFFF_FFFF)),
        ),
        (
            "corners: the last station of a sheet corner refused",
            refused_where(|station, _| station == SHEET_END),
        ),
        (
            "corners: the greatest offset of a sheet corner refused",
            refused_where(|_, offset| offset == SHEET_END),
        ),
        (
            "corners: a sheet corner's offset above 60,000 refused",
            refused_where(|_, offset| offset > 60_000),
        ),
        (
            "corners: a sheet corner off the road refused",
            replied(|reply, job, _, (station, _)| {
                if let (0, Ok(job)) = (reply.number, job::read(job))
                    && !(job.road_begin..=job.road_end).contains(&station)
                {
                    *reply = refused(Refusal::argument());
                }
            }),
        ),
        (
            "corners: 8 after the job's refusals",
            replied(|reply, job, _, _| {
                if let (8, Err(refusal)) = (reply.number, accepted(job)) {
                    *reply = refused(refusal);
                }
            }),
        ),
        (
            "corners: 8 after 14",
            replied(|reply, job, hazard, _| {
                if let (8, Ok(job)) = (reply.number, accepted(job))
                    && let Err(refusal) = envelope::adjacent_approach(&job, hazard)
                {
                    *reply = refused(refusal);
                }
            }),
        ),
    ]
}

// The hazard asked for.

fn wrong_hazards() -> Vec<(&'static str, Calls)> {
    // Another index, of a job that is accepted.
    let index = |index: fn(&Job, u64) -> u64| {
        with_corners(move |job, hazard, station, offset| {
            let other = accepted(job).map_or(hazard, |job| index(&job, hazard));
            right_corners(job, other, station, offset)
        })
    };
    vec![
        (
            "corners: the index in one byte",
            index(|_, hazard| hazard & 0xFF),
        ),
        (
            "corners: the index in 32 bits",
            index(|_, hazard| hazard & 0xFFFF_FFFF),
        ),
        (
            "corners: hazards counted from 1",
            index(|_, hazard| hazard.wrapping_sub(1)),
        ),
        (
            "corners: the last hazard where there is no such",
            index(|job, hazard| hazard.min((job.hazards.len() as u64).saturating_sub(1))),
        ),
        (
            "corners: hazards of the right side counted alone",
            index(|job, hazard| nth(job, hazard, |hazard| hazard.side == 0)),
        ),
        (
            "corners: reached hazards counted alone",
            index(|job, hazard| nth(job, hazard, |hazard| hazard.near < job.clear_zone)),
        ),
    ]
}

/// The index of the hazard that is counted so among these alone.
pub fn nth(job: &Job, counted: u64, among: impl Fn(&Hazard) -> bool) -> u64 {
    let mut among = (0..).zip(&job.hazards).filter(|(_, hazard)| among(hazard));
    let found = among.nth(counted.min(1_000) as usize);
    found.map_or(u64::MAX, |(index, _)| index)
}

// Refusals.

fn wrong_refusals() -> Vec<(&'static str, Calls)> {
    let no_such = refused(Refusal::no_such_hazard());
    vec![
        (
            "corners: 14 before 5",
            replied(move |reply, bytes, hazard, _| {
                if let (5, Ok(job)) = (reply.number, job::read(bytes))
                    && envelope::adjacent_approach(&job, hazard).is_err()
                {
                    *reply = no_such;
                }
            }),
        ),
        (
            "corners: no such hazard before 5",
            replied(move |reply, bytes, hazard, _| {
                if let (5, Ok(job)) = (reply.number, job::read(bytes))
                    && hazard >= job.hazards.len() as u64
                {
                    *reply = no_such;
                }
            }),
        ),
        (
            "corners: 14 before 7",
            replied(move |reply, bytes, hazard, _| {
                if reply.number == 7
                    && let Ok(job) = job::read(&bytes[..reply.value as usize])
                    && envelope::adjacent_approach(&job, hazard).is_err()
                {
                    *reply = no_such;
                }
            }),
        ),
        (
            "corners: an index above 255 before the job",
            replied(move |reply, _, hazard, _| {
                if hazard > 255 && reply.number != 8 {
                    *reply = no_such;
                }
            }),
        ),
        (
            "corners: 5 of the asked hazard alone",
            replied(|reply, bytes, hazard, sheet| {
                if let (5, Ok(job)) = (reply.number, job::read(bytes)) {
                    *reply = corners_reply(of_hazard_alone(&job, hazard, sheet));
                }
            }),
        ),
        (
            "corners: bytes behind the job not looked at",
            with_corners(|job, hazard, station, offset| {
                let reply = right_corners(job, hazard, station, offset);
                match reply.number {
                    7 => right_corners(&job[..reply.value as usize], hazard, station, offset),
                    _ => reply,
                }
            }),
        ),
        (
            "corners: 6 still returned",
            replied(|reply, bytes, _, _| {
                if let (0, Ok(job)) = (reply.number, accepted(bytes))
                    && let Some(index) = first_off_road(&job)
                {
                    *reply = refused(Refusal {
                        number: 6,
                        value: index,
                    });
                }
            }),
        ),
        (
            "corners: 14 with the index",
            replied(|reply, _, hazard, _| {
                if reply.number == 14 {
                    reply.value = hazard;
                }
            }),
        ),
        (
            "corners: no such hazard refused 8",
            replied(|reply, bytes, hazard, _| {
                let job = job::read(bytes);
                if reply.number == 14 && job.is_ok_and(|job| hazard >= job.hazards.len() as u64) {
                    *reply = refused(Refusal::argument());
                }
            }),
        ),
        (
            "corners: a hazard that nobody reaches answered",
            replied(|reply, bytes, hazard, sheet| {
                if let (14, Some(corners)) = (reply.number, of_unreached(bytes, hazard, sheet)) {
                    *reply = corners_reply(Ok(corners));
                }
            }),
        ),
        (
            "corners: 14 where far traffic does not reach",
            replied(move |reply, bytes, hazard, _| {
                if let (0, Ok(job)) = (reply.number, accepted(bytes))
                    && let Some(hazard) = job.hazards.get(hazard as usize)
                    && job.runout_opposite > 0
                    && envelope::approaches(&job, hazard).len() == 1
                {
                    *reply = no_such;
                }
            }),
        ),
        (
            "corners: 14 where there is no flare",
            replied(move |reply, bytes, _, _| {
                if let (0, Ok(job)) = (reply.number, accepted(bytes))
                    && job.flare_across == 0
                {
                    *reply = no_such;
                }
            }),
        ),
        (
            "corners: left after 14",
            replied(|reply, bytes, hazard, sheet| {
                if let (14, Some(corners)) = (reply.number, of_unreached(bytes, hazard, sheet)) {
                    reply.corners = list(corners);
                }
            }),
        ),
        (
            "corners: left after 5",
            replied(|reply, bytes, hazard, sheet| {
                if let (5, Ok(job)) = (reply.number, job::read(bytes)) {
                    let corners = corners_reply(of_hazard_alone(&job, hazard, sheet)).corners;
                    reply.corners = corners;
                }
            }),
        ),
        (
            "corners: left after 8",
            replied(|reply, bytes, hazard, (station, offset)| {
                if let (8, Some(asked)) = (reply.number, Asked::of(bytes, hazard, station, offset))
                {
                    reply.corners = list(from_sheet(asked.points(), asked.sheet));
                }
            }),
        ),
        (
            "corners: the sheet corner subtracted after a refusal",
            replied(|reply, _, _, (station, offset)| {
                if reply.number != 0 {
                    let nothing = Point {
                        station: 0,
                        offset: 0,
                    };
                    reply.corners = list(from_sheet([nothing; 3], sheet_of(station, offset)));
                }
            }),
        ),
        (
            "corners: the index said",
            replied(|reply, _, hazard, _| {
                if reply.number == 0 {
                    reply.value = hazard;
                }
            }),
        ),
        (
            "corners: the job's bytes changed",
            Calls {
                corners: Box::new(|job, hazard, station, offset| {
                    let reply = right_corners(job, hazard, station, offset);
                    if let Some(last) = job.last_mut() {
                        *last ^= 1;
                    }
                    reply
                }),
                ..right()
            },
        ),
    ]
}

/// The corners of one hazard, whatever the others are.
fn of_hazard_alone(job: &Job, index: u64, sheet: (u64, u64)) -> Result<Corners, Refusal> {
    let (hazard, approach) = envelope::adjacent_approach(job, index)?;
    envelope::envelope(job, index as usize, &hazard)?;
    let points = points(job, &hazard, &approach);
    Ok(from_sheet(points, sheet_of(sheet.0, sheet.1)))
}

/// The corners of a hazard that nobody reaches, as if it stood nearer.
fn of_unreached(bytes: &[u8], index: u64, sheet: (u64, u64)) -> Option<Corners> {
    let mut job = accepted(bytes).ok()?;
    let hazard = job.hazards.get_mut(usize::try_from(index).ok()?)?;
    hazard.near = job.clear_zone - 1;
    let (hazard, approach) = envelope::adjacent_approach(&job, index).ok()?;
    let points = points(&job, &hazard, &approach);
    Some(from_sheet(points, sheet_of(sheet.0, sheet.1)))
}

/// The first hazard whose envelope leaves the road.
pub fn first_off_road(job: &Job) -> Option<u64> {
    let off_road = |hazard: &Hazard| {
        let envelope = envelope::envelope(job, 0, hazard);
        matches!(envelope, Ok(Some(envelope)) if envelope.overhang != Overhang::default())
    };
    let index = job.hazards.iter().position(off_road)?;
    Some(index as u64)
}
