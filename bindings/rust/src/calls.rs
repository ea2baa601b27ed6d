//! The calls that take a job or a schedule, safe to use.

use std::ops::Range;

use crate::{c, Call, Corner, Refusal, Side, LENGTHS_MAX, SCHEDULE_MAX};

/// A schedule that is written: its bytes, and how far the approaches of its
/// side run into the neighbouring contracts, in millimetres before the road and
/// after it. Nothing of that is in the schedule, so tell that office.
#[derive(Clone, Copy, Debug, PartialEq, Eq)]
pub struct Planned {
    pub written: usize,
    pub before: u64,
    pub after: u64,
}

/// Writes the schedule of one side to the start of `out`; the bytes written,
/// and the greatest overhang at each end of the road. `SCHEDULE_MAX` bytes are
/// always enough.
pub fn plan(job: &[u8], side: Side, out: &mut [u8]) -> Result<Planned, Refusal> {
    // SAFETY: both pointers are good for as many bytes as are named with them,
    // and `out` is lent to this call only.
    let reply =
        unsafe { c::barrier_plan(job.as_ptr(), job.len(), side, out.as_mut_ptr(), out.len()) };
    Call::Plan { side }.planned(reply)
}

/// The schedule of one side in bytes of its own, and the greatest overhang at
/// each end of the road, in millimetres.
#[derive(Clone, Debug, PartialEq, Eq)]
pub struct PlannedSide {
    pub schedule: Vec<u8>,
    pub before: u64,
    pub after: u64,
}

impl PlannedSide {
    /// What `write` plans into an output that is always long enough.
    pub(crate) fn written(
        write: impl FnOnce(&mut [u8]) -> Result<Planned, Refusal>,
    ) -> Result<PlannedSide, Refusal> {
        let mut schedule = vec![0; SCHEDULE_MAX];
        let planned = write(&mut schedule)?;
        schedule.truncate(planned.written);
        Ok(PlannedSide {
            schedule,
            before: planned.before,
            after: planned.after,
        })
    }
}

/// As `plan`, into bytes of its own.
pub fn plan_side(job: &[u8], side: Side) -> Result<PlannedSide, Refusal> {
    PlannedSide::written(|out| plan(job, side, out))
}

/// The level that one side of a job requires at a station; 0 where none is, and
/// outside the road.
pub fn level(job: &[u8], side: Side, station: u64) -> Result<u64, Refusal> {
    // SAFETY: the pointer is good for as many bytes as are named with it.
    let reply = unsafe { c::barrier_level(job.as_ptr(), job.len(), side, station) };
    Call::Level { side }.answer(reply)
}

/// The corner points of an approach. Where the flare is not entered, its corner
/// is the upstream end again.
#[derive(Clone, Copy, Debug, PartialEq)]
pub struct Corners {
    pub upstream: Corner,
    pub flare: Corner,
    pub hazard: Corner,
}

/// The corners of the adjacent traffic's approach to a hazard, by its index in
/// the job, counted from a sheet corner.
pub fn corners(
    job: &[u8],
    hazard: u64,
    sheet_station: u64,
    sheet_offset: u64,
) -> Result<Corners, Refusal> {
    // SAFETY: the pointer is good for as many bytes as are named with it.
    let reply =
        unsafe { c::barrier_corners(job.as_ptr(), job.len(), hazard, sheet_station, sheet_offset) };
    let corners = Corners {
        upstream: reply.upstream,
        flare: reply.flare,
        hazard: reply.hazard,
    };
    Call::Corners { hazard }.done(reply.number, reply.value, corners)
}

/// The smallest barrier offset with which the adjacent traffic's approach to a
/// hazard, by its index in the job, is no longer than that; `None` where there
/// is no such offset.
pub fn offset(job: &[u8], hazard: u64, longest: u64) -> Result<Option<u64>, Refusal> {
    // SAFETY: the pointer is good for as many bytes as are named with it.
    let reply = unsafe { c::barrier_offset(job.as_ptr(), job.len(), hazard, longest) };
    let found = (reply.found != 0).then_some(reply.value);
    Call::Offset { hazard }.done(reply.number, reply.value, found)
}

/// What traffic makes of a hazard: its envelope, cut at the ends of the road, its
/// own overhangs, and the stretch outside of which its withdrawal alters no level
/// of its side. All three are empty or 0 where nobody reaches it.
#[derive(Clone, Debug, PartialEq, Eq)]
pub struct Reach {
    pub side: Side,
    pub envelope: Range<u64>,
    pub before: u64,
    pub after: u64,
    pub stretch: Range<u64>,
}

impl Reach {
    /// Whether any traffic reaches the hazard; if none does, nothing alters
    /// without it.
    pub fn is_reached(&self) -> bool {
        !self.envelope.is_empty()
    }
}

/// The envelope of a hazard, by its index in the job, and how far its withdrawal
/// reaches.
pub fn reach(job: &[u8], hazard: u64) -> Result<Reach, Refusal> {
    // SAFETY: the pointer is good for as many bytes as are named with it.
    let reply = unsafe { c::barrier_reach(job.as_ptr(), job.len(), hazard) };
    Call::Reach { hazard }.reach(reply)
}

/// How many millimetres of [p, q) have exactly that level.
pub fn quantity(schedule: &[u8], level: u64, p: u64, q: u64) -> Result<u64, Refusal> {
    // SAFETY: the pointer is good for as many bytes as are named with it.
    let reply = unsafe { c::barrier_quantity(schedule.as_ptr(), schedule.len(), level, p, q) };
    Call::Quantity.answer(reply)
}

/// The bytes, in the schedule of the side asked for, of the record of the run
/// that has the station; `None` where no run has it. The other side's schedule
/// is not read and may be empty.
pub fn lookup(
    right: &[u8],
    left: &[u8],
    side: Side,
    station: u64,
) -> Result<Option<Range<usize>>, Refusal> {
    // SAFETY: both pointers are good for as many bytes as are named with them.
    let record = unsafe {
        c::barrier_lookup(
            right.as_ptr(),
            right.len(),
            left.as_ptr(),
            left.len(),
            side,
            station,
        )
    };
    let bytes = record.start as usize..record.end as usize;
    let found = (record.found != 0).then_some(bytes);
    Call::Lookup { side }.done(record.number, 0, found)
}

/// The quantities of the ranges, in their order, and the records read.
#[derive(Clone, Debug, PartialEq, Eq)]
pub struct Quantities {
    pub records: u64,
    pub quantities: Vec<u64>,
}

/// How many millimetres of each range [p, q) have exactly that level, for up to
/// `RANGES_MAX` of them.
pub fn quantities(
    schedule: &[u8],
    level: u64,
    ranges: &[(u64, u64)],
) -> Result<Quantities, Refusal> {
    let numbers: Vec<u64> = ranges.iter().flat_map(|&(p, q)| [p, q]).collect();
    // SAFETY: both pointers are good for as many bytes and numbers as are named
    // with them.
    let reply = unsafe {
        c::barrier_quantities(
            schedule.as_ptr(),
            schedule.len(),
            level,
            numbers.as_ptr(),
            numbers.len(),
        )
    };
    let quantities = Quantities {
        records: reply.records,
        quantities: reply.quantities.into_iter().take(ranges.len()).collect(),
    };
    Call::Quantities.done(reply.number, reply.value, quantities)
}

/// The smallest overrun among the layouts tried, and the first layout that has
/// it: a count for each length in their order, and 0 after them.
#[derive(Clone, Copy, Debug, PartialEq, Eq)]
pub struct Covering {
    pub overrun: u64,
    pub counts: [u64; LENGTHS_MAX],
}

/// What the tries gave: a covering layout, or `None` where no layout that was
/// tried covers the run; the tries made; and the floor, by less than which no
/// covering layout overruns, tried or not.
#[derive(Clone, Copy, Debug, PartialEq, Eq)]
pub struct Layout {
    pub covering: Option<Covering>,
    pub tries: u64,
    pub floor: u64,
}

/// Lays a run of that length from panels of one to four lengths, by at most
/// `limit` tries; `TRIES_MAX` tries every layout.
pub fn layout(lengths: &[u64], run: u64, limit: u64) -> Result<Layout, Refusal> {
    // SAFETY: the pointer is good for as many numbers as are named with it.
    let reply = unsafe { c::barrier_layout(lengths.as_ptr(), lengths.len(), run, limit) };
    let covering = Covering {
        overrun: reply.overrun,
        counts: reply.counts,
    };
    let layout = Layout {
        covering: (reply.found != 0).then_some(covering),
        tries: reply.tries,
        floor: reply.floor,
    };
    Call::Layout.done(reply.number, reply.value, layout)
}
