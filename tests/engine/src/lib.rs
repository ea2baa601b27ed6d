//! The engine's calls for the tests: through the pointers of the C interface,
//! and through the crate that is shipped for Rust.

use std::mem::{offset_of, size_of};
use std::ops::Range;

use barrier_engine::{self as barrier, Refusal, c};
use cases::{
    Calls, Contract, CornersReply, LayoutReply, Memory, OffsetReply, PlanReply, ReachReply, Record,
    Reply,
};
use reference::Corner;
use reference::job::Hazard;
use reference::memory::BYTES;
use reference::open::Name;

// Declared as the header has them, beside the shipped crate, of which only the
// open job's memory is taken.

#[repr(C)]
struct CReply {
    number: u64,
    value: u64,
}

#[repr(C)]
struct CPlanReply {
    number: u64,
    value: u64,
    before: u64,
    after: u64,
}

#[repr(C)]
struct CCorner {
    station: f64,
    offset: f64,
}

#[repr(C)]
struct CCornersReply {
    number: u64,
    value: u64,
    upstream: CCorner,
    flare: CCorner,
    hazard: CCorner,
}

#[repr(C)]
struct COffsetReply {
    number: u64,
    value: u64,
    found: u64,
}

#[repr(C)]
struct CReachReply {
    number: u64,
    value: u64,
    side: u64,
    start: u64,
    end: u64,
    before: u64,
    after: u64,
    from: u64,
    to: u64,
}

#[repr(C)]
struct CLayoutReply {
    number: u64,
    value: u64,
    found: u64,
    overrun: u64,
    counts: [u64; 4],
    tries: u64,
    floor: u64,
}

#[repr(C)]
struct CRecord {
    number: u64,
    found: u64,
    start: u64,
    end: u64,
}

#[repr(C)]
struct CQuantitiesReply {
    number: u64,
    value: u64,
    records: u64,
    quantities: [u64; 64],
}

#[repr(C)]
struct CHazard {
    side: u64,
    start: u64,
    end: u64,
    near_offset: u64,
    far_offset: u64,
    level: u64,
}

unsafe extern "C" {
    fn barrier_plan(
        job: *const u8,
        job_len: usize,
        side: u64,
        out: *mut u8,
        out_len: usize,
    ) -> CPlanReply;
    fn barrier_open_schedule(
        job: *const c::OpenJob,
        side: u64,
        out: *mut u8,
        out_len: usize,
    ) -> CPlanReply;
    fn barrier_level(job: *const u8, job_len: usize, side: u64, station: u64) -> CReply;
    fn barrier_corners(
        job: *const u8,
        job_len: usize,
        hazard: u64,
        sheet_station: u64,
        sheet_offset: u64,
    ) -> CCornersReply;
    fn barrier_offset(job: *const u8, job_len: usize, hazard: u64, longest: u64) -> COffsetReply;
    fn barrier_reach(job: *const u8, job_len: usize, hazard: u64) -> CReachReply;
    fn barrier_open_reach(job: *const c::OpenJob, name: Name) -> CReachReply;
    fn barrier_layout(
        lengths: *const u64,
        lengths_len: usize,
        run: u64,
        limit: u64,
    ) -> CLayoutReply;
    fn barrier_quantity(
        schedule: *const u8,
        schedule_len: usize,
        level: u64,
        p: u64,
        q: u64,
    ) -> CReply;
    fn barrier_quantities(
        schedule: *const u8,
        schedule_len: usize,
        level: u64,
        ranges: *const u64,
        ranges_len: usize,
    ) -> CQuantitiesReply;
    fn barrier_lookup(
        right: *const u8,
        right_len: usize,
        left: *const u8,
        left_len: usize,
        side: u64,
        station: u64,
    ) -> CRecord;
    fn barrier_open(job: *mut c::OpenJob, bytes: *const u8, bytes_len: usize) -> CReply;
    fn barrier_add(job: *mut c::OpenJob, name: Name, hazard: CHazard) -> CReply;
    fn barrier_withdraw(job: *mut c::OpenJob, name: Name) -> CReply;
    fn barrier_keep(job: *mut c::OpenJob, state: u64) -> CReply;
    fn barrier_return(job: *mut c::OpenJob, state: u64) -> CReply;
}

impl From<CReply> for Reply {
    fn from(reply: CReply) -> Reply {
        let CReply { number, value } = reply;
        Reply { number, value }
    }
}

impl From<CPlanReply> for PlanReply {
    fn from(reply: CPlanReply) -> PlanReply {
        PlanReply {
            number: reply.number,
            value: reply.value,
            before: reply.before,
            after: reply.after,
        }
    }
}

impl From<CCornersReply> for CornersReply {
    fn from(reply: CCornersReply) -> CornersReply {
        let corners = [reply.upstream, reply.flare, reply.hazard];
        CornersReply {
            number: reply.number,
            value: reply.value,
            corners: corners.map(|CCorner { station, offset }| Corner { station, offset }),
        }
    }
}

impl From<COffsetReply> for OffsetReply {
    fn from(reply: COffsetReply) -> OffsetReply {
        OffsetReply {
            number: reply.number,
            value: reply.value,
            found: reply.found,
        }
    }
}

impl From<CReachReply> for ReachReply {
    fn from(reply: CReachReply) -> ReachReply {
        ReachReply {
            number: reply.number,
            value: reply.value,
            side: reply.side,
            start: reply.start,
            end: reply.end,
            before: reply.before,
            after: reply.after,
            from: reply.from,
            to: reply.to,
        }
    }
}

impl From<CLayoutReply> for LayoutReply {
    fn from(reply: CLayoutReply) -> LayoutReply {
        LayoutReply {
            number: reply.number,
            value: reply.value,
            found: reply.found,
            overrun: reply.overrun,
            counts: reply.counts,
            tries: reply.tries,
            floor: reply.floor,
        }
    }
}

impl From<CRecord> for Record {
    fn from(record: CRecord) -> Record {
        Record {
            number: record.number,
            found: record.found,
            start: record.start,
            end: record.end,
        }
    }
}

impl From<CQuantitiesReply> for Contract {
    fn from(reply: CQuantitiesReply) -> Contract {
        Contract {
            number: reply.number,
            value: reply.value,
            records: reply.records,
            quantities: reply.quantities,
        }
    }
}

impl From<Hazard> for CHazard {
    fn from(hazard: Hazard) -> CHazard {
        CHazard {
            side: hazard.side,
            start: hazard.start,
            end: hazard.end,
            near_offset: hazard.near,
            far_offset: hazard.far,
            level: hazard.level,
        }
    }
}

/// The open job inside its guard bytes. It is compared byte by byte, so its size
/// is known.
fn open_job(memory: &mut Memory) -> *mut c::OpenJob {
    assert_eq!(size_of::<c::OpenJob>(), BYTES, "bytes of an open job");
    let memory: *mut Memory = memory;
    let job = memory.wrapping_byte_add(offset_of!(Memory, job));
    let job = job.cast::<c::OpenJob>();
    assert!(job.is_aligned());
    job
}

pub fn open(memory: &mut Memory, bytes: &[u8]) -> Reply {
    // SAFETY: the open job lies in the memory, which only this call holds and
    // which may have any content; the other pointer is good for as many bytes
    // as are named with it.
    unsafe { barrier_open(open_job(memory), bytes.as_ptr(), bytes.len()).into() }
}

pub fn add(memory: &mut Memory, name: Name, hazard: Hazard) -> Reply {
    // SAFETY: as in `open`.
    unsafe { barrier_add(open_job(memory), name, hazard.into()).into() }
}

pub fn withdraw(memory: &mut Memory, name: Name) -> Reply {
    // SAFETY: as in `open`.
    unsafe { barrier_withdraw(open_job(memory), name).into() }
}

pub fn keep(memory: &mut Memory, state: u64) -> Reply {
    // SAFETY: as in `open`.
    unsafe { barrier_keep(open_job(memory), state).into() }
}

pub fn return_to(memory: &mut Memory, state: u64) -> Reply {
    // SAFETY: as in `open`.
    unsafe { barrier_return(open_job(memory), state).into() }
}

pub fn open_schedule(memory: &mut Memory, side: u64, out: &mut [u8]) -> PlanReply {
    let job = open_job(memory);
    // SAFETY: as in `open`, and `out` is lent to this call only.
    unsafe { barrier_open_schedule(job, side, out.as_mut_ptr(), out.len()).into() }
}

pub fn plan(job: &[u8], side: u64, out: &mut [u8]) -> PlanReply {
    // SAFETY: both pointers are good for as many bytes as are named with them,
    // and `out` is lent to this call only.
    unsafe { barrier_plan(job.as_ptr(), job.len(), side, out.as_mut_ptr(), out.len()).into() }
}

pub fn level(job: &[u8], side: u64, station: u64) -> Reply {
    // SAFETY: the pointer is good for as many bytes as are named with it.
    unsafe { barrier_level(job.as_ptr(), job.len(), side, station).into() }
}

pub fn corners(job: &[u8], hazard: u64, sheet_station: u64, sheet_offset: u64) -> CornersReply {
    let (job, job_len) = (job.as_ptr(), job.len());
    // SAFETY: the pointer is good for as many bytes as are named with it.
    unsafe { barrier_corners(job, job_len, hazard, sheet_station, sheet_offset).into() }
}

pub fn offset(job: &[u8], hazard: u64, longest: u64) -> OffsetReply {
    // SAFETY: the pointer is good for as many bytes as are named with it.
    unsafe { barrier_offset(job.as_ptr(), job.len(), hazard, longest).into() }
}

pub fn reach(job: &[u8], hazard: u64) -> ReachReply {
    // SAFETY: the pointer is good for as many bytes as are named with it.
    unsafe { barrier_reach(job.as_ptr(), job.len(), hazard).into() }
}

pub fn open_reach(memory: &mut Memory, name: Name) -> ReachReply {
    // SAFETY: as in `open`.
    unsafe { barrier_open_reach(open_job(memory), name).into() }
}

pub fn layout(lengths: &[u64], run: u64, limit: u64) -> LayoutReply {
    // SAFETY: the pointer is good for as many numbers as are named with it.
    unsafe { barrier_layout(lengths.as_ptr(), lengths.len(), run, limit).into() }
}

pub fn quantity(schedule: &[u8], level: u64, p: u64, q: u64) -> Reply {
    // SAFETY: the pointer is good for as many bytes as are named with it.
    unsafe { barrier_quantity(schedule.as_ptr(), schedule.len(), level, p, q).into() }
}

/// The ranges are p, q, p, q and so on.
pub fn quantities(schedule: &[u8], level: u64, ranges: &[u64]) -> Contract {
    let (schedule_len, ranges_len) = (schedule.len(), ranges.len());
    let (schedule, ranges) = (schedule.as_ptr(), ranges.as_ptr());
    // SAFETY: both pointers are good for as many bytes and numbers as are named
    // with them.
    unsafe { barrier_quantities(schedule, schedule_len, level, ranges, ranges_len).into() }
}

pub fn lookup(right: &[u8], left: &[u8], side: u64, station: u64) -> Record {
    // SAFETY: both pointers are good for as many bytes as are named with them.
    unsafe {
        barrier_lookup(
            right.as_ptr(),
            right.len(),
            left.as_ptr(),
            left.len(),
            side,
            station,
        )
        .into()
    }
}

/// The engine's calls, to be compared. The pointers are those of the whole
/// room and of inputs that could be changed, so that a write where none may be
/// lands in memory of the test, which then finds it.
pub fn calls() -> Calls {
    Calls {
        plan: Box::new(plan_in_room),
        level: Box::new(|job, side, station| {
            let job_len = job.len();
            // SAFETY: as in `level`.
            unsafe { barrier_level(job.as_mut_ptr(), job_len, side, station).into() }
        }),
        corners: Box::new(|job, hazard, sheet_station, sheet_offset| {
            let (job, job_len) = (job.as_mut_ptr(), job.len());
            // SAFETY: as in `corners`.
            unsafe { barrier_corners(job, job_len, hazard, sheet_station, sheet_offset).into() }
        }),
        offset: Box::new(|job, hazard, longest| {
            let job_len = job.len();
            // SAFETY: as in `offset`.
            unsafe { barrier_offset(job.as_mut_ptr(), job_len, hazard, longest).into() }
        }),
        reach: Box::new(|job, hazard| {
            let job_len = job.len();
            // SAFETY: as in `reach`.
            unsafe { barrier_reach(job.as_mut_ptr(), job_len, hazard).into() }
        }),
        layout: Box::new(|lengths, run, limit| {
            let lengths_len = lengths.len();
            // SAFETY: as in `layout`.
            unsafe { barrier_layout(lengths.as_mut_ptr(), lengths_len, run, limit).into() }
        }),
        quantity: Box::new(|schedule, level, p, q| {
            let schedule_len = schedule.len();
            // SAFETY: as in `quantity`.
            unsafe { barrier_quantity(schedule.as_mut_ptr(), schedule_len, level, p, q).into() }
        }),
        quantities: Box::new(|schedule, level, ranges| {
            let (schedule_len, ranges_len) = (schedule.len(), ranges.len());
            let (schedule, ranges) = (schedule.as_mut_ptr(), ranges.as_mut_ptr());
            // SAFETY: as in `quantities`.
            unsafe { barrier_quantities(schedule, schedule_len, level, ranges, ranges_len).into() }
        }),
        lookup: Box::new(|right, left, side, station| {
            let (right_len, left_len) = (right.len(), left.len());
            let (right, left) = (right.as_mut_ptr(), left.as_mut_ptr());
            // SAFETY: as in `lookup`.
            unsafe { barrier_lookup(right, right_len, left, left_len, side, station).into() }
        }),
        open: Box::new(|memory, bytes| {
            let bytes_len = bytes.len();
            // SAFETY: as in `open`.
            unsafe { barrier_open(open_job(memory), bytes.as_mut_ptr(), bytes_len).into() }
        }),
        add: Box::new(add),
        withdraw: Box::new(withdraw),
        keep: Box::new(keep),
        return_to: Box::new(return_to),
        open_schedule: Box::new(|memory, side, room, lent| {
            assert!(lent.start <= lent.end && lent.end <= room.len());
            let job = open_job(memory);
            // SAFETY: as in `open`; the lent part lies in the room, which only
            // this call holds.
            unsafe {
                let out = room.as_mut_ptr().add(lent.start);
                barrier_open_schedule(job, side, out, lent.len()).into()
            }
        }),
        open_reach: Box::new(open_reach),
    }
}

fn plan_in_room(job: &mut [u8], side: u64, room: &mut [u8], lent: Range<usize>) -> PlanReply {
    assert!(lent.start <= lent.end && lent.end <= room.len());
    let job_len = job.len();
    // SAFETY: the lent part lies in the room, which only this call holds.
    unsafe {
        let out = room.as_mut_ptr().add(lent.start);
        barrier_plan(job.as_mut_ptr(), job_len, side, out, lent.len()).into()
    }
}

/// The shipped calls for Rust, to be compared.
pub fn shipped_calls() -> Calls {
    Calls {
        plan: Box::new(|job, side, room, lent| planned(barrier::plan(job, side, &mut room[lent]))),
        quantity: Box::new(|schedule, level, p, q| reply(barrier::quantity(schedule, level, p, q))),
        quantities: Box::new(|schedule, level, ranges| shipped_quantities(schedule, level, ranges)),
        lookup: Box::new(|right, left, side, station| {
            record(barrier::lookup(right, left, side, station))
        }),
        level: Box::new(|job, side, station| reply(barrier::level(job, side, station))),
        corners: Box::new(|job, hazard, station, offset| {
            corners_of(barrier::corners(job, hazard, station, offset))
        }),
        offset: Box::new(|job, hazard, longest| {
            offset_of_hazard(barrier::offset(job, hazard, longest))
        }),
        reach: Box::new(|job, hazard| reached(barrier::reach(job, hazard))),
        open_reach: Box::new(|memory, name| reached(shipped_job(memory).reach(name))),
        layout: Box::new(|lengths, run, limit| laid(barrier::layout(lengths, run, limit))),
        open: Box::new(|memory, bytes| done(shipped_job(memory).open(bytes))),
        add: Box::new(|memory, name, hazard| {
            done(shipped_job(memory).add(name, shipped_hazard(hazard)))
        }),
        withdraw: Box::new(|memory, name| done(shipped_job(memory).withdraw(name))),
        keep: Box::new(|memory, state| done(shipped_job(memory).keep(state))),
        return_to: Box::new(|memory, state| done(shipped_job(memory).return_to(state))),
        open_schedule: Box::new(|memory, side, room, lent| {
            planned(shipped_job(memory).schedule(side, &mut room[lent]))
        }),
    }
}

/// The shipped open job in this memory, of which it is all.
fn shipped_job(memory: &mut Memory) -> &mut barrier::OpenJob {
    let job = open_job(memory).cast::<barrier::OpenJob>();
    // SAFETY: the open job lies in the memory, aligned, which only this
    // reference holds; it has integers only, so that any content is one.
    unsafe { &mut *job }
}

fn shipped_hazard(hazard: Hazard) -> barrier::Hazard {
    barrier::Hazard {
        side: hazard.side,
        start: hazard.start,
        end: hazard.end,
        near_offset: hazard.near,
        far_offset: hazard.far,
        level: hazard.level,
    }
}

fn planned(answer: Result<barrier::Planned, Refusal>) -> PlanReply {
    match answer {
        Ok(planned) => PlanReply {
            number: 0,
            value: planned.written as u64,
            before: planned.before,
            after: planned.after,
        },
        Err(refusal) => reply(Err(refusal)).into(),
    }
}

fn reached(answer: Result<barrier::Reach, Refusal>) -> ReachReply {
    match answer {
        Ok(reach) => ReachReply {
            number: 0,
            value: 0,
            side: reach.side,
            start: reach.envelope.start,
            end: reach.envelope.end,
            before: reach.before,
            after: reach.after,
            from: reach.stretch.start,
            to: reach.stretch.end,
        },
        Err(refusal) => {
            let Reply { number, value } = reply(Err(refusal));
            ReachReply {
                number,
                value,
                ..ReachReply::default()
            }
        }
    }
}

fn done(answer: Result<(), Refusal>) -> Reply {
    reply(answer.map(|()| 0))
}

fn laid(answer: Result<barrier::Layout, Refusal>) -> LayoutReply {
    let nothing = LayoutReply {
        number: 0,
        value: 0,
        found: 0,
        overrun: 0,
        counts: [0; 4],
        tries: 0,
        floor: 0,
    };
    match answer {
        Ok(layout) => LayoutReply {
            found: u64::from(layout.covering.is_some()),
            overrun: layout.covering.map_or(0, |covering| covering.overrun),
            counts: layout.covering.map_or([0; 4], |covering| covering.counts),
            tries: layout.tries,
            floor: layout.floor,
            ..nothing
        },
        Err(Refusal { number, value, .. }) => LayoutReply {
            number,
            value,
            ..nothing
        },
    }
}

/// The shipped call takes pairs; a number without its partner is none, and is
/// asked through the pointers.
fn shipped_quantities(schedule: &[u8], level: u64, ranges: &[u64]) -> Contract {
    if ranges.len() % 2 == 1 {
        return quantities(schedule, level, ranges);
    }
    let pairs = ranges.chunks_exact(2).map(|range| (range[0], range[1]));
    let pairs: Vec<(u64, u64)> = pairs.collect();
    contract(barrier::quantities(schedule, level, &pairs), pairs.len())
}

/// As many quantities are wanted as there are ranges.
fn contract(answer: Result<barrier::Quantities, Refusal>, ranges: usize) -> Contract {
    let mut contract = Contract {
        number: 0,
        value: 0,
        records: 0,
        quantities: [0; 64],
    };
    match answer {
        Ok(answer) => {
            assert_eq!(answer.quantities.len(), ranges, "quantities and ranges");
            contract.records = answer.records;
            contract.quantities[..ranges].copy_from_slice(&answer.quantities);
        }
        Err(Refusal { number, value, .. }) => {
            contract.number = number;
            contract.value = value;
        }
    }
    contract
}

fn reply(answer: Result<u64, Refusal>) -> Reply {
    match answer {
        Ok(value) => Reply { number: 0, value },
        Err(Refusal { number, value, .. }) => Reply { number, value },
    }
}

fn corners_of(answer: Result<barrier::Corners, Refusal>) -> CornersReply {
    let zero = Corner {
        station: 0.0,
        offset: 0.0,
    };
    match answer {
        Ok(drawn) => CornersReply {
            number: 0,
            value: 0,
            corners: [drawn.upstream, drawn.flare, drawn.hazard]
                .map(|barrier::Corner { station, offset }| Corner { station, offset }),
        },
        Err(Refusal { number, value, .. }) => CornersReply {
            number,
            value,
            corners: [zero; 3],
        },
    }
}

fn offset_of_hazard(answer: Result<Option<u64>, Refusal>) -> OffsetReply {
    let (number, value, found) = match answer {
        Ok(Some(value)) => (0, value, 1),
        Ok(None) => (0, 0, 0),
        Err(Refusal { number, value, .. }) => (number, value, 0),
    };
    OffsetReply {
        number,
        value,
        found,
    }
}

fn record(answer: Result<Option<Range<usize>>, Refusal>) -> Record {
    let (number, found, bytes) = match answer {
        Ok(Some(bytes)) => (0, 1, bytes),
        Ok(None) => (0, 0, 0..0),
        Err(refusal) => (refusal.number, 0, 0..0),
    };
    Record {
        number,
        found,
        start: bytes.start as u64,
        end: bytes.end as u64,
    }
}
