//! The calls as C has them.

use crate::{HAZARDS_MAX, LENGTHS_MAX, RANGES_MAX, STATES};

#[repr(C)]
pub struct Reply {
    pub number: u64,
    pub value: u64,
}

#[repr(C)]
pub struct PlanReply {
    pub number: u64,
    pub value: u64,
    pub before: u64,
    pub after: u64,
}

/// A corner point, counted from the sheet corner: whole millimetres, exact.
#[repr(C)]
#[derive(Clone, Copy, Debug, PartialEq)]
pub struct Corner {
    pub station: f64,
    pub offset: f64,
}

#[repr(C)]
pub struct CornersReply {
    pub number: u64,
    pub value: u64,
    pub upstream: Corner,
    pub flare: Corner,
    pub hazard: Corner,
}

#[repr(C)]
pub struct OffsetReply {
    pub number: u64,
    pub value: u64,
    pub found: u64,
}

#[repr(C)]
pub struct ReachReply {
    pub number: u64,
    pub value: u64,
    pub side: u64,
    pub start: u64,
    pub end: u64,
    pub before: u64,
    pub after: u64,
    pub from: u64,
    pub to: u64,
}

#[repr(C)]
pub struct Record {
    pub number: u64,
    pub found: u64,
    pub start: u64,
    pub end: u64,
}

#[repr(C)]
pub struct QuantitiesReply {
    pub number: u64,
    pub value: u64,
    pub records: u64,
    pub quantities: [u64; RANGES_MAX],
}

#[repr(C)]
pub struct LayoutReply {
    pub number: u64,
    pub value: u64,
    pub found: u64,
    pub overrun: u64,
    pub counts: [u64; LENGTHS_MAX],
    pub tries: u64,
    pub floor: u64,
}

/// A hazard's six numbers, as a job has them and as `OpenJob::add` takes them.
#[repr(C)]
#[derive(Clone, Copy, Debug, PartialEq, Eq)]
pub struct Hazard {
    pub side: u64,
    pub start: u64,
    pub end: u64,
    pub near_offset: u64,
    pub far_offset: u64,
    pub level: u64,
}

/// The engine's own memory, as it is declared: a place of an open job.
#[repr(C)]
#[derive(Clone, Copy, PartialEq, Eq)]
pub struct Place {
    pub(crate) start: u64,
    pub(crate) end: u64,
    pub(crate) near_offset: u16,
    pub(crate) far_offset: u16,
    pub(crate) name: u16,
    pub(crate) side: u8,
    pub(crate) level: u8,
}

/// What is kept under one state number.
#[repr(C)]
#[derive(Clone, Copy, PartialEq, Eq)]
pub struct Kept {
    pub(crate) used: u64,
    pub(crate) count: u64,
    pub(crate) hazards: [Place; HAZARDS_MAX],
}

/// The whole of an open job.
#[repr(C)]
#[derive(Clone, Copy, PartialEq, Eq)]
pub struct OpenJob {
    pub(crate) kind: u64,
    pub(crate) begin: u64,
    pub(crate) end: u64,
    pub(crate) forward: u64,
    pub(crate) opposite: u64,
    pub(crate) zone: u64,
    pub(crate) way: u64,
    pub(crate) offset: u64,
    pub(crate) deflection: u64,
    pub(crate) along: u64,
    pub(crate) across: u64,
    pub(crate) straight: u64,
    pub(crate) continuity: u64,
    pub(crate) panel: u64,
    pub(crate) count: u64,
    pub(crate) hazards: [Place; HAZARDS_MAX],
    pub(crate) kept: [Kept; STATES],
}

// As barrier.h has it: the engine writes this many bytes.
const _: () = assert!(size_of::<OpenJob>() == 55_544);

const NO_HAZARDS: [Place; HAZARDS_MAX] = [Place {
    start: 0,
    end: 0,
    near_offset: 0,
    far_offset: 0,
    name: 0,
    side: 0,
    level: 0,
}; HAZARDS_MAX];

impl OpenJob {
    /// All 0: memory that was never opened.
    pub const UNOPENED: OpenJob = OpenJob {
        kind: 0,
        begin: 0,
        end: 0,
        forward: 0,
        opposite: 0,
        zone: 0,
        way: 0,
        offset: 0,
        deflection: 0,
        along: 0,
        across: 0,
        straight: 0,
        continuity: 0,
        panel: 0,
        count: 0,
        hazards: NO_HAZARDS,
        kept: [Kept {
            used: 0,
            count: 0,
            hazards: NO_HAZARDS,
        }; STATES],
    };
}

unsafe extern "C" {
    pub fn barrier_plan(
        job: *const u8,
        job_len: usize,
        side: u64,
        out: *mut u8,
        out_len: usize,
    ) -> PlanReply;

    pub fn barrier_level(job: *const u8, job_len: usize, side: u64, station: u64) -> Reply;

    pub fn barrier_corners(
        job: *const u8,
        job_len: usize,
        hazard: u64,
        sheet_station: u64,
        sheet_offset: u64,
    ) -> CornersReply;

    pub fn barrier_offset(job: *const u8, job_len: usize, hazard: u64, longest: u64)
        -> OffsetReply;

    pub fn barrier_reach(job: *const u8, job_len: usize, hazard: u64) -> ReachReply;

    pub fn barrier_quantity(
        schedule: *const u8,
        schedule_len: usize,
        level: u64,
        p: u64,
        q: u64,
    ) -> Reply;

    pub fn barrier_lookup(
        right: *const u8,
        right_len: usize,
        left: *const u8,
        left_len: usize,
        side: u64,
        station: u64,
    ) -> Record;

    pub fn barrier_quantities(
        schedule: *const u8,
        schedule_len: usize,
        level: u64,
        ranges: *const u64,
        ranges_len: usize,
    ) -> QuantitiesReply;

    pub fn barrier_layout(
        lengths: *const u64,
        lengths_len: usize,
        run: u64,
        limit: u64,
    ) -> LayoutReply;

    pub fn barrier_open(job: *mut OpenJob, bytes: *const u8, bytes_len: usize) -> Reply;

    pub fn barrier_add(job: *mut OpenJob, name: u16, hazard: Hazard) -> Reply;

    pub fn barrier_withdraw(job: *mut OpenJob, name: u16) -> Reply;

    pub fn barrier_open_schedule(
        job: *const OpenJob,
        side: u64,
        out: *mut u8,
        out_len: usize,
    ) -> PlanReply;

    pub fn barrier_open_reach(job: *const OpenJob, name: u16) -> ReachReply;

    pub fn barrier_keep(job: *mut OpenJob, state: u64) -> Reply;

    pub fn barrier_return(job: *mut OpenJob, state: u64) -> Reply;

    pub fn barrier_version() -> u32;
}
