//! The calls that are compared.

use std::ops::Range;

use reference::calls::MOST_RANGES;
use reference::job::Hazard;
use reference::layout::MOST_LENGTHS;
use reference::memory;
use reference::open::Name;
use reference::{Corner, Corners, Lookup, Outcome, Planned, Quantities, Reached, Refusal, Tried};

/// The reply of level, quantity and the calls that change an open job: number 0
/// with the level, the millimetres or 0, else the paper's refusal number with its
/// value.
#[derive(Clone, Copy, Debug, PartialEq, Eq)]
pub struct Reply {
    pub number: u64,
    pub value: u64,
}

/// The reply of plan and of an open job's schedule: number 0 with the bytes
/// written and the overhangs before A and behind B, else the refusal number with
/// its value, and no overhangs.
#[derive(Clone, Copy, Debug, PartialEq, Eq)]
pub struct PlanReply {
    pub number: u64,
    pub value: u64,
    pub before: u64,
    pub after: u64,
}

impl PlanReply {
    /// What every reply has.
    pub fn reply(self) -> Reply {
        let PlanReply { number, value, .. } = self;
        Reply { number, value }
    }
}

impl From<Reply> for PlanReply {
    fn from(Reply { number, value }: Reply) -> PlanReply {
        PlanReply {
            number,
            value,
            before: 0,
            after: 0,
        }
    }
}

/// The reply of lookup: number 0, 8 or 10; found 0 or 1; the record's bytes
/// [start, end) in the schedule of the asked side, 0 and 0 where there is none.
#[derive(Clone, Copy, Debug, PartialEq, Eq)]
pub struct Record {
    pub number: u64,
    pub found: u64,
    pub start: u64,
    pub end: u64,
}

/// The reply of quantities: number 0 with the records read and a quantity for
/// each range, 0 in the places behind them; else the refusal number with its
/// value, and all the rest 0.
#[derive(Clone, Copy, Debug, PartialEq, Eq)]
pub struct Contract {
    pub number: u64,
    pub value: u64,
    pub records: u64,
    pub quantities: [u64; MOST_RANGES],
}

/// The reply of corners: number 0 with the upstream end, the flare's beginning and
/// the hazard's end; else the refusal number with its value, and every float 0.0.
#[derive(Clone, Copy, Debug)]
pub struct CornersReply {
    pub number: u64,
    pub value: u64,
    pub corners: [Corner; 3],
}

/// Floats are equal where all their bits are: -0.0 is not 0.0.
impl PartialEq for CornersReply {
    fn eq(&self, other: &CornersReply) -> bool {
        let bits = |corner: Corner| [corner.station.to_bits(), corner.offset.to_bits()];
        let corners = |reply: &CornersReply| reply.corners.map(bits);
        (self.number, self.value, corners(self)) == (other.number, other.value, corners(other))
    }
}

/// The reply of offset: number 0 with found 1 and M, or found 0 and 0; else the
/// refusal number with its value and found 0.
#[derive(Clone, Copy, Debug, PartialEq, Eq)]
pub struct OffsetReply {
    pub number: u64,
    pub value: u64,
    pub found: u64,
}

/// The reply of layout: number 0 with found 1, the overrun and a count of each
/// length, 0 in the places behind them, or found 0 and no overrun and no count;
/// either with the tries and the floor. Else the refusal number with its value,
/// and all the rest 0.
#[derive(Clone, Copy, Debug, Default, PartialEq, Eq)]
pub struct LayoutReply {
    pub number: u64,
    pub value: u64,
    pub found: u64,
    pub overrun: u64,
    pub counts: [u64; MOST_LENGTHS],
    pub tries: u64,
    pub floor: u64,
}

/// The reply of reach, of a job and of an open job: number 0 with the hazard's
/// side, its envelope [start, end), its overhangs and the stretch [from, to)
/// outside which its withdrawal alters nothing, all but the side 0 where nobody
/// reaches it. Else the refusal number with its value, and all the rest 0.
#[derive(Clone, Copy, Debug, Default, PartialEq, Eq)]
pub struct ReachReply {
    pub number: u64,
    pub value: u64,
    pub side: u64,
    pub start: u64,
    pub end: u64,
    pub before: u64,
    pub after: u64,
    pub from: u64,
    pub to: u64,
}

/// Guard bytes on each side of lent memory.
pub const GUARD: usize = 24;

/// The memory of an open job between guard bytes, aligned as C may ask for.
#[derive(Clone, Debug, PartialEq, Eq)]
#[repr(C, align(8))]
pub struct Memory {
    pub before: [u8; GUARD],
    pub job: [u8; memory::BYTES],
    pub after: [u8; GUARD],
}

impl Memory {
    pub fn new(job: &[u8; memory::BYTES]) -> Memory {
        Memory {
            before: [0xB5; GUARD],
            job: *job,
            after: [0xA5; GUARD],
        }
    }
}

/// Job, side, a room of bytes, and the part of the room that is lent as
/// output; the rest of the room are guard bytes.
pub type PlanCall = dyn Fn(&mut [u8], u64, &mut [u8], Range<usize>) -> PlanReply;

/// Job, side, station.
pub type LevelCall = dyn Fn(&mut [u8], u64, u64) -> Reply;

/// Job, hazard index, the sheet corner's station and offset.
pub type CornersCall = dyn Fn(&mut [u8], u64, u64, u64) -> CornersReply;

/// Job, hazard index, the wanted longest approach.
pub type OffsetCall = dyn Fn(&mut [u8], u64, u64) -> OffsetReply;

/// Job, hazard index.
pub type ReachCall = dyn Fn(&mut [u8], u64) -> ReachReply;

/// Panel lengths, the run's length, the limit of tries.
pub type LayoutCall = dyn Fn(&mut [u64], u64, u64) -> LayoutReply;

/// Schedule, level, p, q.
pub type QuantityCall = dyn Fn(&mut [u8], u64, u64, u64) -> Reply;

/// Schedule, level, ranges as p, q, p, q and so on.
pub type QuantitiesCall = dyn Fn(&mut [u8], u64, &mut [u64]) -> Contract;

/// Right schedule, left schedule, side, station.
pub type LookupCall = dyn Fn(&mut [u8], &mut [u8], u64, u64) -> Record;

/// The memory of an open job, job bytes.
pub type OpenCall = dyn Fn(&mut Memory, &mut [u8]) -> Reply;

/// The memory of an open job, name, hazard.
pub type AddCall = dyn Fn(&mut Memory, Name, Hazard) -> Reply;

/// The memory of an open job, name.
pub type WithdrawCall = dyn Fn(&mut Memory, Name) -> Reply;

/// The memory of an open job, which is only read, and a name.
pub type OpenReachCall = dyn Fn(&mut Memory, Name) -> ReachReply;

/// The memory of an open job, the number of a state: keep and return.
pub type StateCall = dyn Fn(&mut Memory, u64) -> Reply;

/// The memory of an open job, side, a room of bytes and its lent part.
pub type OpenScheduleCall = dyn Fn(&mut Memory, u64, &mut [u8], Range<usize>) -> PlanReply;

/// The calls of the engine, or of something in its place. The inputs are lent
/// so that they can be changed, for a call that changes them must be found.
pub struct Calls {
    pub plan: Box<PlanCall>,
    pub level: Box<LevelCall>,
    pub corners: Box<CornersCall>,
    pub offset: Box<OffsetCall>,
    pub reach: Box<ReachCall>,
    pub layout: Box<LayoutCall>,
    pub quantity: Box<QuantityCall>,
    pub quantities: Box<QuantitiesCall>,
    pub lookup: Box<LookupCall>,
    pub open: Box<OpenCall>,
    pub add: Box<AddCall>,
    pub withdraw: Box<WithdrawCall>,
    pub keep: Box<StateCall>,
    pub return_to: Box<StateCall>,
    pub open_schedule: Box<OpenScheduleCall>,
    pub open_reach: Box<OpenReachCall>,
}

/// The reference in the place of the engine.
pub fn right() -> Calls {
    Calls {
        plan: Box::new(|job, side, room, lent| {
            plan_reply(reference::plan(job, side, &mut room[lent]))
        }),
        level: Box::new(|job, side, station| reply(reference::level(job, side, station))),
        corners: Box::new(|job, hazard, station, offset| {
            corners_reply(reference::corners(job, hazard, station, offset))
        }),
        offset: Box::new(|job, hazard, longest| {
            offset_reply(reference::offset(job, hazard, longest))
        }),
        reach: Box::new(|job, hazard| reach_reply(reference::reach(job, hazard))),
        layout: Box::new(|lengths, run, limit| {
            layout_reply(reference::layout(lengths, run, limit))
        }),
        quantity: Box::new(|schedule, level, p, q| {
            reply(reference::quantity(schedule, level, p, q))
        }),
        quantities: Box::new(|schedule, level, ranges| {
            contract(reference::quantities(schedule, level, ranges))
        }),
        lookup: Box::new(|right, left, side, station| {
            record(reference::lookup(right, left, side, station))
        }),
        open: Box::new(|memory, bytes| reply(reference::open(&mut memory.job, bytes))),
        add: Box::new(|memory, name, hazard| reply(reference::add(&mut memory.job, name, hazard))),
        withdraw: Box::new(|memory, name| reply(reference::withdraw(&mut memory.job, name))),
        keep: Box::new(|memory, state| reply(reference::keep(&mut memory.job, state))),
        return_to: Box::new(|memory, state| reply(reference::return_to(&mut memory.job, state))),
        open_schedule: Box::new(|memory, side, room, lent| {
            plan_reply(reference::open_schedule(&memory.job, side, &mut room[lent]))
        }),
        open_reach: Box::new(|memory, name| reach_reply(reference::open_reach(&memory.job, name))),
    }
}

pub fn reply(result: Result<u64, Refusal>) -> Reply {
    match result {
        Ok(value) => Reply { number: 0, value },
        Err(Refusal { number, value }) => Reply { number, value },
    }
}

pub fn plan_reply(result: Result<Planned, Refusal>) -> PlanReply {
    match result {
        Ok(Planned {
            written,
            before,
            after,
        }) => PlanReply {
            number: 0,
            value: written,
            before,
            after,
        },
        Err(refusal) => reply(Err(refusal)).into(),
    }
}

/// A corner after a refusal.
pub const NO_CORNER: Corner = Corner {
    station: 0.0,
    offset: 0.0,
};

pub fn corners_reply(result: Result<Corners, Refusal>) -> CornersReply {
    let (Reply { number, value }, corners) = match result {
        Ok(Corners {
            upstream,
            flare,
            hazard,
        }) => (reply(Ok(0)), [upstream, flare, hazard]),
        Err(refusal) => (reply(Err(refusal)), [NO_CORNER; 3]),
    };
    CornersReply {
        number,
        value,
        corners,
    }
}

pub fn offset_reply(result: Result<Option<u64>, Refusal>) -> OffsetReply {
    let found = u64::from(matches!(result, Ok(Some(_))));
    let Reply { number, value } = reply(result.map(|offset| offset.unwrap_or(0)));
    OffsetReply {
        number,
        value,
        found,
    }
}

pub fn reach_reply(result: Result<Reached, Refusal>) -> ReachReply {
    match result {
        Ok(reached) => ReachReply {
            number: 0,
            value: 0,
            side: reached.side,
            start: reached.envelope.start,
            end: reached.envelope.end,
            before: reached.overhang.before,
            after: reached.overhang.after,
            from: reached.altered.start,
            to: reached.altered.end,
        },
        Err(Refusal { number, value }) => ReachReply {
            number,
            value,
            ..ReachReply::default()
        },
    }
}

pub fn layout_reply(result: Result<Tried, Refusal>) -> LayoutReply {
    let Tried { best, tries, floor } = match result {
        Ok(tried) => tried,
        Err(Refusal { number, value }) => {
            return LayoutReply {
                number,
                value,
                ..LayoutReply::default()
            };
        }
    };
    let mut reply = LayoutReply {
        tries,
        floor,
        ..LayoutReply::default()
    };
    if let Some(best) = best {
        reply.found = 1;
        reply.overrun = best.overrun;
        reply.counts[..best.counts.len()].copy_from_slice(&best.counts);
    }
    reply
}

pub fn contract(result: Result<Quantities, Refusal>) -> Contract {
    let mut places = [0; MOST_RANGES];
    match result {
        Ok(Quantities {
            records,
            quantities,
        }) => {
            places[..quantities.len()].copy_from_slice(&quantities);
            Contract {
                number: 0,
                value: 0,
                records,
                quantities: places,
            }
        }
        Err(Refusal { number, value }) => Contract {
            number,
            value,
            records: 0,
            quantities: places,
        },
    }
}

pub fn record(lookup: Lookup) -> Record {
    let (number, found) = match lookup.outcome {
        Outcome::Found => (0, 1),
        Outcome::None => (0, 0),
        Outcome::Refused(refusal) => (refusal.number, 0),
    };
    Record {
        number,
        found,
        start: lookup.start as u64,
        end: (lookup.start + lookup.length) as u64,
    }
}
