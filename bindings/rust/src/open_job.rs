//! A job that is changed hazard by hazard.

use crate::{c, Call, Hazard, Header, Job, Planned, PlannedSide, Reach, Refusal, Side};

/// A job whose hazards come and go, each under a name, with up to eight kept
/// states. Refused calls leave it as it was. It is nothing but the engine's
/// memory, 55,544 bytes where it stands: it can be copied and compared. On a
/// small stack mind that Rust may copy it on its way to where it stands, and
/// that the calls take up to `OPEN_STACK_MAX` beside it.
#[derive(Clone, PartialEq, Eq)]
#[repr(transparent)]
pub struct OpenJob {
    pub(crate) memory: c::OpenJob,
}

impl OpenJob {
    /// An open job of a header: the bytes of a job with hazard count 0, as
    /// `Header::encode` gives them.
    pub fn new(bytes: &[u8]) -> Result<OpenJob, Refusal> {
        let mut job = OpenJob {
            memory: c::OpenJob::UNOPENED,
        };
        job.open(bytes)?;
        Ok(job)
    }

    /// Starts again with the header of these bytes, no hazard and no kept state.
    pub fn open(&mut self, bytes: &[u8]) -> Result<(), Refusal> {
        // SAFETY: the memory is lent to this call only, and the other pointer
        // is good for as many bytes as are named with it.
        let reply = unsafe { c::barrier_open(&mut self.memory, bytes.as_ptr(), bytes.len()) };
        Call::Open.answer(reply).map(|_| ())
    }

    /// Puts a hazard in, under a name under which none stands; at most 256
    /// stand together.
    pub fn add(&mut self, name: u16, hazard: Hazard) -> Result<(), Refusal> {
        // SAFETY: the memory is lent to this call only.
        let reply = unsafe { c::barrier_add(&mut self.memory, name, hazard) };
        Call::Add.answer(reply).map(|_| ())
    }

    /// Takes the hazard under a name out; the name can be added again.
    pub fn withdraw(&mut self, name: u16) -> Result<(), Refusal> {
        // SAFETY: the memory is lent to this call only.
        let reply = unsafe { c::barrier_withdraw(&mut self.memory, name) };
        Call::Withdraw.answer(reply).map(|_| ())
    }

    /// Writes the schedule of one side to the start of `out`; the bytes written,
    /// and the greatest overhang at each end of the road.
    pub fn schedule(&self, side: Side, out: &mut [u8]) -> Result<Planned, Refusal> {
        // SAFETY: the memory is only read, the other pointer is good for as
        // many bytes as are named with it, and `out` is lent to this call only.
        let reply =
            unsafe { c::barrier_open_schedule(&self.memory, side, out.as_mut_ptr(), out.len()) };
        Call::OpenSchedule { side }.planned(reply)
    }

    /// As `schedule`, into bytes of its own.
    pub fn plan_side(&self, side: Side) -> Result<PlannedSide, Refusal> {
        PlannedSide::written(|out| self.schedule(side, out))
    }

    /// The envelope of the hazard under a name, and how far its withdrawal
    /// reaches: asked before it is withdrawn.
    pub fn reach(&self, name: u16) -> Result<Reach, Refusal> {
        // SAFETY: the memory is only read.
        let reply = unsafe { c::barrier_open_reach(&self.memory, name) };
        Call::OpenReach.reach(reply)
    }

    /// The job of this header and the hazards that stand, in rising order of
    /// their names. Its bytes are for the calls that take a job: for the level
    /// under the rod, say.
    pub fn job(&self) -> Job {
        let memory = &self.memory;
        Job {
            header: Header {
                begin: memory.begin,
                end: memory.end,
                runout_forward: memory.forward,
                runout_opposite: memory.opposite,
                clear_zone: memory.zone,
                centreline: memory.way,
                barrier_offset: memory.offset,
                deflection: memory.deflection,
                flare_along: memory.along,
                flare_across: memory.across,
                straight: memory.straight,
                continuity: memory.continuity,
                panel: (memory.kind == 2).then_some(memory.panel),
            },
            hazards: self.standing().map(|(_, hazard)| hazard).collect(),
        }
    }

    /// The hazards that stand and their names, which rise.
    pub fn standing(&self) -> impl Iterator<Item = (u16, Hazard)> + '_ {
        let places = &self.memory.hazards[..];
        places.iter().take(self.memory.count as usize).map(|place| {
            let hazard = Hazard {
                side: place.side.into(),
                start: place.start,
                end: place.end,
                near_offset: place.near_offset.into(),
                far_offset: place.far_offset.into(),
                level: place.level.into(),
            };
            (place.name, hazard)
        })
    }

    /// Keeps what stands, under a state number 0 to 7.
    pub fn keep(&mut self, state: u64) -> Result<(), Refusal> {
        // SAFETY: the memory is lent to this call only.
        let reply = unsafe { c::barrier_keep(&mut self.memory, state) };
        Call::Keep { state }.answer(reply).map(|_| ())
    }

    /// What stood when this state was last kept stands again; it stays kept.
    pub fn return_to(&mut self, state: u64) -> Result<(), Refusal> {
        // SAFETY: the memory is lent to this call only.
        let reply = unsafe { c::barrier_return(&mut self.memory, state) };
        Call::Return { state }.answer(reply).map(|_| ())
    }
}
