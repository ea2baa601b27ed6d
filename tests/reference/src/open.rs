//! An open job: a header, hazards by name that come and go, and kept states to
//! return to.

use std::collections::BTreeMap;

use crate::calls::{Planned, plan_job};
use crate::envelope;
use crate::job::{self, Hazard, Job, Reader};
use crate::memory;
use crate::refusal::Refusal;

/// The name of a hazard: a drawing number.
pub type Name = u16;

/// Hazards, each under its name.
pub type Standing = BTreeMap<Name, Hazard>;

/// As many hazards may stand together.
pub const MOST_STANDING: usize = 256;

/// As many states may be kept, under numbers from 0.
pub const STATES: usize = 8;

/// A header, the hazards that stand, and the hazards that stood when a state was
/// last kept.
#[derive(Clone, Debug, PartialEq, Eq)]
pub struct OpenJob {
    /// Its own list of hazards stays empty.
    pub header: Job,
    pub standing: Standing,
    pub kept: [Option<Standing>; STATES],
}

impl OpenJob {
    /// Opens a job: bytes that carry no hazard.
    pub fn open(bytes: &[u8]) -> Result<OpenJob, Refusal> {
        OpenJob::read(&mut Reader::new(bytes))
    }

    /// The same by a reader of other numbers or other roads.
    pub fn read(reader: &mut Reader) -> Result<OpenJob, Refusal> {
        let header = job::read_header(reader)?;
        reader.header(job::count_number(header.kind), 0, 0)?;
        job::nothing_follows(reader)?;
        Ok(OpenJob {
            header,
            standing: Standing::new(),
            kept: [const { None }; STATES],
        })
    }

    /// Adds a hazard under a name: 12, then 15, then 4 and 5, the index replaced
    /// by the name.
    pub fn add(&mut self, name: Name, hazard: Hazard) -> Result<(), Refusal> {
        if self.standing.contains_key(&name) {
            return Err(Refusal::name(name));
        }
        if self.standing.len() >= MOST_STANDING {
            return Err(Refusal::no_room());
        }
        if !job::in_range(&self.header, &hazard) {
            return Err(Refusal::hazard_range(name.into()));
        }
        envelope::envelope(&self.header, name.into(), &hazard)?;
        self.standing.insert(name, hazard);
        Ok(())
    }

    pub fn withdraw(&mut self, name: Name) -> Result<(), Refusal> {
        match self.standing.remove(&name) {
            Some(_) => Ok(()),
            None => Err(Refusal::name(name)),
        }
    }

    /// Keeps what stands under a number; a used one is replaced.
    pub fn keep(&mut self, state: u64) -> Result<(), Refusal> {
        self.kept[place(state)?] = Some(self.standing.clone());
        Ok(())
    }

    /// Returns to what stood when a state was last kept.
    pub fn return_to(&mut self, state: u64) -> Result<(), Refusal> {
        let kept = &self.kept[place(state)?];
        self.standing = kept.clone().ok_or(Refusal::state())?;
        Ok(())
    }

    /// Writes the schedule of one side, as plan does: 8, then 9.
    pub fn schedule(&self, side: u64, out: &mut [u8]) -> Result<Planned, Refusal> {
        plan_job(&self.job(), side, out)
    }

    /// The job made from the header and the hazards that stand.
    pub fn job(&self) -> Job {
        Job {
            hazards: self.standing.values().copied().collect(),
            ..self.header.clone()
        }
    }
}

/// The place of a state number, which is 64 bits wide.
fn place(state: u64) -> Result<usize, Refusal> {
    match state < STATES as u64 {
        true => Ok(state as usize),
        false => Err(Refusal::state()),
    }
}

// The calls, on the caller's memory. A refused call alters nothing.

/// Opening takes memory with any content.
pub fn open(memory: &mut [u8], bytes: &[u8]) -> Result<u64, Refusal> {
    let opened = OpenJob::open(bytes)?;
    memory::write(&opened, memory);
    Ok(0)
}

pub fn add(memory: &mut [u8], name: Name, hazard: Hazard) -> Result<u64, Refusal> {
    change(memory, |open| open.add(name, hazard))
}

pub fn withdraw(memory: &mut [u8], name: Name) -> Result<u64, Refusal> {
    change(memory, |open| open.withdraw(name))
}

pub fn keep(memory: &mut [u8], state: u64) -> Result<u64, Refusal> {
    change(memory, |open| open.keep(state))
}

pub fn return_to(memory: &mut [u8], state: u64) -> Result<u64, Refusal> {
    change(memory, |open| open.return_to(state))
}

fn change(
    memory: &mut [u8],
    call: impl FnOnce(&mut OpenJob) -> Result<(), Refusal>,
) -> Result<u64, Refusal> {
    let mut open = tested(memory)?;
    call(&mut open)?;
    memory::write(&open, memory);
    Ok(0)
}

/// As plan answers.
pub fn open_schedule(memory: &[u8], side: u64, out: &mut [u8]) -> Result<Planned, Refusal> {
    tested(memory)?.schedule(side, out)
}

/// Memory whose header, names or hazards, the kept ones too, break the rules is
/// refused 3 with 0 before any other test.
pub fn tested(memory: &[u8]) -> Result<OpenJob, Refusal> {
    memory::read(memory).ok_or(Refusal::header_range(0))
}
