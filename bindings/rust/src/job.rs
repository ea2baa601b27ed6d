//! Jobs to bytes and back.

use crate::numbers::{fault_at_byte, put_numbers, Reader};
use crate::{put_number, Fault, Hazard, HAZARDS_MAX};

/// The header of a job, without its kind and hazard count. With a panel length
/// it is of kind 2, without one of kind 1. Lengths and stations in millimetres.
#[derive(Clone, Copy, Debug, PartialEq, Eq)]
pub struct Header {
    pub begin: u64,
    pub end: u64,
    pub runout_forward: u64,
    /// 0: one-way, or separated carriageways.
    pub runout_opposite: u64,
    pub clear_zone: u64,
    /// From the travelled-way edge.
    pub centreline: u64,
    pub barrier_offset: u64,
    pub deflection: u64,
    /// The flare goes `flare_across` across for `flare_along` along; 0 across
    /// means no flare.
    pub flare_along: u64,
    pub flare_across: u64,
    /// Before the flare.
    pub straight: u64,
    /// Gaps shorter than this are closed.
    pub continuity: u64,
    /// Approaches in whole panels of this length.
    pub panel: Option<u64>,
}

impl Header {
    /// The bytes of a job without hazards, as `OpenJob::new` takes them.
    pub fn encode(&self) -> Vec<u8> {
        self.with_count(0)
    }

    fn with_count(&self, hazards: usize) -> Vec<u8> {
        let kind = if self.panel.is_some() { 2 } else { 1 };
        let mut bytes = Vec::new();
        put_number(&mut bytes, kind);
        put_numbers(&mut bytes, &self.lengths());
        if let Some(panel) = self.panel {
            put_number(&mut bytes, panel);
        }
        put_number(&mut bytes, hazards as u64);
        bytes
    }

    /// Header numbers 2 to 13.
    fn lengths(&self) -> [u64; 12] {
        [
            self.begin,
            self.end,
            self.runout_forward,
            self.runout_opposite,
            self.clear_zone,
            self.centreline,
            self.barrier_offset,
            self.deflection,
            self.flare_along,
            self.flare_across,
            self.straight,
            self.continuity,
        ]
    }

    /// All but the hazard count.
    fn read(reader: &mut Reader) -> Result<Header, Fault> {
        let begin = reader.at;
        let kind = reader.number()?;
        if kind != 1 && kind != 2 {
            return fault_at_byte(begin, "the kind is neither 1 nor 2");
        }
        let [begin, end, runout_forward, runout_opposite, clear_zone, centreline, barrier_offset, deflection, flare_along, flare_across, straight, continuity] =
            reader.numbers()?;
        let panel = if kind == 2 {
            Some(reader.number()?)
        } else {
            None
        };
        Ok(Header {
            begin,
            end,
            runout_forward,
            runout_opposite,
            clear_zone,
            centreline,
            barrier_offset,
            deflection,
            flare_along,
            flare_across,
            straight,
            continuity,
            panel,
        })
    }
}

/// A job: the road, and its hazards in any order.
#[derive(Clone, Debug, PartialEq, Eq)]
pub struct Job {
    pub header: Header,
    pub hazards: Vec<Hazard>,
}

impl Job {
    /// The job's bytes, whatever its numbers are: whether they are right is for
    /// the engine to say.
    pub fn encode(&self) -> Vec<u8> {
        let mut bytes = self.header.with_count(self.hazards.len());
        for hazard in &self.hazards {
            let Hazard {
                side,
                start,
                end,
                near_offset,
                far_offset,
                level,
            } = *hazard;
            put_numbers(
                &mut bytes,
                &[side, start, end, near_offset, far_offset, level],
            );
        }
        bytes
    }

    /// The job of these bytes. Its numbers may be outside their ranges: of those
    /// only the kind and the hazard count are looked at.
    pub fn decode(bytes: &[u8]) -> Result<Job, Fault> {
        let mut reader = Reader { bytes, at: 0 };
        let header = Header::read(&mut reader)?;
        let count = reader.count(HAZARDS_MAX, "the hazard count is above 256")?;
        let mut hazards = Vec::with_capacity(count);
        for _ in 0..count {
            let [side, start, end, near_offset, far_offset, level] = reader.numbers()?;
            hazards.push(Hazard {
                side,
                start,
                end,
                near_offset,
                far_offset,
                level,
            });
        }
        reader.end()?;
        Ok(Job { header, hazards })
    }
}
