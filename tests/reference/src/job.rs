//! The job in bytes: 14 header numbers, 15 for kind 2, then six numbers for each
//! hazard.

use crate::number::{self, Fault, Number};
use crate::refusal::Refusal;

/// The last station that a road may end at.
pub const LAST_STATION: u64 = 1_000_000_000_000;

/// How far a road may go.
#[derive(Clone, Copy, Debug)]
pub struct RoadLimits {
    /// The last station that it may begin at.
    pub last_begin: u64,
    /// The last station that it may end at.
    pub last_end: u64,
    /// B − A is at most this.
    pub longest: u64,
}

/// Stations on the national chainage.
pub const NATIONAL: RoadLimits = RoadLimits {
    last_begin: LAST_STATION - 1,
    last_end: LAST_STATION,
    longest: 2_000_000_000,
};

/// A job whose numbers are all in form and in range. The paper's letters are
/// named in the comments.
#[derive(Clone, Debug, PartialEq, Eq)]
pub struct Job {
    /// 1, or 2 for approaches in whole panels
    pub kind: u64,
    /// A
    pub road_begin: u64,
    /// B
    pub road_end: u64,
    /// LF
    pub runout_forward: u64,
    /// LO, 0 for one-way or separated
    pub runout_opposite: u64,
    /// C
    pub clear_zone: u64,
    /// W
    pub centreline: u64,
    /// M
    pub barrier_offset: u64,
    /// D
    pub deflection: u64,
    /// a
    pub flare_along: u64,
    /// b, 0 for no flare
    pub flare_across: u64,
    /// T
    pub straight: u64,
    /// G
    pub continuity: u64,
    /// Kind 1 acts as panel length 1.
    pub panel: u64,
    pub hazards: Vec<Hazard>,
}

#[derive(Clone, Copy, Debug, PartialEq, Eq)]
pub struct Hazard {
    /// 0 right, 1 left
    pub side: u64,
    /// s
    pub start: u64,
    /// e
    pub end: u64,
    /// n
    pub near: u64,
    /// f
    pub far: u64,
    pub level: u64,
}

/// The header number of a kind 2 job's panel length.
pub const PANEL: u64 = 14;

/// The header number of the hazard count, which stands behind the panel length
/// where there is one.
pub fn count_number(kind: u64) -> u64 {
    match kind {
        2 => PANEL + 1,
        _ => PANEL,
    }
}

/// Reads a job. The numbers are looked at as they stand, each for refusals 1
/// and 2 and for its range (3 or 4); then comes refusal 7.
pub fn read(bytes: &[u8]) -> Result<Job, Refusal> {
    read_all(&mut Reader::new(bytes))
}

/// The same by a reader of other numbers or other roads.
pub fn read_all(reader: &mut Reader) -> Result<Job, Refusal> {
    let job = read_numbers(reader)?;
    nothing_follows(reader)?;
    Ok(job)
}

/// Refusal 7: bytes are left over.
pub fn nothing_follows(reader: &Reader) -> Result<(), Refusal> {
    match reader.at < reader.bytes.len() {
        true => Err(Refusal::left_over(reader.at)),
        false => Ok(()),
    }
}

/// The numbers of a job, without a look at what stands behind the last.
pub fn read_numbers(reader: &mut Reader) -> Result<Job, Refusal> {
    let mut job = read_header(reader)?;
    let hazard_count = reader.header(count_number(job.kind), 0, 256)?;
    for index in 0..hazard_count as usize {
        let hazard = read_hazard(reader, index, job.road_begin, job.road_end)?;
        job.hazards.push(hazard);
    }
    Ok(job)
}

/// The header without the hazard count.
pub fn read_header(reader: &mut Reader) -> Result<Job, Refusal> {
    let kind = reader.header(1, 1, 2)?;
    let limits = reader.limits;
    let road_begin = reader.header(2, 0, limits.last_begin)?;
    let last_end = limits.last_end.min(road_begin + limits.longest);
    let road_end = reader.header(3, road_begin + 1, last_end)?;
    Ok(Job {
        kind,
        road_begin,
        road_end,
        runout_forward: reader.header(4, 1, 200_000)?,
        runout_opposite: reader.header(5, 0, 200_000)?,
        clear_zone: reader.header(6, 1, 30_000)?,
        centreline: reader.header(7, 0, 20_000)?,
        barrier_offset: reader.header(8, 0, 20_000)?,
        deflection: reader.header(9, 1, 5_000)?,
        flare_along: reader.header(10, 1, 100)?,
        flare_across: reader.header(11, 0, 10)?,
        straight: reader.header(12, 0, 100_000)?,
        continuity: reader.header(13, 0, 200_000)?,
        panel: match kind {
            2 => reader.header(PANEL, 1, 10_000)?,
            _ => 1,
        },
        hazards: Vec::new(),
    })
}

/// The six numbers of a hazard in the paper's order.
pub fn fields(hazard: &Hazard) -> [u64; 6] {
    [
        hazard.side,
        hazard.start,
        hazard.end,
        hazard.near,
        hazard.far,
        hazard.level,
    ]
}

/// Whether every field of a hazard is in its range on this job's road.
pub fn in_range(job: &Job, hazard: &Hazard) -> bool {
    hazard.side <= 1
        && job.road_begin <= hazard.start
        && hazard.start < job.road_end
        && hazard.start < hazard.end
        && hazard.end <= job.road_end
        && hazard.near <= hazard.far
        && hazard.far <= 60_000
        && (1..=6).contains(&hazard.level)
}

fn read_hazard(
    reader: &mut Reader,
    index: usize,
    road_begin: u64,
    road_end: u64,
) -> Result<Hazard, Refusal> {
    let side = reader.field(index, 0, 1)?;
    let start = reader.field(index, road_begin, road_end - 1)?;
    let end = reader.field(index, start + 1, road_end)?;
    let near = reader.field(index, 0, 60_000)?;
    let far = reader.field(index, near, 60_000)?;
    let level = reader.field(index, 1, 6)?;
    Ok(Hazard {
        side,
        start,
        end,
        near,
        far,
        level,
    })
}

/// Reads the numbers of a job one after the other.
pub struct Reader<'a> {
    pub bytes: &'a [u8],
    /// Where the next number begins.
    pub at: usize,
    pub number: ReadNumber,
    pub limits: RoadLimits,
}

/// Reads the number of these bytes that begins there.
pub type ReadNumber = fn(&[u8], usize) -> Result<Number, Fault>;

impl Reader<'_> {
    pub fn new(bytes: &[u8]) -> Reader<'_> {
        Reader {
            bytes,
            at: 0,
            number: number::read,
            limits: NATIONAL,
        }
    }

    /// Header number `no`, which has to be from `low` to `high`.
    pub fn header(&mut self, no: u64, low: u64, high: u64) -> Result<u64, Refusal> {
        self.next(low, high, Refusal::header_range(no))
    }

    /// The next field of a hazard, which has to be from `low` to `high`.
    fn field(&mut self, hazard_index: usize, low: u64, high: u64) -> Result<u64, Refusal> {
        self.next(low, high, Refusal::hazard_range(hazard_index))
    }

    fn next(&mut self, low: u64, high: u64, outside: Refusal) -> Result<u64, Refusal> {
        let begin = self.at;
        let number = (self.number)(self.bytes, begin).map_err(|fault| match fault {
            Fault::Ends => Refusal::job_ends(begin),
            Fault::Form => Refusal::number_form(begin),
        })?;
        if number.value < low || number.value > high {
            return Err(outside);
        }
        self.at = number.next;
        Ok(number.value)
    }
}
