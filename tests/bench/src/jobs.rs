//! The jobs of the measurement: all hazards on the right side, each reached by
//! both traffics, the same bytes on every run.

use cases::draft::{A, B, Draft, E, Header, S};
use cases::{Memory, Random};
use reference::Stretch;
use reference::envelope;
use reference::job::{Hazard, LAST_STATION};
use reference::level::Run;
use reference::memory::BYTES;
use reference::offset;
use reference::open::STATES;

#[derive(Clone, Copy, PartialEq, Eq)]
pub enum Kind {
    /// No envelope comes near another.
    Sparse,
    /// Some five envelopes overlap everywhere.
    Dense,
    /// One wide envelope with disjoint higher ones in it.
    Islands,
}

impl Kind {
    pub fn name(self) -> &'static str {
        match self {
            Kind::Sparse => "sparse",
            Kind::Dense => "dense",
            Kind::Islands => "511 runs",
        }
    }
}

#[derive(Clone, Copy, PartialEq, Eq)]
pub enum Order {
    Station,
    Shuffled,
}

impl Order {
    pub fn name(self) -> &'static str {
        match self {
            Order::Station => "station",
            Order::Shuffled => "shuffled",
        }
    }
}

/// The road's end of every job but one.
pub const ROAD_END: u64 = 2_000_000_000;

/// The last of 256 hazards.
pub const LAST: u64 = 255;

/// A sheet corner, station and offset.
pub const SHEET: (u64, u64) = (1_000_000_000, 1_000);

/// The panel lengths of the yard.
pub const PANELS: [u64; 4] = [4_000, 3_000, 2_500, 1_333];

/// A run that no layout of them meets to the millimetre.
pub const RUN: u64 = 44_227;

const HEADER: Header = [
    1, 0, ROAD_END, 101_000, 88_000, 9_000, 1_500, 1_800, 1_000, 15, 1, 13_340, 5_000, 1,
];

/// No approach length of this header is greater.
const MARGIN: u64 = 101_000;

pub fn job(kind: Kind, order: Order, hazards: u64) -> Vec<u8> {
    draft(kind, order, hazards).bytes()
}

/// The same job in whole panels of this length.
pub fn job_in_panels(kind: Kind, order: Order, hazards: u64, length: u64) -> Vec<u8> {
    draft(kind, order, hazards).in_panels(length).bytes()
}

/// The sparse job in no order, on a road that begins with its first hazard and
/// ends with its last.
pub fn job_over_road_ends(hazards: u64) -> Vec<u8> {
    let draft = draft(Kind::Sparse, Order::Shuffled, hazards);
    let first = draft.hazards.iter().map(|hazard| hazard[S]).min();
    let last = draft.hazards.iter().map(|hazard| hazard[E]).max();
    let draft = draft.with(A, first.unwrap_or(0));
    draft.with(B, last.unwrap_or(ROAD_END)).bytes()
}

/// The sparse job in no order, on a road that ends at the last station.
pub fn job_at_last_station(hazards: u64) -> Vec<u8> {
    let draft = draft(Kind::Sparse, Order::Shuffled, hazards);
    draft.moved(LAST_STATION - ROAD_END).bytes()
}

fn draft(kind: Kind, order: Order, hazards: u64) -> Draft {
    let mut random = Random::new(hazards, kind.name());
    let mut draft = Draft {
        header: HEADER,
        hazards: match kind {
            Kind::Sparse => sparse(&mut random, hazards),
            Kind::Dense => dense(&mut random, hazards),
            Kind::Islands => islands(&mut random, hazards),
        },
    };
    match order {
        Order::Station => draft.hazards.sort_by_key(|hazard| hazard[1]),
        Order::Shuffled => random.shuffle(&mut draft.hazards),
    }
    draft
}

fn hazard(random: &mut Random, start: u64, length: u64, level: u64) -> [u64; 6] {
    let near = random.between(2_800, 7_000);
    let far = near + random.below(5_000);
    [0, start, start + length, near, far, level]
}

fn sparse(random: &mut Random, hazards: u64) -> Vec<[u64; 6]> {
    let at = |index, random: &mut Random| {
        let start = 1_000_000 + index * 4_000_000 + random.below(500_000);
        let length = random.between(1, 100_000);
        let level = random.between(1, 6);
        hazard(random, start, length, level)
    };
    (0..hazards).map(|index| at(index, random)).collect()
}

/// The road in use grows with the hazards, so that the overlap stays alike.
fn dense(random: &mut Random, hazards: u64) -> Vec<[u64; 6]> {
    let at = |random: &mut Random| {
        let start = MARGIN + random.below(hazards * 20_000);
        let length = random.between(1, 60_000);
        let level = random.between(1, 6);
        hazard(random, start, length, level)
    };
    (0..hazards).map(|_| at(random)).collect()
}

fn islands(random: &mut Random, hazards: u64) -> Vec<[u64; 6]> {
    let pitch = 400_000;
    let end = MARGIN + hazards * pitch;
    let mut list = vec![hazard(random, MARGIN, end, 1)];
    for index in 1..hazards {
        let start = MARGIN + index * pitch + random.below(10_000);
        let length = random.between(1, 100_000);
        let level = random.between(2, 6);
        list.push(hazard(random, start, length, level));
    }
    list
}

/// An open job in which these hazards stand, and the hazards by their names.
pub struct Open {
    pub memory: Memory,
    pub hazards: Vec<Hazard>,
}

/// The same, kept in all eight states.
pub fn open_and_kept() -> Open {
    let mut open = open();
    for state in 0..STATES as u64 {
        reference::keep(&mut open.memory.job, state).expect("a state");
    }
    open
}

/// The islands stand in no order of their names.
pub fn open() -> Open {
    let job = job(Kind::Islands, Order::Shuffled, 256);
    let hazards = reference::job::read(&job).expect("an accepted job").hazards;
    let mut memory = Memory::new(&[0; BYTES]);
    reference::open(&mut memory.job, &header()).expect("an accepted header");
    for (name, hazard) in (0..=255).zip(&hazards) {
        reference::add(&mut memory.job, name, *hazard).expect("an accepted hazard");
    }
    Open { memory, hazards }
}

/// The job bytes that opening takes: no hazard is in them.
pub fn header() -> Vec<u8> {
    let draft = Draft {
        header: HEADER,
        hazards: Vec::new(),
    };
    draft.bytes()
}

/// A written schedule of 511 runs of one level. A plan has as many runs only
/// where runs of different levels touch; these stand apart.
pub fn schedule_of_one_level(level: u64) -> Vec<u8> {
    let mut random = Random::new(511, "one level");
    let mut run = |index: u64| {
        let start = 1_000_000 + index * 3_800_000 + random.below(500_000);
        let end = start + random.between(1, 3_000_000);
        Run {
            stretch: Stretch::new(start, end),
            level,
        }
    };
    let runs: Vec<Run> = (0..511).map(&mut run).collect();
    reference::schedule::writing(&runs)
}

/// The road in as many lots as a contract may have, as p, q, p, q and so on.
pub fn lots(schedule: &[u8]) -> Vec<u64> {
    let end = runs(schedule)
        .last()
        .map_or(ROAD_END, |run| run.stretch.end);
    let most = reference::calls::MOST_RANGES as u64;
    let lot = |lot| [end * lot / most, end * (lot + 1) / most];
    (0..most).flat_map(lot).collect()
}

/// The planned schedule of the right side.
pub fn schedule(job: &[u8]) -> Vec<u8> {
    reference::planned(job, 0).expect("the job is accepted")
}

/// The adjacent approach of the last hazard with the last M that there is for it.
pub fn at_last_offset(job: &[u8]) -> u64 {
    let job = reference::job::read(job).expect("the job is accepted");
    let reached = envelope::adjacent_approach(&job, LAST);
    let (hazard, approach) = reached.expect("the last hazard is reached");
    let last = hazard.near - job.deflection;
    offset::length(&job, &approach, last)
}

/// A station in the middle run of the right side.
pub fn middle(job: &[u8]) -> u64 {
    let runs = runs(&schedule(job));
    runs[runs.len() / 2].stretch.start
}

pub fn runs(schedule: &[u8]) -> Vec<Run> {
    let records = reference::schedule::read(schedule).expect("it is a schedule");
    records.into_iter().map(|record| record.run).collect()
}
