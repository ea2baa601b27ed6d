//! The memory of an open job, byte by byte. First the open job as it is now: the
//! header's numbers with the count of hazards that stand, then a row of 256
//! places. Behind it the eight kept states: whether it is used, the count, and a
//! row of places like that of the open job. The hazards stand in the first places
//! of a row, in rising order of their names; every other place is all 0, and so
//! is a state that is not kept. Numbers are written lowest byte first, without
//! padding.

use crate::envelope;
use crate::job::{self, Hazard, Job};
use crate::number;
use crate::open::{MOST_STANDING, Name, OpenJob, STATES, Standing};

/// Numbers of the header: those of kind 2, the last the count.
pub const HEADER: usize = 15;

/// The bytes of a number of the header.
pub const NUMBER_BYTES: usize = 8;

/// The bytes of the header.
pub const HEADER_BYTES: usize = NUMBER_BYTES * HEADER;

/// Places for hazards in a row.
pub const PLACES: usize = MOST_STANDING;

// Where each part of a place begins, and where the place ends: s and e have eight
// bytes each, n, f and the name two, the side and the level one.
pub const START_AT: usize = 0;
pub const END_AT: usize = 8;
pub const NEAR_AT: usize = 16;
pub const FAR_AT: usize = 18;
pub const NAME_AT: usize = 20;
pub const SIDE_AT: usize = 22;
pub const LEVEL_AT: usize = 23;
pub const PLACE_BYTES: usize = 24;

/// The bytes of a row of places.
pub const ROW_BYTES: usize = PLACES * PLACE_BYTES;

/// The bytes of the open job as it is now.
pub const NOW_BYTES: usize = HEADER_BYTES + ROW_BYTES;

/// The bytes of a kept state's mark of being used, and those of its count.
pub const MARK_BYTES: usize = 8;

/// The bytes of a kept state: used, count, then its row.
pub const STATE_BYTES: usize = 2 * MARK_BYTES + ROW_BYTES;

/// The bytes of the whole memory.
pub const BYTES: usize = NOW_BYTES + STATES * STATE_BYTES;

/// Writes an open job over the whole memory.
pub fn write(open: &OpenJob, memory: &mut [u8]) {
    let mut bytes = Vec::new();
    for value in header_numbers(&open.header) {
        bytes.extend(value.to_le_bytes());
    }
    bytes.extend((open.standing.len() as u64).to_le_bytes());
    write_places(&open.standing, &mut bytes);
    for kept in &open.kept {
        let nothing = Standing::new();
        let standing = kept.as_ref().unwrap_or(&nothing);
        bytes.extend(u64::from(kept.is_some()).to_le_bytes());
        bytes.extend((standing.len() as u64).to_le_bytes());
        write_places(standing, &mut bytes);
    }
    memory.copy_from_slice(&bytes);
}

/// The places of the hazards and those that are not used.
fn write_places(standing: &Standing, bytes: &mut Vec<u8>) {
    let end = bytes.len() + ROW_BYTES;
    for (name, hazard) in standing {
        bytes.extend(place_bytes(*name, hazard));
    }
    bytes.resize(end, 0);
}

/// The bytes of a place. An accepted offset is at most 60,000.
pub fn place_bytes(name: Name, hazard: &Hazard) -> [u8; PLACE_BYTES] {
    let mut bytes = [0; PLACE_BYTES];
    bytes[START_AT..END_AT].copy_from_slice(&hazard.start.to_le_bytes());
    bytes[END_AT..NEAR_AT].copy_from_slice(&hazard.end.to_le_bytes());
    bytes[NEAR_AT..FAR_AT].copy_from_slice(&(hazard.near as u16).to_le_bytes());
    bytes[FAR_AT..NAME_AT].copy_from_slice(&(hazard.far as u16).to_le_bytes());
    bytes[NAME_AT..SIDE_AT].copy_from_slice(&name.to_le_bytes());
    bytes[SIDE_AT] = hazard.side as u8;
    bytes[LEVEL_AT] = hazard.level as u8;
    bytes
}

/// The numbers of a header in the paper's order, without the hazard count. Kind
/// 1 has panel length 1 among them.
pub fn header_numbers(job: &Job) -> [u64; HEADER - 1] {
    [
        job.kind,
        job.road_begin,
        job.road_end,
        job.runout_forward,
        job.runout_opposite,
        job.clear_zone,
        job.centreline,
        job.barrier_offset,
        job.deflection,
        job.flare_along,
        job.flare_across,
        job.straight,
        job.continuity,
        job.panel,
    ]
}

/// The open job that this memory is; none where the memory is not what `write`
/// makes of a header and hazards that are accepted.
pub fn read(memory: &[u8]) -> Option<OpenJob> {
    if memory.len() != BYTES {
        return None;
    }
    let (now, states) = memory.split_at(NOW_BYTES);
    let (header, places) = now.split_at(HEADER_BYTES);
    let mut header: Vec<u64> = header.chunks(NUMBER_BYTES).map(value).collect();
    let count = header.pop()?;
    let standing = read_places(&header, count, places)?;
    let mut kept = [const { None }; STATES];
    for (kept, state) in kept.iter_mut().zip(states.chunks(STATE_BYTES)) {
        *kept = read_state(&header, state)?;
    }
    Some(OpenJob {
        header: accepted(&header, &[])?,
        standing,
        kept,
    })
}

/// A state with its row, or one that is not kept.
fn read_state(header: &[u64], state: &[u8]) -> Option<Option<Standing>> {
    let (marks, places) = state.split_at(2 * MARK_BYTES);
    let (used, count) = marks.split_at(MARK_BYTES);
    match value(used) {
        0 => all_0(state).then_some(None),
        1 => Some(Some(read_places(header, value(count), places)?)),
        _ => None,
    }
}

/// The hazards of a row by their names, as many as the count says.
fn read_places(header: &[u64], count: u64, places: &[u8]) -> Option<Standing> {
    if count > PLACES as u64 {
        return None;
    }
    let (used, unused) = places.split_at(count as usize * PLACE_BYTES);
    if !all_0(unused) {
        return None;
    }
    let places: Vec<(Name, Hazard)> = used.chunks(PLACE_BYTES).map(read_place).collect();
    let rising = places.windows(2).all(|pair| pair[0].0 < pair[1].0);
    if !rising {
        return None;
    }
    let hazards: Vec<Hazard> = places.iter().map(|(_, hazard)| *hazard).collect();
    accepted(header, &hazards)?;
    Some(places.into_iter().collect())
}

/// Without an early end, which would make it slower over so many bytes.
pub fn all_0(bytes: &[u8]) -> bool {
    bytes.iter().fold(0, |bits, byte| bits | byte) == 0
}

/// The value of up to eight bytes, lowest first.
pub fn value(bytes: &[u8]) -> u64 {
    let highest_first = bytes.iter().rev();
    highest_first.fold(0, |value, byte| value << 8 | u64::from(*byte))
}

/// The name and the hazard of a place.
pub fn read_place(place: &[u8]) -> (Name, Hazard) {
    let hazard = Hazard {
        start: value(&place[START_AT..END_AT]),
        end: value(&place[END_AT..NEAR_AT]),
        near: value(&place[NEAR_AT..FAR_AT]),
        far: value(&place[FAR_AT..NAME_AT]),
        side: place[SIDE_AT].into(),
        level: place[LEVEL_AT].into(),
    };
    (value(&place[NAME_AT..SIDE_AT]) as Name, hazard)
}

/// The job of these header numbers and hazards, if it is an accepted one: its
/// bytes are read as any job's are.
fn accepted(header: &[u64], hazards: &[Hazard]) -> Option<Job> {
    let mut numbers = in_job_bytes(header)?;
    numbers.push(hazards.len() as u64);
    numbers.extend(hazards.iter().flat_map(job::fields));
    let mut bytes = Vec::new();
    for value in numbers {
        number::write(value, &mut bytes);
    }
    let job = job::read(&bytes).ok()?;
    envelope::envelopes(&job).ok()?;
    Some(job)
}

/// The header numbers as a job's bytes have them: kind 1 has no panel length
/// there, and no opening leaves another than 1 in its place.
fn in_job_bytes(header: &[u64]) -> Option<Vec<u64>> {
    let mut numbers = header.to_vec();
    if numbers[0] == 1 && numbers.remove(job::PANEL as usize - 1) != 1 {
        return None;
    }
    Some(numbers)
}
