//! Random jobs, most of them accepted.

use reference::approach::{formula, raised};
use reference::envelope::{self, Approach, Direction, Envelope};
use reference::job::{Job, LAST_STATION};
use reference::{Stretch, job, level};

use crate::Random;
use crate::draft::{
    A, B, C, D, Draft, E, FIELDS, G, Header, KIND, LF, LO, M, N, PANEL, S, SIDE, T, W,
};

/// How great the numbers of a random job are.
struct World {
    station: u64,
    runout: u64,
    offset: u64,
    deflection: u64,
    straight: u64,
    continuity: u64,
    panel: u64,
    hazard_length: u64,
}

/// Everything is short, so that ends often meet exactly.
const SMALL: World = World {
    station: 1_000,
    runout: 30,
    offset: 60,
    deflection: 8,
    straight: 30,
    continuity: 40,
    panel: 12,
    hazard_length: 25,
};

/// The whole ranges of the paper, on the longest road from the datum.
const WIDE: World = World {
    station: 2_000_000_000,
    runout: 200_000,
    offset: 30_000,
    deflection: 5_000,
    straight: 100_000,
    continuity: 200_000,
    panel: 10_000,
    hazard_length: 300_000,
};

pub fn small(random: &mut Random) -> Draft {
    let count = match random.below(10) {
        0..=2 => random.below(4),
        3..=7 => random.below(13),
        _ => random.below(41),
    };
    job_in(&SMALL, random, count)
}

pub fn wide(random: &mut Random) -> Draft {
    let count = match random.below(10) {
        0..=5 => random.below(6),
        _ => random.below(25),
    };
    job_in(&WIDE, random, count)
}

/// A small or a wide job, far from the datum.
pub fn national(random: &mut Random) -> Draft {
    let draft = match random.percent(50) {
        true => small(random),
        false => wide(random),
    };
    far_away(draft, random)
}

/// The job moved along the chainage: its road to the last station or next to it,
/// one of its stations to the end of what 32 bits or five bytes hold or next to
/// it, or anywhere.
pub fn far_away(draft: Draft, random: &mut Random) -> Draft {
    let furthest = LAST_STATION - draft.header[B];
    let by = match random.below(6) {
        0..=1 => furthest - random.below(2),
        2..=3 => {
            let mut stations = vec![draft.header[A], draft.header[B]];
            stations.extend(
                draft
                    .hazards
                    .iter()
                    .flat_map(|hazard| [hazard[S], hazard[E]]),
            );
            let end = random.pick(&[1 << 32, 1 << 32, 1 << 35]);
            end + random.below(2) - random.pick(&stations)
        }
        _ => random.below(furthest + 1),
    };
    draft.moved(by)
}

fn job_in(world: &World, random: &mut Random, count: u64) -> Draft {
    let mut draft = Draft {
        header: header(world, random),
        hazards: Vec::new(),
    };
    for _ in 0..count {
        let hazard = hazard(&draft.header, world, random);
        draft.hazards.push(hazard);
    }
    if random.percent(50) {
        set_straight(&mut draft, random);
    }
    if draft.header[KIND] == 2 && random.percent(50) {
        set_panel(&mut draft, random);
        place_again(&mut draft, world, random);
    }
    if random.percent(60) {
        bring_together(&mut draft, random);
    }
    if random.percent(40) {
        tighten(&mut draft, random);
    }
    if random.percent(25) {
        bring_to_road_ends(&mut draft, random);
    }
    draft
}

fn header(world: &World, random: &mut Random) -> Header {
    let begin = match random.below(4) {
        0 => random.edgy(0, world.station - 1),
        1 => random.edgy(0, world.station / 5),
        _ => 0,
    };
    let end = match random.below(4) {
        0 => random.edgy(begin + 1, world.station),
        _ => random.between(begin + 1 + (world.station - begin) / 2, world.station),
    };
    let opposite = if random.percent(60) {
        random.edgy(1, world.runout)
    } else {
        0
    };
    let least = if random.percent(90) { 12 } else { 1 };
    let clear = random.edgy(least, world.offset);
    let (barrier, deflection) = barrier(world, random, clear);
    let half = clear / 2;
    let centreline = if random.percent(70) {
        random.edgy(0, half.min(20_000))
    } else {
        random.edgy(0, world.offset.min(20_000))
    };
    let across = if random.percent(60) {
        random.between(1, 10)
    } else {
        0
    };
    let [kind, panel] = kind(random, world.panel);
    [
        kind,
        begin,
        end,
        random.edgy(1, world.runout),
        opposite,
        clear,
        centreline,
        barrier,
        deflection,
        random.edgy(1, 100),
        across,
        random.edgy(0, world.straight),
        random.edgy(0, world.continuity),
        panel,
    ]
}

/// Kind 1, or kind 2 with a panel length; kind 1 acts as panel length 1.
fn kind(random: &mut Random, longest: u64) -> [u64; 2] {
    match random.percent(50) {
        true => [1, 1],
        false => [2, random.edgy(1, longest)],
    }
}

/// M and D, mostly such that a reached hazard can stand behind them.
fn barrier(world: &World, random: &mut Random, clear: u64) -> (u64, u64) {
    if random.percent(8) {
        let barrier = random.edgy(0, world.offset.min(20_000));
        return (barrier, random.edgy(1, world.deflection));
    }
    let barrier = random.edgy(0, (clear.saturating_sub(2) / 2).min(20_000));
    let room = clear.saturating_sub(barrier + 1) / 2;
    (barrier, random.edgy(1, room.clamp(1, world.deflection)))
}

fn hazard(header: &Header, world: &World, random: &mut Random) -> [u64; FIELDS] {
    let (start, end) = hazard_stations(header, world, random);
    let near = near_offset(header, random);
    let far = near + random.edgy(0, world.offset.min(60_000 - near));
    let level = if random.percent(50) {
        random.between(1, 3)
    } else {
        random.between(1, 6)
    };
    [random.below(2), start, end, near, far, level]
}

/// No approach length is above the greater of LF and LO in whole panels, so a
/// hazard that keeps away from the road's ends by that much stays on it.
fn margin(header: &Header) -> u64 {
    raised(header[LF].max(header[LO]), header[PANEL])
}

fn hazard_stations(header: &Header, world: &World, random: &mut Random) -> (u64, u64) {
    let (begin, end) = (header[A], header[B]);
    let margin = margin(header);
    let room = end - begin > 2 * margin;
    if room && !random.percent(3) {
        return stations(random, begin + margin, end - margin, world.hazard_length);
    }
    stations(random, begin, end, world.hazard_length)
}

/// A start and an end from `low` to `high`.
fn stations(random: &mut Random, low: u64, high: u64, longest: u64) -> (u64, u64) {
    let start = if random.percent(50) {
        random.between(low, high - 1)
    } else {
        random.edgy(low, high - 1)
    };
    (start, random.edgy(start + 1, high.min(start + longest)))
}

/// Mostly behind barrier and deflection and inside the clear zone; at times
/// at the ends of both reaches.
fn near_offset(header: &Header, random: &mut Random) -> u64 {
    let (clear, half) = (header[C], header[W]);
    let least = header[M] + header[D];
    let far_reach = clear.saturating_sub(half);
    let near = match random.below(40) {
        0 => least.saturating_sub(random.below(2)),
        1 => random.edgy(0, 60_000),
        2..=4 => random.edgy(clear, 60_000),
        5..=8 => (far_reach + 1).saturating_sub(random.below(3)).max(least),
        9..=11 => clear.saturating_sub(random.below(2)).max(least),
        12..=25 => random.edgy(least, far_reach),
        _ => random.edgy(least, clear.saturating_sub(1)),
    };
    near.min(60_000)
}

/// Sets T to the length without flare of one approach, next to it, or somewhere
/// between those of the two traffics that reach one hazard.
fn set_straight(draft: &mut Draft, random: &mut Random) {
    let lengths = some_lengths(draft, random, without_flare);
    let straight = match lengths[..] {
        [adjacent, far] if random.percent(40) => {
            random.between(adjacent.min(far), adjacent.max(far))
        }
        [] => return,
        _ => {
            let length = random.pick(&lengths);
            let near = [length, length + 1, length.saturating_sub(1)];
            let other = random.between(length / 2, 2 * length);
            random.pick(&[near[0], near[0], near[1], near[2], near[2], other])
        }
    };
    draft.header[T] = straight.min(100_000);
}

/// The lengths of the approaches to one hazard; none where nobody reaches it.
fn some_lengths(
    draft: &Draft,
    random: &mut Random,
    length: fn(&Job, &Approach) -> u64,
) -> Vec<u64> {
    let Ok(job) = job::read(&draft.bytes()) else {
        return Vec::new();
    };
    if job.hazards.is_empty() {
        return Vec::new();
    }
    let hazard = &job.hazards[random.index(job.hazards.len())];
    envelope::approaches(&job, hazard)
        .iter()
        .map(|approach| length(&job, approach))
        .collect()
}

/// Sets the panel length such that one approach is a multiple of it, or a
/// millimetre to either side of one.
fn set_panel(draft: &mut Draft, random: &mut Random) {
    let lengths = some_lengths(draft, random, envelope::before_raising);
    if lengths.is_empty() {
        return;
    }
    let length = random.pick(&lengths);
    let below = length.saturating_sub(1);
    let multiple = random.pick(&[length, length, length + 1, below]);
    let panels: Vec<u64> = (2..=10_000).filter(|panel| multiple % panel == 0).collect();
    if !panels.is_empty() {
        draft.header[PANEL] = random.pick(&panels);
    }
}

/// Other stations for every hazard, as far from the road's ends as the header
/// wants them now.
fn place_again(draft: &mut Draft, world: &World, random: &mut Random) {
    for hazard in &mut draft.hazards {
        (hazard[S], hazard[E]) = hazard_stations(&draft.header, world, random);
    }
}

/// The length of an approach without flare.
pub fn without_flare(job: &Job, approach: &Approach) -> u64 {
    let runout = envelope::runout(job, approach.direction);
    let flare = envelope::flare(job).without();
    formula(runout, approach.reach, approach.offset, flare)
}

/// Moves some hazards so that their envelopes touch another envelope of their
/// side, or leave a gap of G or next to G.
fn bring_together(draft: &mut Draft, random: &mut Random) {
    for _ in 0..random.between(1, 4) {
        let count = draft.hazards.len();
        let (first, second) = (random.index(count), random.index(count));
        if first != second {
            move_behind(draft, first, second, random);
        }
    }
}

/// Moves the second hazard behind the first's envelope.
pub fn move_behind(
    draft: &mut Draft,
    first: usize,
    second: usize,
    random: &mut Random,
) -> Option<()> {
    draft.hazards[second][SIDE] = draft.hazards[first][SIDE];
    let before = envelope_of(draft, first)?.stretch;
    let moved = envelope_of(draft, second)?.stretch;
    let limit = draft.header[G];
    let gap = random.pick(&[0, 0, 1, limit.saturating_sub(1), limit, limit + 1]);
    let [_, start, end, ..] = draft.hazards[second];
    let new_start = before.end + gap + (start - moved.start);
    let new_end = new_start + (end - start);
    if new_end + margin(&draft.header) <= draft.header[B] {
        draft.hazards[second][S] = new_start;
        draft.hazards[second][E] = new_end;
    }
    Some(())
}

/// The envelope of one hazard that is reached and not refused.
fn envelope_of(draft: &Draft, index: usize) -> Option<Envelope> {
    let alone = Draft {
        header: draft.header,
        hazards: vec![draft.hazards[index]],
    };
    envelopes(&alone)?.first().copied()
}

/// Sets G to a gap of the job or one more, or the road's ends to the ends of
/// its envelopes, one inside, or anywhere outside its hazards.
fn tighten(draft: &mut Draft, random: &mut Random) {
    let Some(envelopes) = envelopes(draft) else {
        return;
    };
    if random.percent(60) {
        tighten_continuity(draft, &envelopes, random);
    }
    if random.percent(30) {
        tighten_road(draft, &envelopes, random);
    }
}

/// The envelopes of an accepted job.
pub fn envelopes(draft: &Draft) -> Option<Vec<Envelope>> {
    let job = job::read(&draft.bytes()).ok()?;
    envelope::envelopes(&job).ok()
}

fn tighten_continuity(draft: &mut Draft, envelopes: &[Envelope], random: &mut Random) {
    let side = random.below(2);
    let of_side: Vec<Envelope> = envelopes
        .iter()
        .copied()
        .filter(|e| e.side == side)
        .collect();
    let set = level::at_level(&of_side, random.between(1, 3));
    let lengths: Vec<u64> = level::gaps(&set).iter().map(Stretch::length).collect();
    if lengths.is_empty() {
        return;
    }
    draft.header[G] = (random.pick(&lengths) + random.below(2)).min(200_000);
}

fn tighten_road(draft: &mut Draft, envelopes: &[Envelope], random: &mut Random) {
    if let (Some(hazards), Some(all)) =
        (taken(&draft.hazards, &[]), taken(&draft.hazards, envelopes))
    {
        draft.header[A] = match random.below(10) {
            0..=1 => all.start + 1,
            2..=4 => random.edgy(all.start, hazards.start),
            _ => all.start,
        };
        draft.header[B] = match random.below(10) {
            0..=1 => all.end - 1,
            2..=4 => random.edgy(hazards.end, all.end),
            _ => all.end,
        };
    }
    if draft.header[A] >= draft.header[B] {
        draft.header[B] = draft.header[A] + 1;
    }
}

/// The least stretch that has all hazards and envelopes; none without hazards.
pub fn taken(hazards: &[[u64; FIELDS]], envelopes: &[Envelope]) -> Option<Stretch> {
    let hazards = hazards
        .iter()
        .map(|hazard| Stretch::new(hazard[S], hazard[E]));
    let all = hazards.chain(envelopes.iter().map(|envelope| envelope.stretch));
    all.reduce(|a, b| Stretch::new(a.start.min(b.start), a.end.max(b.end)))
}

/// Moves some hazards to the road's ends.
pub fn bring_to_road_ends(draft: &mut Draft, random: &mut Random) {
    for _ in 0..random.between(1, 6) {
        if draft.hazards.is_empty() {
            return;
        }
        let hazard = random.index(draft.hazards.len());
        let moved = at_road_ends(draft, draft.hazards[hazard]);
        if !moved.is_empty() {
            draft.hazards[hazard] = random.pick(&moved);
        }
    }
}

/// The hazard moved to each end of the road: so that its envelope ends there, is
/// a millimetre beyond, ends there before it is raised to whole panels, passes
/// it by half of its approach, or by all of it.
pub fn at_road_ends(draft: &Draft, fields: [u64; FIELDS]) -> Vec<[u64; FIELDS]> {
    let alone = draft.clone().with_hazards(&[fields]);
    let Ok(job) = job::read(&alone.bytes()) else {
        return Vec::new();
    };
    let length = fields[E] - fields[S];
    let mut list = Vec::new();
    for approach in envelope::approaches(&job, &job.hazards[0]) {
        let in_panels = envelope::length(&job, &approach);
        let before = envelope::before_raising(&job, &approach);
        let room = job.road_end - job.road_begin - length;
        for away in [
            in_panels,
            in_panels.saturating_sub(1),
            before,
            in_panels / 2,
            0,
        ] {
            let away = away.min(room);
            let mut moved = fields;
            moved[S] = match approach.direction {
                Direction::Forward => job.road_begin + away,
                Direction::Opposite => job.road_end - away - length,
            };
            moved[E] = moved[S] + length;
            list.push(moved);
        }
    }
    list
}

/// A header for large jobs, with room for every hazard between the reaches.
fn large_header(random: &mut Random, end: u64) -> Header {
    let two_way = random.percent(50);
    let opposite = if two_way {
        random.between(1, 100_000)
    } else {
        0
    };
    let [kind, panel] = kind(random, WIDE.panel);
    [
        kind,
        0,
        end,
        random.between(1, 100_000),
        opposite,
        random.between(8_000, 12_000),
        random.between(0, 4_000),
        random.between(0, 3_000),
        random.between(1, 1_000),
        random.between(1, 30),
        random.between(0, 2),
        random.between(0, 50_000),
        0,
        panel,
    ]
}

/// Mostly the right side, so that one side has many hazards.
fn large_hazard(header: &Header, random: &mut Random, start: u64, end: u64) -> [u64; FIELDS] {
    let near = random.between(header[M] + header[D], header[C] + 300);
    let side = u64::from(random.percent(10));
    let far = near + random.below(5_000);
    [side, start, end, near, far, random.between(1, 6)]
}

/// Many hazards whose envelopes overlap, in no order.
pub fn dense(random: &mut Random, count: u64) -> Draft {
    let end = random.between(500_000, 20_000_000);
    let mut draft = Draft {
        header: large_header(random, end),
        hazards: Vec::new(),
    };
    draft.header[G] = random.edgy(0, 200_000);
    let margin = margin(&draft.header);
    for _ in 0..count {
        let (start, end) = stations(random, margin, end - margin, 60_000);
        let hazard = large_hazard(&draft.header, random, start, end);
        draft.hazards.push(hazard);
    }
    draft
}

/// Many hazards far from each other, in no order.
pub fn sparse(random: &mut Random, count: u64) -> Draft {
    let mut draft = Draft {
        header: large_header(random, 2_000_000_000),
        hazards: Vec::new(),
    };
    draft.header[G] = random.between(0, 50_000);
    for index in 0..count {
        let start = 1_000_000 + index * 7_000_000 + random.below(1_000_000);
        let end = start + random.between(1, 3_000_000);
        let mut hazard = large_hazard(&draft.header, random, start, end);
        // A hazard that nobody reaches would leave no run.
        hazard[N] = hazard[N].min(draft.header[C] - 1);
        draft.hazards.push(hazard);
    }
    random.shuffle(&mut draft.hazards);
    draft
}

/// One wide envelope and disjoint higher ones in it, all on one side: with 255
/// higher ones 511 runs. In station order, the wide one first.
pub fn islands(random: &mut Random, side: u64, higher: u64) -> Draft {
    let mut draft = Draft {
        header: large_header(random, 2_000_000_000),
        hazards: Vec::new(),
    };
    draft.header[G] = random.edgy(0, 100_000);
    let header = draft.header;
    let margin = margin(&header);
    let wide_level = random.between(1, 5);
    let wide_start = margin + random.below(1_000);
    let mut start = wide_start;
    for _ in 0..higher {
        // Behind the last envelope, a gap of at least G, and this approach.
        start += margin + header[G] + margin + 1 + random.below(1_000);
        let end = start + random.between(1, 100_000);
        let level = random.between(wide_level + 1, 6);
        draft
            .hazards
            .push(reached(&header, random, side, start, end, level));
        start = end;
    }
    let wide_end = start + margin + 1 + random.below(1_000);
    let wide = reached(&header, random, side, wide_start, wide_end, wide_level);
    draft.hazards.insert(0, wide);
    draft
}

fn reached(
    header: &Header,
    random: &mut Random,
    side: u64,
    start: u64,
    end: u64,
    level: u64,
) -> [u64; FIELDS] {
    let near = random.between(header[M] + header[D], header[C] - 1);
    [side, start, end, near, near + random.below(5_000), level]
}
