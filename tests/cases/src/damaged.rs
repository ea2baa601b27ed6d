//! The family of damaged memory: every call but opening on the memory of an open
//! job that something has changed.

use reference::envelope;
use reference::job::{self, Job};
use reference::memory::{
    self, BYTES, END_AT, FAR_AT, HEADER, HEADER_BYTES, LEVEL_AT, MARK_BYTES, NAME_AT, NEAR_AT,
    NOW_BYTES, NUMBER_BYTES, PLACE_BYTES, PLACES, ROW_BYTES, SIDE_AT, START_AT, STATE_BYTES,
};
use reference::open::{Name, STATES};
use reference::{OpenJob, Stretch};

use crate::Random;
use crate::compare::{Checker, Step};
use crate::draft::{A, B, D, Draft, FIELDS, LEVEL, M, N, PANEL, SIDE, header_range, range};
use crate::families::{KINDS, Outcome, accepted, accepted_of_kind, around};
use crate::jobs;
use crate::open::{
    Difference, Open, Standing, any_name, hazard, random_memory, standing, standing_and_kept, state,
};

pub fn damaged_memory(checker: &mut Checker, random: &mut Random) -> Outcome {
    for kind in KINDS {
        let draft = accepted_of_kind(random, kind, 2, 6);
        let open = standing(checker, random, &draft)?;
        Damage::new(checker, random, &open).whole()?;
        let open = standing_and_kept(checker, random, &draft)?;
        Damage::some(checker, random, &open).states()?;
        let open = kept_alone(checker, open)?;
        Damage::some(checker, random, &open).header()?;
    }
    narrowed_roads(checker, random)?;
    full_memory(checker, random)?;
    let draft = accepted(random, 1, 3);
    let open = standing(checker, random, &draft)?;
    let any = random_memory(random);
    let mut damage = Damage::new(checker, random, &open);
    for memory in [[0; BYTES], [0xFF; BYTES], [1; BYTES], any] {
        damage.ask(memory)?;
    }
    // The right header, and nothing right behind it.
    let mut memory = any;
    memory[..HEADER_BYTES].copy_from_slice(&open.memory[..HEADER_BYTES]);
    damage.ask(memory)
}

/// Nothing stands any more, so that the header is wrong for kept hazards alone.
fn kept_alone(checker: &mut Checker, mut open: Open) -> Result<Open, Difference> {
    let names: Vec<Name> = open.standing.keys().copied().collect();
    for name in names {
        open.withdraw(checker, name)?;
    }
    Ok(open)
}

/// Hazards that stand, then kept ones alone, on a road too narrow.
fn narrowed_roads(checker: &mut Checker, random: &mut Random) -> Outcome {
    for kind in [KINDS; 6].concat() {
        let draft = accepted_of_kind(random, kind, 1, 4);
        let open = standing_and_kept(checker, random, &draft)?;
        Damage::some(checker, random, &open).narrowed_road()?;
        let open = kept_alone(checker, open)?;
        Damage::some(checker, random, &open).narrowed_road()?;
        let open = standing(checker, random, &draft)?;
        Damage::some(checker, random, &open).narrowed_road()?;
    }
    Ok(())
}

/// A row of places: where it begins, the bytes of its count, which stands before
/// it, and its hazards.
struct Row {
    at: usize,
    count_bytes: usize,
    hazards: Standing,
}

impl Row {
    fn place(&self, place: usize) -> usize {
        self.at + PLACE_BYTES * place
    }

    fn count_at(&self) -> usize {
        self.at - self.count_bytes
    }
}

fn rows(open: &Open) -> Vec<Row> {
    let now = Row {
        at: HEADER_BYTES,
        count_bytes: NUMBER_BYTES,
        hazards: open.standing.clone(),
    };
    let kept = open.kept.iter().enumerate();
    let kept = kept.filter_map(|(state, hazards)| {
        Some(Row {
            at: state_at(state) + 2 * MARK_BYTES,
            count_bytes: MARK_BYTES,
            hazards: hazards.clone()?,
        })
    });
    [now].into_iter().chain(kept).collect()
}

/// Where a kept state begins: used, count, places.
fn state_at(state: usize) -> usize {
    NOW_BYTES + STATE_BYTES * state
}

/// Where a field stands in its place, and in how many bytes.
const FIELD_BYTES: [(usize, usize); FIELDS] = [
    (SIDE_AT, 1),
    (START_AT, 8),
    (END_AT, 8),
    (NEAR_AT, 2),
    (FAR_AT, 2),
    (LEVEL_AT, 1),
];

/// So many calls, drawn at random, where all of them would take long.
const SOME: usize = 4;

/// One open job, whose memory is damaged again and again.
struct Damage<'a> {
    checker: &'a mut Checker,
    random: &'a mut Random,
    open: &'a Open,
    /// How many calls are tried on each damaged memory.
    calls: usize,
}

impl Damage<'_> {
    fn new<'a>(checker: &'a mut Checker, random: &'a mut Random, open: &'a Open) -> Damage<'a> {
        Damage {
            checker,
            random,
            open,
            calls: usize::MAX,
        }
    }

    fn some<'a>(checker: &'a mut Checker, random: &'a mut Random, open: &'a Open) -> Damage<'a> {
        Damage {
            calls: SOME,
            ..Damage::new(checker, random, open)
        }
    }

    /// Every part of the open job as it is now.
    fn whole(&mut self) -> Outcome {
        self.header()?;
        self.narrowed_road()?;
        for row in rows(self.open) {
            self.row(&row)?;
        }
        for _ in 0..60 {
            let used = HEADER_BYTES + PLACE_BYTES * (self.open.standing.len() + 1);
            self.flip(used)?;
        }
        Ok(())
    }

    /// Every part of the kept states.
    fn states(&mut self) -> Outcome {
        for row in rows(self.open).iter().skip(1) {
            self.row(row)?;
        }
        for state in 0..STATES {
            for used in [0, 1, 2, 255, 256, 1 << 24, (1 << 32) - 1] {
                self.number(state_at(state), MARK_BYTES, used)?;
            }
            // Something in a state, kept or not.
            for at in [4, 8, 8 + NAME_AT, STATE_BYTES - 1] {
                self.write(state_at(state) + at, &[1])?;
            }
        }
        for _ in 0..60 {
            self.flip(BYTES)?;
        }
        Ok(())
    }

    /// Other bytes in this place of the memory.
    fn write(&mut self, at: usize, bytes: &[u8]) -> Outcome {
        let mut memory = self.open.memory;
        memory[at..at + bytes.len()].copy_from_slice(bytes);
        self.ask(memory)
    }

    /// A number in so many bytes.
    fn number(&mut self, at: usize, size: usize, value: u64) -> Outcome {
        self.write(at, &value.to_le_bytes()[..size])
    }

    fn header_number(&mut self, place: usize, value: u64) -> Outcome {
        self.number(NUMBER_BYTES * place, NUMBER_BYTES, value)
    }

    /// One bit among so many bytes.
    fn flip(&mut self, among: usize) -> Outcome {
        let at = self.random.index(among);
        let byte = self.open.memory[at] ^ 1 << self.random.below(8);
        self.write(at, &[byte])
    }

    /// Every call but opening, with and without another fault, on this memory;
    /// or some of them.
    fn ask(&mut self, memory: [u8; BYTES]) -> Outcome {
        let mut calls = self.questions();
        if self.calls < calls.len() {
            self.random.shuffle(&mut calls);
            calls.truncate(self.calls);
        }
        for call in calls {
            self.checker.step(&mut memory.clone(), call)?;
        }
        self.reach(&memory)
    }

    /// The reach of a name that stood before the damage, or of any.
    fn reach(&mut self, memory: &[u8; BYTES]) -> Outcome {
        let standing: Vec<Name> = self.open.standing.keys().copied().collect();
        let name = match standing.is_empty() || self.random.percent(20) {
            true => any_name(self.random),
            false => self.random.pick(&standing),
        };
        self.checker.open_reach(memory, name)?;
        Ok(())
    }

    fn questions(&mut self) -> Vec<Step> {
        let Open { standing, kept, .. } = self.open;
        let random = &mut *self.random;
        let stands = standing.keys().next().copied().unwrap_or(0);
        let free = (0..=Name::MAX).find(|name| !standing.contains_key(name));
        let free = free.unwrap_or(Name::MAX);
        let good = standing.values().next().copied();
        let good = good.unwrap_or([0, 0, 1, 60_000, 60_000, 1]);
        let mut bad = good;
        bad[random.pick(&[SIDE, LEVEL, N])] = 1 << 20;
        let any = any_name(random);
        let adds = [(free, good), (stands, good), (free, bad), (any, bad)];
        let mut list = adds.map(|(name, fields)| add(name, fields)).to_vec();
        list.extend([stands, free].map(|name| Step::Withdraw { name }));
        for side in 0..3 {
            list.push(Step::Schedule {
                side,
                out_length: random.pick(&[0, 1, 400, 6_000]),
                fill: random.draw(),
            });
        }
        let kept = kept.iter().position(Option::is_some).unwrap_or(0) as u64;
        let above = 8 + random.below(300);
        for state in [kept, state(random), above] {
            list.extend([Step::Keep { state }, Step::Return { state }]);
        }
        list
    }

    /// Each header number at and beyond the ends of its range, and one that is
    /// right in 32 bits.
    fn header(&mut self) -> Outcome {
        let numbers = self.open.header.header;
        for place in 0..HEADER - 1 {
            let mut values = around(header_range(&numbers, place));
            values.extend([numbers[place] | 1 << 32, numbers[place] | 1 << 63]);
            for value in values {
                self.header_number(place, value)?;
            }
        }
        Ok(())
    }

    /// A road that just has every envelope, and one a millimetre shorter; then
    /// one that just has every envelope as it is before it is raised to whole
    /// panels; then one that just has every hazard.
    fn narrowed_road(&mut self) -> Outcome {
        let rows = rows(self.open);
        let hazards: Vec<[u64; FIELDS]> = rows
            .iter()
            .flat_map(|row| row.hazards.values())
            .copied()
            .collect();
        let draft = self.open.header.clone().with_hazards(&hazards);
        let Ok(job) = job::read(&draft.bytes()) else {
            return Ok(());
        };
        let before_raising = Job {
            panel: 1,
            ..job.clone()
        };
        let mut taken = vec![jobs::taken(&hazards, &[])];
        for job in [job, before_raising] {
            let envelopes = envelope::envelopes(&job).expect("the hazards are accepted");
            taken.push(jobs::taken(&hazards, &envelopes));
        }
        for Stretch { start, end } in taken.into_iter().flatten() {
            for (place, value) in [(A, start), (A, start + 1), (B, end), (B, end - 1)] {
                self.header_number(place, value)?;
            }
        }
        // Another panel length, which may leave the road.
        for _ in 0..4 {
            let panel = self.random.edgy(1, 10_000);
            self.header_number(PANEL, panel)?;
        }
        Ok(())
    }

    fn row(&mut self, row: &Row) -> Outcome {
        self.count(row)?;
        self.places(row)?;
        self.names(row)?;
        self.unused_places(row)
    }

    fn count(&mut self, row: &Row) -> Outcome {
        let count = row.hazards.len() as u64;
        // The last is the count itself in a row that has but four bytes for it.
        let more = [
            255,
            256,
            257,
            1 << 8 | count,
            1 << 24 | count,
            1 << 32 | count,
        ];
        let near = [0, 1, count.saturating_sub(1), count + 1];
        for value in near.into_iter().chain(more) {
            self.number(row.count_at(), row.count_bytes, value)?;
        }
        Ok(())
    }

    /// Each field of each hazard at and beyond the ends of its range, too near,
    /// and off the road.
    fn places(&mut self, row: &Row) -> Outcome {
        for (place, fields) in row.hazards.values().enumerate() {
            let job = self.open.header.clone().with_hazards(&[*fields]);
            let numbers = job.numbers();
            let first = numbers.len() - FIELDS;
            let least = numbers[M] + numbers[D];
            for (field, (at, size)) in FIELD_BYTES.into_iter().enumerate() {
                let mut values = around(range(&numbers, first + field));
                // What is right in 32 bits.
                values.push(fields[field] | 1 << 32);
                if field == N {
                    values.extend([least, least - 1]);
                }
                for value in values {
                    self.number(row.place(place) + at, size, value)?;
                }
            }
        }
        Ok(())
    }

    /// Names doubled, exchanged, out of order, and of one byte or two.
    fn names(&mut self, row: &Row) -> Outcome {
        let names: Vec<Name> = row.hazards.keys().copied().collect();
        for (place, name) in names.iter().enumerate() {
            let mut values = vec![name ^ 256, name.swap_bytes(), 0, 255, 256, Name::MAX];
            values.extend(&names);
            values.extend([name.wrapping_sub(1), name.wrapping_add(1)]);
            for value in values {
                self.write(row.place(place) + NAME_AT, &value.to_le_bytes())?;
            }
        }
        for place in 1..names.len() {
            let two = row.place(place - 1)..row.place(place + 1);
            let (first, second) = self.open.memory[two].split_at(PLACE_BYTES);
            self.write(row.place(place - 1), &[second, first].concat())?;
            // One hazard twice.
            self.write(row.place(place), first)?;
        }
        Ok(())
    }

    /// Something in a place that is not used.
    fn unused_places(&mut self, row: &Row) -> Outcome {
        let used = row.place(row.hazards.len());
        let end = row.at + ROW_BYTES;
        let mut places: Vec<usize> = (used..used + PLACE_BYTES).collect();
        places.extend([end - 1, end - PLACE_BYTES, row.place(PLACES - 1) + NAME_AT]);
        for _ in 0..20 {
            places.push(used + self.random.index(end - used));
        }
        for at in places {
            let byte = self.random.pick(&[1, 0x80, 0xFF]);
            self.write(at, &[byte])?;
        }
        // A whole hazard left behind the others.
        let first = self.open.memory[row.place(0)..row.place(1)].to_vec();
        self.write(used, &first)
    }
}

fn add(name: Name, fields: [u64; FIELDS]) -> Step {
    Step::Add {
        name,
        hazard: hazard(fields),
    }
}

/// Damage where all places are used, those of all states too.
fn full_memory(checker: &mut Checker, random: &mut Random) -> Outcome {
    let draft = jobs::sparse(random, 256);
    let mut open = Open::new(checker, random, &draft)?;
    open.standing = spread().zip(draft.hazards.iter().copied()).collect();
    open.kept.fill(Some(open.standing.clone()));
    memory::write(&full(&draft), &mut open.memory);
    let mut damage = Damage::some(checker, random, &open);
    damage.ask(open.memory)?;
    for row in rows(&open) {
        for (at, value) in [
            (row.count_at(), 1),
            (row.count_at(), 255),
            (row.at + ROW_BYTES - 1, 0),
            (row.place(PLACES - 1) + NAME_AT, 254),
        ] {
            damage.write(at, &[value])?;
        }
    }
    Ok(())
}

/// 256 hazards stand, and are kept in all states.
fn full(draft: &Draft) -> OpenJob {
    let mut open =
        OpenJob::open(&draft.clone().with_hazards(&[]).bytes()).expect("a header that is accepted");
    let hazards = draft.hazards.iter().copied().map(hazard);
    open.standing = spread().zip(hazards).collect();
    open.kept.fill(Some(open.standing.clone()));
    open
}

/// 256 names, the first and the last that there are among them.
fn spread() -> impl Iterator<Item = Name> {
    (0..=255).map(|index| 257 * index)
}
