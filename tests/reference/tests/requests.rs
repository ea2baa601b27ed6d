//! Document 02's requests.

mod common;

use common::*;
use reference::job::Hazard;
use reference::random::Random;
use reference::reach::{altered, outside, reach, reach_on};
use reference::{
    Layout, OpenJob, Quantities, Refusal, Tried, add, corners, keep, layout, level, memory, offset,
    open, open_schedule, planned, quantities, quantity, return_to, withdraw,
};
use reference::{Stretch, job, schedule};

// 1: quantities for a whole contract.

/// Runs [0, 100) at 3, [100, 200) at 1 and [300, 400) at 3: K10's two, and a
/// third.
fn contract_schedule() -> Vec<u8> {
    let job = with_envelopes(50, &[(0, 100, 3), (140, 200, 1), (300, 400, 3)]);
    planned(&job.bytes(), 0).unwrap()
}

fn given(records: u64, list: &[u64]) -> Result<Quantities, Refusal> {
    Ok(Quantities {
        records,
        quantities: list.to_vec(),
    })
}

fn refusal(number: u64) -> Result<Quantities, Refusal> {
    Err(Refusal { number, value: 0 })
}

#[test]
fn a_contract_in_one_walk() {
    let schedule = contract_schedule();
    assert_eq!(schedule, [3, 0, 100, 3, 0, 100, 1, 100, 100, 3]);
    // Lots that share a boundary, one that overlaps them, one of them again,
    // one without a millimetre, and the greatest.
    let ranges = [
        0,
        99,
        99,
        301,
        50,
        350,
        0,
        99,
        70,
        70,
        301,
        u64::MAX,
        0,
        u64::MAX,
    ];
    assert_eq!(
        quantities(&schedule, 3, &ranges),
        given(3, &[99, 2, 100, 99, 0, 99, 200])
    );
    assert_eq!(
        quantities(&schedule, 1, &ranges),
        given(3, &[0, 100, 100, 0, 0, 0, 100])
    );
    assert_eq!(quantities(&schedule, 6, &ranges), given(3, &[0; 7]));
}

#[test]
fn a_contract_of_no_ranges_reads_every_record() {
    assert_eq!(quantities(&contract_schedule(), 1, &[]), given(3, &[]));
    assert_eq!(quantities(&[0x00], 6, &[]), given(0, &[]));
    assert_eq!(quantities(&[], 6, &[]), refusal(10));
}

#[test]
fn each_quantity_is_what_the_single_call_gives() {
    let schedule = contract_schedule();
    let mut random = Random::new(1, "contract");
    for _ in 0..2_000 {
        let count = random.below(65);
        let station = |random: &mut Random| random.pick(&[0, 1, 99, 100, 101, 250, 300, 400, 401]);
        let mut ranges = Vec::new();
        for _ in 0..count {
            let (p, q) = (station(&mut random), station(&mut random));
            ranges.extend([p.min(q), p.max(q)]);
        }
        let level = random.between(1, 6);
        let single = |range: &[u64]| quantity(&schedule, level, range[0], range[1]).unwrap();
        let list: Vec<u64> = ranges.chunks(2).map(single).collect();
        assert_eq!(quantities(&schedule, level, &ranges), given(3, &list));
    }
}

#[test]
fn row_11_after_8_and_before_10() {
    let good = contract_schedule();
    let bad = [0x01];
    let most = [5; 128];
    let more = [5; 130];
    assert_eq!(quantities(&good, 3, &most), given(3, &[0; 64]));
    assert_eq!(quantities(&bad, 3, &most), refusal(10));
    for schedule in [&good[..], &bad] {
        assert_eq!(quantities(schedule, 3, &more), refusal(11));
        assert_eq!(quantities(schedule, 3, &[5; 400]), refusal(11));
        assert_eq!(quantities(schedule, 0, &more), refusal(8));
        assert_eq!(quantities(schedule, 7, &more), refusal(8));
        assert_eq!(quantities(schedule, 3, &more[..129]), refusal(8));
        assert_eq!(quantities(schedule, 3, &[5]), refusal(8));
        for turned in [0, 63, 64, 199] {
            let mut ranges = [5; 400];
            ranges[2 * turned] = 6;
            assert_eq!(quantities(schedule, 3, &ranges), refusal(8));
        }
    }
}

// 2: headwalls protected before the flare begins.

/// K1 with another straight part.
fn k1_with(straight: u64) -> Draft {
    printed().with(T, straight)
}

#[test]
fn a_headwall_in_the_straight_part() {
    // Without flare 67,333 and a third, rounded up.
    assert_eq!(k1_with(13_340).right(), [(200_000 - 44_227, 210_000, 3)]);
    assert_eq!(k1_with(60_000).right(), [(200_000 - 64_195, 210_000, 3)]);
    for straight in [67_333, 67_334, 67_335, 80_000, 100_000] {
        let run = (200_000 - 67_334, 210_000, 3);
        assert_eq!(k1_with(straight).right(), [run], "{straight}");
    }
}

/// K4 with K1's flare: both traffics, each with its own R and m.
fn two_way(straight: u64) -> Draft {
    k1_with(straight).with(LO, 101_000).with(W, 3_500)
}

#[test]
fn each_traffic_by_itself() {
    // Far traffic: 28,055 and five ninths without flare.
    let ends = |straight| {
        let right = two_way(straight).right();
        let left = two_way(straight).with_hazard(SIDE, 1).runs(1).unwrap();
        let (start, end, _) = right[0];
        let (mirrored_start, mirrored_end, _) = left[0];
        let lengths = (200_000 - start, end - 210_000);
        assert_eq!((mirrored_end - 210_000, 200_000 - mirrored_start), lengths);
        lengths
    };
    assert_eq!(ends(13_340), (44_227, 21_758), "neither");
    assert_eq!(ends(28_055), (50_524, 28_056), "neither");
    assert_eq!(ends(28_056), (50_524, 28_056), "far traffic");
    assert_eq!(
        ends(30_000),
        (51_356, 28_056),
        "far traffic; 28,888 with flare"
    );
    assert_eq!(ends(67_333), (67_334, 28_056), "far traffic");
    assert_eq!(ends(67_334), (67_334, 28_056), "both");
    assert_eq!(ends(100_000), (67_334, 28_056), "both");
}

#[test]
fn a_straight_approach_keeps_the_envelope_on_the_road() {
    // With flare the approach would be 72,755 long and leave the road.
    let before = |start| k1_with(80_000).with_hazard(S, start).overhangs(0);
    assert_eq!(before(67_334), (0, 0));
    assert_eq!(before(67_333), (1, 0));
}

#[test]
fn without_flare_the_straight_part_changes_nothing() {
    for straight in [0, 67_333, 67_334, 100_000] {
        let k2 = k1_with(straight).with(FLARE_B, 0);
        assert_eq!(k2.right(), [(200_000 - 67_334, 210_000, 3)]);
    }
}

// 3: hazards that come and go while the job is open.

/// The printed job's header, opened.
fn opened() -> Vec<u8> {
    opened_in(PRINTED)
}

fn opened_in(header: Draft) -> Vec<u8> {
    let mut memory = vec![0xA5; memory::BYTES];
    assert_eq!(open(&mut memory, &header.bytes()), Ok(0));
    memory
}

/// What is refused alters nothing.
fn refused(memory: &mut [u8], call: impl Fn(&mut [u8]) -> Result<u64, Refusal>) -> (u64, u64) {
    let before = memory.to_vec();
    let Refusal { number, value } = call(memory).unwrap_err();
    assert_eq!(memory, before);
    (number, value)
}

fn schedule(memory: &[u8], side: u64) -> Vec<u8> {
    let mut out = vec![0; 6_000];
    let planned = open_schedule(memory, side, &mut out).unwrap();
    out.truncate(planned.written as usize);
    out
}

#[test]
fn the_memory_byte_by_byte() {
    let mut memory = opened();
    assert_eq!(memory.len(), 55_544);
    let header = [
        1, 0, 1_000_000, 101_000, 0, 9_000, 0, 3_000, 1_000, 15, 1, 13_340, 0, 1, 0u64,
    ];
    assert_eq!(memory[..120], header.map(u64::to_le_bytes).concat());
    assert!(memory[120..].iter().all(|byte| *byte == 0));

    let second = [1, 300_000, 310_001, 5_001, 60_000, 6];
    assert_eq!(add(&mut memory, 255, hazard(PRINTED_HAZARD)), Ok(0));
    assert_eq!(add(&mut memory, 7, hazard(second)), Ok(0));
    assert_eq!(memory[112..120], 2u64.to_le_bytes());
    let stations = [300_000, 310_001u64].map(u64::to_le_bytes);
    assert_eq!(memory[120..136], stations.concat());
    let offsets = [5_001, 60_000u16].map(u16::to_le_bytes);
    assert_eq!(memory[136..140], offsets.concat());
    assert_eq!(memory[140..144], [7, 0, 1, 6]);
    let stations = [200_000, 210_000u64].map(u64::to_le_bytes);
    assert_eq!(memory[144..160], stations.concat());
    let offsets = [5_000, 9_000u16].map(u16::to_le_bytes);
    assert_eq!(memory[160..164], offsets.concat());
    assert_eq!(memory[164..168], [255, 0, 0, 3]);
    assert!(memory[168..].iter().all(|byte| *byte == 0));

    // A withdrawal closes the row and clears the place behind it.
    assert_eq!(withdraw(&mut memory, 7), Ok(0));
    assert_eq!(memory[144..168], [0; 24]);
    assert_eq!(memory[140..144], [255, 0, 0, 3]);
    assert_eq!(withdraw(&mut memory, 255), Ok(0));
    assert_eq!(memory, opened());
}

#[test]
fn opening_takes_a_job_without_hazards() {
    let mut memory = vec![0xA5; memory::BYTES];
    let mut opening = |bytes: &[u8]| refused(&mut memory, |memory| open(memory, bytes));
    let bytes = PRINTED.bytes();
    let count_at = bytes.len() - 1;
    assert_eq!(opening(&[]), (1, 0));
    assert_eq!(opening(&bytes[..count_at]), (1, count_at as u64));
    assert_eq!(opening(&[0x81, 0x00]), (2, 0));
    assert_eq!(opening(&PRINTED.with(C, 0).bytes()), (3, 6));
    assert_eq!(
        opening(&[&bytes[..], &[0x00]].concat()),
        (7, bytes.len() as u64)
    );
    // A hazard count above 0 is 3, at its number: nothing behind it is read.
    assert_eq!(opening(&printed().bytes()), (3, 14));
    assert_eq!(opening(&[&bytes[..count_at], &[0x01]].concat()), (3, 14));
    assert_eq!(
        opening(&[&bytes[..count_at], &[0x80, 0x02]].concat()),
        (3, 14)
    );
    assert_eq!(
        opening(&[&bytes[..count_at], &[0x81, 0x02, 0xFF]].concat()),
        (3, 14)
    );
    assert_eq!(
        opening(&[&bytes[..count_at], &[0x81, 0x00]].concat()),
        (2, count_at as u64)
    );
}

#[test]
fn the_schedule_is_that_of_the_hazards_that_stand() {
    let mut memory = opened();
    assert_eq!(schedule(&memory, 0), [0x00]);
    assert_eq!(add(&mut memory, 40, hazard(PRINTED_HAZARD)), Ok(0));
    assert_eq!(
        schedule(&memory, 0),
        planned(&printed().bytes(), 0).unwrap()
    );
    assert_eq!(schedule(&memory, 1), [0x00]);
    let left = [1, 400_000, 410_000, 5_000, 9_000, 2];
    assert_eq!(add(&mut memory, 0, hazard(left)), Ok(0));
    let both = PRINTED.with_hazards(&[PRINTED_HAZARD, left]).bytes();
    for side in 0..2 {
        assert_eq!(schedule(&memory, side), planned(&both, side).unwrap());
    }
    assert_eq!(withdraw(&mut memory, 40), Ok(0));
    assert_eq!(schedule(&memory, 0), [0x00]);
    assert_eq!(
        add(&mut memory, 40, hazard(left)),
        Ok(0),
        "the name comes back"
    );
    // 8, then 9 with the bytes needed.
    let mut out = [0xA5; 7];
    let mut asked = |side, length: usize| open_schedule(&memory, side, &mut out[..length]);
    assert_eq!(
        asked(2, 0),
        Err(Refusal {
            number: 8,
            value: 0
        })
    );
    assert_eq!(
        asked(1, 0),
        Err(Refusal {
            number: 9,
            value: 8
        })
    );
    assert_eq!(
        asked(1, 7),
        Err(Refusal {
            number: 9,
            value: 8
        })
    );
    assert_eq!(out, [0xA5; 7]);
}

#[test]
fn refusals_by_name() {
    let mut memory = opened();
    assert_eq!(add(&mut memory, 9, hazard(PRINTED_HAZARD)), Ok(0));
    let mut adding = |name, field: usize, value| {
        let mut fields = PRINTED_HAZARD;
        fields[field] = value;
        refused(&mut memory, |memory| add(memory, name, hazard(fields)))
    };
    assert_eq!(adding(200, SIDE, 2), (4, 200));
    assert_eq!(adding(200, SIDE, 1 << 32), (4, 200));
    assert_eq!(adding(200, S, 210_000), (4, 200));
    assert_eq!(adding(200, S, 1 << 33), (4, 200));
    assert_eq!(adding(0, E, 1_000_001), (4, 0));
    assert_eq!(adding(255, E, (1 << 32) + 210_000), (4, 255));
    assert_eq!(adding(255, N, 9_001), (4, 255));
    assert_eq!(adding(255, F, 60_001), (4, 255));
    assert_eq!(adding(255, LEVEL, 0), (4, 255));
    assert_eq!(adding(255, LEVEL, 7), (4, 255));
    assert_eq!(adding(255, LEVEL, 256 + 3), (4, 255));
    assert_eq!(adding(8, N, 3_999), (5, 8));
    // A name that stands comes before 4.
    assert_eq!(adding(9, SIDE, 2), (12, 9));
    assert_eq!(adding(9, N, 3_999), (12, 9));
    assert_eq!(adding(9, LEVEL, 3), (12, 9));
    assert_eq!(refused(&mut memory, |memory| withdraw(memory, 8)), (12, 8));
    assert_eq!(withdraw(&mut memory, 9), Ok(0));
    assert_eq!(refused(&mut memory, |memory| withdraw(memory, 9)), (12, 9));
}

/// 5 is for a hazard that somebody reaches, whether it leaves the road or not.
#[test]
fn too_near_by_name() {
    let mut memory = opened();
    let off_and_near = hazard([0, 1_000, 210_000, 3_999, 9_000, 3]);
    assert_eq!(
        refused(&mut memory, |memory| add(memory, 77, off_and_near)),
        (5, 77)
    );
    let unreached = hazard([0, 0, 1_000_000, 9_000, 60_000, 3]);
    assert_eq!(add(&mut memory, 77, unreached), Ok(0));
    assert_eq!(schedule(&memory, 0), [0x00]);
}

#[test]
fn all_names_of_a_byte_may_stand() {
    let mut memory = opened();
    let mut list = Vec::new();
    for name in 0..=255 {
        let start = 200_000 + 100 * u64::from(name);
        let fields = [
            u64::from(name) % 2,
            start,
            start + 50,
            5_000,
            9_000,
            1 + start % 6,
        ];
        assert_eq!(add(&mut memory, name, hazard(fields)), Ok(0));
        list.push(fields);
    }
    let job = PRINTED.with_hazards(&list).bytes();
    for side in 0..2 {
        assert_eq!(schedule(&memory, side), planned(&job, side).unwrap());
    }
    for name in 0..=255 {
        let again = |memory: &mut [u8]| add(memory, name, hazard(PRINTED_HAZARD));
        assert_eq!(refused(&mut memory, again), (12, name.into()));
    }
    for name in (0..=255).rev() {
        assert_eq!(withdraw(&mut memory, name), Ok(0));
    }
    assert_eq!(memory, opened());
}

/// Every call but opening is refused 3 with 0, whatever else is wrong.
fn broken(memory: &[u8]) -> bool {
    let mut memory = memory.to_vec();
    let bad = Hazard {
        side: 2,
        ..hazard(PRINTED_HAZARD)
    };
    let replies = [
        add(&mut memory, 1, hazard(PRINTED_HAZARD)),
        add(&mut memory, 2, bad),
        withdraw(&mut memory, 200),
        withdraw(&mut memory, 7),
        open_schedule(&memory, 0, &mut [0; 100]).map(|planned| planned.written),
        open_schedule(&memory, 2, &mut []).map(|planned| planned.written),
        keep(&mut memory, 0),
        keep(&mut memory, 8),
        return_to(&mut memory, 0),
        return_to(&mut memory, u64::MAX),
    ];
    let refusal = Err(Refusal {
        number: 3,
        value: 0,
    });
    let all = replies.iter().all(|reply| *reply == refusal);
    let any = replies.contains(&refusal);
    assert_eq!(all, any);
    // Opening makes it right again.
    assert_eq!(open(&mut memory, &PRINTED.bytes()), Ok(0));
    assert_eq!(memory, opened());
    all
}

/// The same with two hazards: from 300,000 under 7, from 200,000 under 9.
fn two_standing(header: Draft) -> Vec<u8> {
    let mut memory = opened_in(header);
    for (name, start) in [(7, 300_000), (9, 200_000)] {
        let fields = [0, start, start + 10_000, 5_000, 9_000, 3];
        assert_eq!(add(&mut memory, name, hazard(fields)), Ok(0));
    }
    assert!(!broken(&memory));
    memory
}

/// Whether memory with these bytes in this place is broken.
fn broken_with(right: &[u8], at: usize, bytes: &[u8]) -> bool {
    let mut memory = right.to_vec();
    memory[at..at + bytes.len()].copy_from_slice(bytes);
    broken(&memory)
}

/// Whether memory with another header number is broken; numbers from 1.
fn broken_with_number(right: &[u8], no: usize, value: u64) -> bool {
    broken_with(right, 8 * (no - 1), &value.to_le_bytes())
}

#[test]
fn memory_that_breaks_the_rules() {
    let right = two_standing(PRINTED);
    let with = |at: usize, bytes: &[u8]| broken_with(&right, at, bytes);
    let number = |no: usize, value: u64| broken_with_number(&right, no, value);
    assert!(number(1, 0) && number(1, 3) && !number(1, 1) && !number(1, 2));
    assert!(number(1, (1 << 32) + 1) && number(1, (1 << 63) + 1));
    assert!(number(2, 1_000_000) && !number(2, 100_000));
    assert!(number(2, 1 << 32) && number(2, u64::MAX));
    assert!(number(3, 0) && number(3, 2_000_000_001) && !number(3, 2_000_000_000));
    assert!(number(3, 1_000_000_000_000) && number(3, (1 << 32) + 1_000_000));
    assert!(number(4, 0) && number(4, 200_001) && !number(4, 200_000));
    assert!(number(6, 0) && number(6, 30_001));
    assert!(number(10, 0) && number(10, 101) && !number(10, 100));
    assert!(number(11, 11) && !number(11, 10));
    assert!(number(13, 200_001) && !number(13, 200_000));
    // Kind 1 has no panel length: no opening leaves another than 1.
    assert!(number(14, 0) && number(14, 2) && number(14, 10_000) && !number(14, 1));
    // The count: a hazard too few or too many.
    assert!(number(15, 0) && number(15, 1) && number(15, 3));
    assert!(number(15, 257) && number(15, (1 << 32) + 2) && number(15, u64::MAX));
    // A header under which a hazard is refused 5 or 4; an envelope is cut.
    assert!(number(8, 4_001) && !number(8, 4_000));
    assert!(number(2, 200_001) && !number(2, 200_000) && !number(2, 155_774));
    assert!(number(3, 309_999) && !number(3, 310_000));
    // Names.
    assert!(with(140, &[9]) && with(140, &[10]) && !with(140, &[8]));
    assert!(with(164, &[7, 0]) && with(164, &[6, 0]) && !with(164, &[255, 255]));
    assert!(with(140, &[9, 1]) && with(140, &[0, 1]) && !with(164, &[0, 1]));
    // Hazards.
    assert!(with(142, &[2]) && !with(142, &[1]));
    assert!(with(143, &[0]) && with(143, &[7]) && !with(143, &[6]));
    let offset = |at: usize, value: u16| with(at, &value.to_le_bytes());
    assert!(offset(136, 3_999) && !offset(136, 4_000) && offset(136, 9_001));
    assert!(offset(138, 60_001) && !offset(138, 60_000) && offset(138, 4_999));
    let station = |at: usize, value: u64| with(at, &value.to_le_bytes());
    assert!(station(120, 310_000) && !station(120, 309_999) && !station(120, 0));
    assert!(station(128, 300_000) && !station(128, 300_001) && !station(128, 1_000_000));
    assert!(station(128, 1_000_001) && station(128, (1 << 32) + 310_000));
    // Places that are not used.
    for at in [168, 191, 192, 3_000, 6_263, 6_268, 6_272, 55_479] {
        assert!(with(at, &[1]) && !with(at, &[0]));
    }
    assert!(broken(&[0; memory::BYTES]) && broken(&[0xFF; memory::BYTES]));
}

#[test]
fn lists_of_calls() {
    let mut random = Random::new(1, "lists of calls");
    for round in 0..300 {
        let header = match round % 2 {
            0 => PRINTED,
            _ => PRINTED.in_panels(random.between(1, 10_000)),
        };
        let mut open = OpenJob::open(&header.bytes()).unwrap();
        let mut list: Vec<(u16, [u64; 6])> = Vec::new();
        let mut kept = vec![None; 8];
        for _ in 0..40 {
            let state = random.below(9);
            match random.below(10) {
                0 if open.keep(state).is_ok() => kept[state as usize] = Some(list.clone()),
                1 if open.return_to(state).is_ok() => {
                    list = kept[state as usize].clone().expect("a state that was kept");
                }
                _ => (),
            }
            let name = random.pick(&[0, 1, 2, 255, 256, 258, 65_535]);
            let start = random.between(40_000, 60_000);
            let near = random.between(3_990, 4_020);
            let fields = [
                random.below(2),
                start,
                start + 5,
                near,
                9_000,
                random.between(1, 7),
            ];
            if random.percent(70) && open.add(name, hazard(fields)).is_ok() {
                list.push((name, fields));
            } else if open.withdraw(name).is_ok() {
                list.retain(|(standing, _)| *standing != name);
            }
        }
        random.shuffle(&mut list);
        let hazards: Vec<[u64; 6]> = list.into_iter().map(|(_, fields)| fields).collect();
        let job = header.with_hazards(&hazards).bytes();
        let mut memory = vec![0; memory::BYTES];
        memory::write(&open, &mut memory);
        assert_eq!(memory::read(&memory), Some(open));
        for side in 0..2 {
            assert_eq!(schedule(&memory, side), planned(&job, side).unwrap());
        }
    }
}

// 4: approaches in whole panels.

#[test]
fn an_approach_in_whole_panels() {
    // 44,227 is 47 panels of 941.
    for (panel, length) in [
        (1, 44_227),
        (2, 44_228),
        (940, 45_120),
        (941, 44_227),
        (942, 44_274),
        (4_000, 48_000),
        (10_000, 50_000),
    ] {
        let run = (200_000 - length, 210_000, 3);
        assert_eq!(printed().in_panels(panel).right(), [run], "{panel}");
    }
}

#[test]
fn a_straight_approach_in_whole_panels() {
    // The straight part is asked before the raising: 67,334 is at most T.
    for straight in [67_334, 80_000] {
        let run = (200_000 - 70_000, 210_000, 3);
        assert_eq!(k1_with(straight).in_panels(10_000).right(), [run]);
    }
    // A length that is a multiple already stays: 67,334 is 131 panels of 514.
    let run = (200_000 - 67_334, 210_000, 3);
    assert_eq!(k1_with(80_000).in_panels(514).right(), [run]);
}

/// K4 in whole panels: 67,334 of adjacent traffic, 28,056 of far traffic.
fn k4_in_panels(length: u64) -> Draft {
    two_way(0).with(FLARE_B, 0).in_panels(length)
}

#[test]
fn each_traffic_raised_by_itself() {
    let both = |length| {
        let job = k4_in_panels(length);
        let left = job.clone().with_hazard(SIDE, 1).runs(1).unwrap();
        (job.right()[0], left[0])
    };
    let (right, left) = both(4_000);
    assert_eq!(right, (200_000 - 68_000, 210_000 + 32_000, 3));
    assert_eq!(left, (200_000 - 32_000, 210_000 + 68_000, 3));
    // One of them a multiple already.
    let (right, left) = both(514);
    assert_eq!(right, (200_000 - 67_334, 210_000 + 28_270, 3));
    assert_eq!(left, (200_000 - 28_270, 210_000 + 67_334, 3));
}

#[test]
fn a_raised_envelope_can_leave_the_road() {
    let before = |start| k4_in_panels(4_000).with_hazard(S, start);
    for (start, overhang) in [(68_000, 0), (67_999, 1), (67_334, 666)] {
        assert_eq!(before(start).right(), [(0, 242_000, 3)]);
        assert_eq!(before(start).overhangs(0), (overhang, 0));
    }
    let behind = |end| k4_in_panels(4_000).with(B, end);
    for (end, overhang) in [(242_000, 0), (241_999, 1), (238_056, 3_944)] {
        assert_eq!(behind(end).right(), [(132_000, end, 3)]);
        assert_eq!(behind(end).overhangs(0), (0, overhang));
    }
}

#[test]
fn gaps_between_raised_envelopes() {
    let apart = |gap: u64| {
        let second = 210_000 + gap + 48_000;
        let job = PRINTED.with(G, 50_000).in_panels(4_000);
        job.with_hazards(&[
            [0, 200_000, 210_000, 5_000, 9_000, 2],
            [0, second, second + 1_000, 5_000, 9_000, 2],
        ])
    };
    assert_eq!(apart(49_999).right(), [(152_000, 308_999, 2)]);
    let (first, second) = ((152_000, 210_000, 2), (260_000, 309_000, 2));
    assert_eq!(apart(50_000).right(), [first, second]);
}

/// Each refusal of the header has the number of kind 2.
#[test]
fn the_header_of_kind_2() {
    let in_panels = printed().in_panels(4_000);
    assert_eq!(in_panels.clone().in_panels(0).refused(), (3, 14));
    assert_eq!(in_panels.clone().in_panels(10_001).refused(), (3, 14));
    assert_eq!(in_panels.clone().with(G, 200_001).refused(), (3, 13));
    let mut numbers = in_panels.numbers();
    numbers[14] = 257;
    let refusal = planned(&number_bytes(&numbers), 0).unwrap_err();
    assert_eq!((refusal.number, refusal.value), (3, 15));
}

#[test]
fn an_open_job_in_whole_panels() {
    let mut memory = opened_in(PRINTED.in_panels(4_000));
    assert_eq!(memory[..8], 2u64.to_le_bytes());
    let panel_and_count = [4_000, 0u64].map(u64::to_le_bytes);
    assert_eq!(memory[104..120], panel_and_count.concat());
    assert_eq!(add(&mut memory, 3, hazard(PRINTED_HAZARD)), Ok(0));
    let job = printed().in_panels(4_000).bytes();
    assert_eq!(schedule(&memory, 0), planned(&job, 0).unwrap());
    // On the road before raising.
    let cut = [0, 44_227, 210_000, 5_000, 9_000, 3];
    assert_eq!(add(&mut memory, 4, hazard(cut)), Ok(0));
    let planned = open_schedule(&memory, 0, &mut [0; 100]).unwrap();
    assert_eq!((planned.before, planned.after), (48_000 - 44_227, 0));
}

#[test]
fn opening_in_whole_panels() {
    let header = PRINTED.in_panels(4_000);
    let mut memory = opened();
    let mut opening = |bytes: &[u8]| refused(&mut memory, |memory| open(memory, bytes));
    let bytes = header.bytes();
    let count_at = bytes.len() - 1;
    assert_eq!(opening(&bytes[..count_at]), (1, count_at as u64));
    assert_eq!(opening(&[&bytes[..count_at], &[0x01]].concat()), (3, 15));
    assert_eq!(opening(&printed().in_panels(4_000).bytes()), (3, 15));
    for panel in [0, 10_001] {
        assert_eq!(opening(&PRINTED.in_panels(panel).bytes()), (3, 14));
    }
    // Panel length 1 stays of kind 2, although it acts as kind 1.
    let memory = opened_in(PRINTED.in_panels(1));
    assert_eq!(memory[..8], 2u64.to_le_bytes());
    assert_eq!(memory[8..], opened()[8..]);
}

#[test]
fn memory_in_whole_panels() {
    let right = two_standing(PRINTED.in_panels(4_000));
    let number = |no: usize, value: u64| broken_with_number(&right, no, value);
    assert!(number(14, 0) && number(14, 10_001) && number(14, (1 << 32) + 1));
    assert!(!number(14, 1) && !number(14, 10_000));
    assert!(number(1, 0) && number(1, 1) && number(1, 3), "kind");
    // The hazard at 200,000 has a raised approach of 48,000, which is cut.
    assert!(!number(2, 152_001) && !number(2, 200_000) && number(2, 200_001));
}

// 5: the level under the inspector's feet.

/// The levels of the right side at these stations.
fn levels(job: &Draft, stations: &[u64]) -> Vec<u64> {
    let at = |station: &u64| level(&job.bytes(), 0, *station).unwrap();
    stations.iter().map(at).collect()
}

#[test]
fn the_level_at_an_envelope_s_ends() {
    let stations = [0, 155_772, 155_773, 209_999, 210_000, 1 << 32, u64::MAX];
    assert_eq!(levels(&printed(), &stations), [0, 0, 3, 3, 0, 0, 0]);
    // The same station in 32 bits.
    assert_eq!(levels(&printed(), &[(1 << 32) + 200_000]), [0]);
    let in_panels = printed().in_panels(4_000);
    assert_eq!(levels(&in_panels, &[151_999, 152_000]), [0, 3]);
    let left = level(&printed().bytes(), 1, 200_000);
    assert_eq!(left, Ok(0), "the other side");
}

#[test]
fn the_level_in_a_gap() {
    let stations = [99, 100, 120, 139, 140, 199, 200, 239, 240, 299, 300];
    let envelopes = [(0, 100, 3), (140, 200, 1), (240, 300, 2)];
    let at = |continuity| levels(&with_envelopes(continuity, &envelopes), &stations);
    assert_eq!(at(40), [3, 0, 0, 0, 1, 1, 0, 0, 2, 2, 0], "gaps of G stay");
    assert_eq!(at(41), [3, 1, 1, 1, 1, 1, 1, 1, 2, 2, 0]);
    // At level 2 the gap goes from 100 to 240.
    assert_eq!(at(140), [3, 1, 1, 1, 1, 1, 1, 1, 2, 2, 0]);
    assert_eq!(at(141), [3, 2, 2, 2, 2, 2, 2, 2, 2, 2, 0]);
}

#[test]
fn the_level_refused_as_plan_without_9() {
    let refused = |job: &[u8], side| {
        let Refusal { number, value } = level(job, side, 0).unwrap_err();
        (number, value)
    };
    let whole = printed().bytes();
    assert_eq!(refused(&[], 2), (8, 0), "8 comes first");
    assert_eq!(refused(&whole, u64::MAX), (8, 0));
    assert_eq!(refused(&[], 0), (1, 0));
    assert_eq!(refused(&[0x81, 0x00], 0), (2, 0));
    assert_eq!(refused(&printed().with(C, 0).bytes(), 0), (3, 6));
    assert_eq!(refused(&printed().with_hazard(LEVEL, 7).bytes(), 0), (4, 0));
    // Of both sides' hazards.
    for side in 0..2 {
        assert_eq!(
            refused(&printed().with_hazard(N, 3_999).bytes(), side),
            (5, 0)
        );
    }
    let left_over = [&whole[..], &[0x00]].concat();
    assert_eq!(refused(&left_over, 0), (7, whole.len() as u64));
}

// 7: named states of an open job.

/// The names that stand.
fn names(memory: &[u8]) -> Vec<u16> {
    let open = memory::read(memory).expect("it is an open job");
    open.standing.into_keys().collect()
}

#[test]
fn a_variant_is_tried_and_left() {
    let mut memory = two_standing(PRINTED.in_panels(4_000));
    let first = memory.clone();
    assert_eq!(keep(&mut memory, 3), Ok(0));
    let kept = memory.clone();
    assert_eq!(memory[..6_264], first[..6_264], "what stands stays");
    assert_eq!(withdraw(&mut memory, 7), Ok(0));
    assert_eq!(withdraw(&mut memory, 9), Ok(0));
    assert_eq!(add(&mut memory, 9, hazard(PRINTED_HAZARD)), Ok(0));
    assert_eq!(memory[6_264..], kept[6_264..], "what is kept stays");
    assert_eq!(keep(&mut memory, 0), Ok(0));
    assert_eq!(names(&memory), [9]);
    assert_eq!(return_to(&mut memory, 3), Ok(0));
    assert_eq!(schedule(&memory, 0), schedule(&first, 0));
    assert_eq!(memory[..6_264], first[..6_264]);
    // A return does not use its state up, and leaves the others.
    assert_eq!(return_to(&mut memory, 0), Ok(0));
    assert_eq!(names(&memory), [9]);
    assert_eq!(return_to(&mut memory, 3), Ok(0));
    assert_eq!(names(&memory), [7, 9]);
}

#[test]
fn keeping_under_a_used_number_replaces_it() {
    let mut memory = two_standing(PRINTED);
    assert_eq!(keep(&mut memory, 7), Ok(0));
    assert_eq!(withdraw(&mut memory, 7), Ok(0));
    assert_eq!(keep(&mut memory, 7), Ok(0));
    assert_eq!(withdraw(&mut memory, 9), Ok(0));
    assert_eq!(return_to(&mut memory, 7), Ok(0));
    assert_eq!(names(&memory), [9]);
}

#[test]
fn an_empty_job_can_be_kept() {
    let mut memory = opened();
    assert_eq!(keep(&mut memory, 5), Ok(0));
    assert_eq!(add(&mut memory, 1, hazard(PRINTED_HAZARD)), Ok(0));
    assert_eq!(return_to(&mut memory, 5), Ok(0));
    assert_eq!(names(&memory), []);
    // Without the mark of the kept state it is a job just opened.
    memory[6_264 + 5 * 6_160] = 0;
    assert_eq!(memory, opened());
}

#[test]
fn the_kept_states_byte_by_byte() {
    let mut memory = two_standing(PRINTED);
    assert_eq!(keep(&mut memory, 0), Ok(0));
    assert_eq!(keep(&mut memory, 7), Ok(0));
    for state in [6_264, 49_384] {
        assert_eq!(memory[state..state + 8], 1u64.to_le_bytes(), "used");
        assert_eq!(memory[state + 8..state + 16], 2u64.to_le_bytes(), "count");
        assert_eq!(
            memory[state + 16..state + 6_160],
            memory[120..6_264],
            "places"
        );
    }
    assert!(memory[12_424..49_384].iter().all(|byte| *byte == 0));
    assert_eq!(memory.len(), 49_384 + 6_160);
}

#[test]
fn opening_empties_all_states() {
    let mut memory = two_standing(PRINTED);
    for state in 0..8 {
        assert_eq!(keep(&mut memory, state), Ok(0));
    }
    assert_eq!(open(&mut memory, &PRINTED.bytes()), Ok(0));
    assert_eq!(memory, opened());
    for state in 0..8 {
        let returning = |memory: &mut [u8]| return_to(memory, state);
        assert_eq!(refused(&mut memory, returning), (13, 0));
    }
}

#[test]
fn row_13() {
    let mut memory = two_standing(PRINTED);
    assert_eq!(keep(&mut memory, 1), Ok(0));
    for state in [
        8,
        9,
        255,
        256,
        257,
        1 << 32,
        (1 << 32) + 1,
        1 << 63,
        u64::MAX,
    ] {
        assert_eq!(refused(&mut memory, |m| keep(m, state)), (13, 0));
        assert_eq!(refused(&mut memory, |m| return_to(m, state)), (13, 0));
    }
    for state in [0, 2, 7] {
        assert_eq!(refused(&mut memory, |m| return_to(m, state)), (13, 0));
    }
}

/// The test of the memory takes in the kept names and hazards, for every call.
#[test]
fn kept_states_that_break_the_rules() {
    let mut right = two_standing(PRINTED.in_panels(4_000));
    assert_eq!(keep(&mut right, 2), Ok(0));
    assert_eq!(withdraw(&mut right, 7), Ok(0));
    assert_eq!(withdraw(&mut right, 9), Ok(0));
    assert!(!broken(&right));
    let state = 6_264 + 2 * 6_160;
    let with = |at: usize, bytes: &[u8]| broken_with(&right, state + at, bytes);
    let offset = |at: usize, value: u16| with(at, &value.to_le_bytes());
    let number = |at: usize, value: u64| with(at, &value.to_le_bytes());
    // Used and count.
    assert!(number(0, 0) && number(0, 2) && number(0, 256) && !number(0, 1));
    assert!(number(8, 0) && number(8, 1) && number(8, 3) && number(8, 257));
    // Names.
    assert!(with(36, &[9]) && with(36, &[10]) && !with(36, &[8]));
    assert!(with(60, &[7, 0]) && with(36, &[7, 1]) && !with(60, &[255, 255]));
    // Hazards under the one header: 4 and 5; an envelope is cut.
    assert!(with(38, &[2]) && with(39, &[0]) && with(39, &[7]) && !with(39, &[6]));
    assert!(offset(32, 3_999) && !offset(32, 4_000));
    assert!(number(16, 310_000) && !number(16, 309_999) && !number(16, 0));
    assert!(number(16, 1 << 32) && number(24, (1 << 32) + 310_000));
    assert!(broken_with_number(&right, 2, 200_001));
    assert!(!broken_with_number(&right, 2, 200_000));
    // Places that are not used, and a state that is not kept.
    for at in [64, 6_159] {
        assert!(with(at, &[1]) && !with(at, &[0]));
    }
    let next = 6_160;
    assert!(!number(next, 1), "an empty job kept");
    assert!(number(next, 2) && number(next + 8, 1) && with(next + 16, &[1]));
}

// 8: approaches that run into the neighbouring contract.

/// K4 with K4's hazard moved; 67,334 of adjacent traffic, 28,056 of far traffic.
fn k4_at(side: u64, start: u64, end: u64) -> Draft {
    let job = two_way(0).with(FLARE_B, 0);
    job.with_hazards(&[[side, start, end, 5_000, 9_000, 3]])
}

#[test]
fn envelopes_are_cut_at_both_ends() {
    let last = 1_000_000;
    let right = |start, end| {
        let job = k4_at(0, start, end);
        (job.right(), job.overhangs(0))
    };
    assert_eq!(
        right(67_334, last - 28_056),
        (vec![(0, last, 3)], (0, 0)),
        "from A to B"
    );
    assert_eq!(
        right(67_333, last - 28_055),
        (vec![(0, last, 3)], (1, 1)),
        "a millimetre beyond"
    );
    assert_eq!(
        right(0, last),
        (vec![(0, last, 3)], (67_334, 28_056)),
        "both approaches whole"
    );
    assert_eq!(right(0, 1), (vec![(0, 28_057, 3)], (67_334, 0)));
    let run = (last - 1 - 67_334, last, 3);
    assert_eq!(right(last - 1, last), (vec![run], (0, 28_056)));
    // On the left the lengths are exchanged.
    let left = k4_at(1, 0, last);
    assert_eq!(left.runs(1).unwrap(), [(0, last, 3)]);
    assert_eq!(left.overhangs(1), (28_056, 67_334));
}

/// Stations far from 0: the overhang is counted from A, not from station 0.
#[test]
fn overhangs_are_counted_from_the_road_s_ends() {
    let road = |begin, end| printed().with(FLARE_B, 0).with(A, begin).with(B, end);
    let cut = road(200_000, 210_000);
    assert_eq!(cut.right(), [(200_000, 210_000, 3)]);
    assert_eq!(cut.overhangs(0), (67_334, 0));
    assert_eq!(road(132_666, 210_000).overhangs(0), (0, 0));
    assert_eq!(road(132_667, 210_000).overhangs(0), (1, 0));
    // Below station 0, too.
    let near_0 = road(5, 210_000).with_hazard(S, 10);
    assert_eq!(near_0.right(), [(5, 210_000, 3)]);
    assert_eq!(near_0.overhangs(0), (67_334 - 5, 0));
}

#[test]
fn the_greatest_overhang_of_the_asked_side() {
    let at = |side, start, end, near| [side, start, end, near, 9_000, 3];
    let job = two_way(0).with(FLARE_B, 0).with_hazards(&[
        at(0, 60_000, 60_010, 5_000),
        at(0, 50_000, 50_010, 5_000),
        at(0, 70_000, 70_010, 5_000),
        at(0, 990_000, 995_000, 5_000),
        at(0, 990_000, 994_000, 5_000),
        at(1, 20_000, 20_010, 5_000),
        at(1, 999_000, 1_000_000, 5_000),
        // Nobody reaches it.
        at(0, 0, 1_000_000, 9_000),
    ]);
    assert_eq!(job.overhangs(0), (67_334 - 50_000, 28_056 - 5_000));
    assert_eq!(job.overhangs(1), (28_056 - 20_000, 67_334));
}

#[test]
fn refusals_of_a_job_that_hangs_over() {
    let job = k4_at(0, 0, 1_000_000).bytes();
    let needed = planned(&job, 0).unwrap().len() as u64;
    let refusal = |number, value| Err(Refusal { number, value });
    // The refusals have no overhangs; the C interface fills in 0.
    assert_eq!(reference::plan(&job, 0, &mut [0; 3]), refusal(9, needed));
    assert_eq!(reference::plan(&job, 2, &mut [0; 9]), refusal(8, 0));
}

#[test]
fn gaps_between_cut_envelopes() {
    // The approach of each is 1 long: [10, 20) and [30, 40) on the road [10, 40).
    let job = |continuity| {
        let road = PRINTED.with(FLARE_B, 0).with(LF, 1).with(A, 10).with(B, 40);
        let hazards = [[0, 10, 20, 5_000, 9_000, 2], [0, 31, 40, 5_000, 9_000, 2]];
        road.with(G, continuity).with_hazards(&hazards)
    };
    assert_eq!(job(10).right(), [(10, 20, 2), (30, 40, 2)]);
    assert_eq!(job(11).right(), [(10, 40, 2)]);
    assert_eq!(job(11).overhangs(0), (1, 0));
    // No gap goes from an envelope to the road's end.
    let inside = job(200_000).with(A, 5).with(B, 45);
    assert_eq!(inside.right(), [(9, 40, 2)]);
}

/// Every envelope has its hazard, which lies on the road; so every gap lies on
/// the road, and it makes no difference whether gaps are added to the envelopes
/// before or behind the cut.
#[test]
fn gaps_added_before_cutting_are_the_same() {
    let mut random = Random::new(8, "cut and filled");
    for _ in 0..2_000 {
        let (begin, end) = (300, 300 + random.between(20, 300));
        let mut hazards = Vec::new();
        for _ in 0..random.between(1, 6) {
            let start = random.between(begin, end - 1);
            let last = random.between(start + 1, end);
            hazards.push([0, start, last, 40, 60, random.between(1, 3)]);
        }
        let header = PRINTED.with(LF, random.between(1, 200)).with(M, 10);
        let header = header.with(LO, random.between(1, 200)).with(D, 30);
        let header = header.with(G, random.below(100)).with(C, 100);
        let cut = header.clone().with(A, begin).with(B, end);
        let cut = cut.with_hazards(&hazards).bytes();
        // The same hazards on a road that has every envelope whole.
        let whole = header.with(A, 0).with(B, 1_000).with_hazards(&hazards);
        let whole = whole.bytes();
        for station in begin..end {
            assert_eq!(
                level(&cut, 0, station).unwrap(),
                level(&whole, 0, station).unwrap()
            );
        }
    }
}

#[test]
fn the_level_of_a_cut_envelope() {
    let job = printed().with(A, 160_000).with(B, 210_000);
    let stations = [0, 155_773, 159_999, 160_000, 209_999, 210_000];
    assert_eq!(levels(&job, &stations), [0, 0, 0, 3, 3, 0]);
    let behind = two_way(0).with(FLARE_B, 0).with(B, 220_000);
    assert_eq!(levels(&behind, &[219_999, 220_000, 238_055]), [3, 0, 0]);
}

/// The program says nothing of overhangs.
#[test]
fn the_program_s_text_of_cut_envelopes() {
    let job = k4_at(0, 67_333, 210_000).with(B, 220_000);
    let text = reference::program::text(&job.bytes());
    assert_eq!(text, "R 0 220000 3\ntotal 220000 0\n");
}

#[test]
fn an_open_job_with_overhangs() {
    let header = two_way(0).with(FLARE_B, 0).with_hazards(&[]);
    let mut memory = opened_in(header);
    let overhangs = |memory: &[u8], side| {
        let planned = open_schedule(memory, side, &mut [0; 100]).unwrap();
        (planned.before, planned.after)
    };
    let at = |side, start, end| hazard([side, start, end, 5_000, 9_000, 3]);
    assert_eq!(add(&mut memory, 1, at(0, 67_333, 210_000)), Ok(0));
    assert_eq!(schedule(&memory, 0), planned_of(0, 67_333, 210_000));
    assert_eq!(overhangs(&memory, 0), (1, 0));
    assert_eq!(add(&mut memory, 2, at(0, 0, 1_000_000)), Ok(0));
    assert_eq!(overhangs(&memory, 0), (67_334, 28_056));
    assert_eq!(overhangs(&memory, 1), (0, 0));
    assert_eq!(keep(&mut memory, 4), Ok(0));
    assert_eq!(withdraw(&mut memory, 2), Ok(0));
    assert_eq!(overhangs(&memory, 0), (1, 0));
    assert_eq!(return_to(&mut memory, 4), Ok(0));
    assert_eq!(overhangs(&memory, 0), (67_334, 28_056));
    assert!(
        !broken(&memory),
        "envelopes that leave the road break nothing"
    );
    let short = open_schedule(&memory, 0, &mut []);
    assert_eq!(short.unwrap_err().number, 9);
}

fn planned_of(side: u64, start: u64, end: u64) -> Vec<u8> {
    planned(&k4_at(side, start, end).bytes(), side).unwrap()
}

// 9: corner points for the drawing.

/// A corner in whole millimetres; a float that is none, or -0.0, is found.
fn whole(corner: reference::Corner) -> (i64, i64) {
    let millimetres = |float: f64| {
        let number = float as i64;
        assert_eq!((number as f64).to_bits(), float.to_bits(), "{float}");
        number
    };
    (millimetres(corner.station), millimetres(corner.offset))
}

/// Upstream end, flare's beginning and hazard's end.
fn corners_from(job: &Draft, hazard: u64, sheet: (u64, u64)) -> [(i64, i64); 3] {
    let given = corners(&job.bytes(), hazard, sheet.0, sheet.1).unwrap();
    [given.upstream, given.flare, given.hazard].map(whole)
}

fn corners_of(job: &Draft) -> [(i64, i64); 3] {
    corners_from(job, 0, (0, 0))
}

#[test]
fn corners_of_the_printed_job() {
    // 30,887 behind the straight part, 15 along for 1 across: 2,059 and two
    // fifteenths.
    let at_hazard = (200_000, 3_000);
    let flare = (200_000 - 13_340, 3_000);
    assert_eq!(
        corners_of(&printed()),
        [(155_773, 3_000 + 2_059), flare, at_hazard]
    );
    // Without flare the second corner repeats the first.
    let straight = (200_000 - 67_334, 3_000);
    let without = [straight, straight, at_hazard];
    assert_eq!(corners_of(&printed().with(FLARE_B, 0)), without);
    // In the straight part, too; just not, the flare's beginning comes first.
    assert_eq!(corners_of(&k1_with(67_334)), without);
    assert_eq!(corners_of(&k1_with(100_000)), without);
    let just = (200_000 - 67_333, 3_000);
    assert_eq!(corners_of(&k1_with(67_333)), [straight, just, at_hazard]);
    // No straight part: the flare begins at the hazard.
    let [upstream, flare, hazard] = corners_of(&k1_with(0));
    assert_eq!((flare, hazard), (at_hazard, at_hazard));
    assert_eq!(upstream, (200_000 - 38_517, 3_000 + 2_567));
}

#[test]
fn the_offset_is_rounded_down() {
    // How far the flare goes along and across.
    let behind = |straight| {
        let [upstream, flare, _] = corners_of(&k1_with(straight));
        (flare.0 - upstream.0, upstream.1 - 3_000)
    };
    let mut seen = [0; 15];
    for straight in 13_340..13_400 {
        let (along, across) = behind(straight);
        assert_eq!(across, along / 15);
        seen[(along % 15) as usize] += 1;
    }
    assert!(seen.iter().all(|count| *count > 0), "every remainder");
    // 10 across for 1 along.
    let steep = printed().with(FLARE_A, 1).with(FLARE_B, 10);
    let [upstream, flare, _] = corners_of(&steep);
    assert_eq!(upstream.1 - 3_000, 10 * (flare.0 - upstream.0));
}

#[test]
fn corners_in_whole_panels() {
    // 44,227 raised to 48,000: 34,660 behind the straight part.
    let raised = printed().in_panels(4_000);
    let at_hazard = (200_000, 3_000);
    assert_eq!(
        corners_of(&raised),
        [(152_000, 3_000 + 34_660 / 15), (186_660, 3_000), at_hazard]
    );
    // 67,334 is T, and 70,000 above it: the flare is not entered.
    let straight = (130_000, 3_000);
    let not_entered = k1_with(67_334).in_panels(10_000);
    assert_eq!(corners_of(&not_entered), [straight, straight, at_hazard]);
    // A millimetre less of straight part, and it is.
    let entered = k1_with(67_333).in_panels(10_000);
    let across = (70_000 - 67_333) / 15;
    assert_eq!(
        corners_of(&entered),
        [(130_000, 3_000 + across), (132_667, 3_000), at_hazard]
    );
}

#[test]
fn corners_of_the_left_side() {
    // Opposite traffic comes from higher stations to e.
    let left = two_way(13_340).with_hazard(SIDE, 1);
    let at_hazard = (210_000, 3_000);
    assert_eq!(
        corners_of(&left),
        [(254_227, 5_059), (223_340, 3_000), at_hazard]
    );
    // Its own runout length: LO.
    let own = left.clone().with(FLARE_B, 0).with(LO, 88_000);
    let straight = (210_000 + 58_667, 3_000);
    assert_eq!(corners_of(&own), [straight, straight, at_hazard]);
    // One-way: forward traffic is adjacent to both sides.
    let one_way = printed().with_hazard(SIDE, 1);
    assert_eq!(corners_of(&one_way), corners_of(&printed()));
}

#[test]
fn corners_are_counted_from_the_sheet_corner() {
    let from = |station, offset| corners_from(&printed(), 0, (station, offset));
    assert_eq!(
        from(155_773, 3_000),
        [(0, 2_059), (30_887, 0), (44_227, 0)],
        "no -0.0"
    );
    assert_eq!(from(200_000, 5_059)[0], (-44_227, 0));
    let last = 1_000_000_000_000;
    assert_eq!(
        from(last, last)[2],
        (200_000 - last as i64, 3_000 - last as i64)
    );
    assert_eq!(from(0, last)[2], (200_000, 3_000 - last as i64));
}

#[test]
fn corners_are_not_cut() {
    let near_0 = printed().with_hazard(S, 10);
    let [upstream, flare, hazard] = corners_of(&near_0);
    assert_eq!((upstream.0, flare.0, hazard.0), (-44_217, -13_330, 10));
    let on_a_short_road = printed().with(A, 200_000).with(B, 210_000);
    assert_eq!(corners_of(&on_a_short_road), corners_of(&printed()));
    let behind = two_way(13_340).with_hazard(SIDE, 1).with(B, 210_000);
    assert_eq!(corners_of(&behind)[0].0, 254_227);
    let last = PRINTED.with(LO, 200_000).with(B, 2_000_000_000);
    let last = last.with_hazards(&[[1, 0, 2_000_000_000, 5_000, 9_000, 1]]);
    assert!(corners_of(&last)[0].0 > 2_000_000_000);
}

#[test]
fn refusals_of_corners() {
    let refused = |job: &[u8], hazard, sheet: (u64, u64)| {
        let Refusal { number, value } = corners(job, hazard, sheet.0, sheet.1).unwrap_err();
        (number, value)
    };
    let whole = printed().bytes();
    let sheet = (0, 0);
    // 8 comes first.
    for out in [1_000_000_000_001, 1 << 42, (1 << 53) + 1, u64::MAX] {
        for sheet in [(out, 0), (0, out), (out, out)] {
            assert_eq!(refused(&[], 0, sheet), (8, 0));
            assert_eq!(refused(&whole, 9, sheet), (8, 0));
        }
    }
    assert_eq!(refused(&[], 9, sheet), (1, 0));
    assert_eq!(refused(&[0x81, 0x00], 9, sheet), (2, 0));
    assert_eq!(refused(&printed().with(C, 0).bytes(), 9, sheet), (3, 6));
    let level_7 = printed().with_hazard(LEVEL, 7).bytes();
    assert_eq!(refused(&level_7, 9, sheet), (4, 0));
    let left_over = [&whole[..], &[0x00]].concat();
    assert_eq!(refused(&left_over, 9, sheet), (7, whole.len() as u64));
    // 5 of any hazard, before 14 and for one that is asked or not.
    let near = [1, 200_000, 210_000, 3_999, 9_000, 3];
    let job = printed().with_hazards(&[PRINTED_HAZARD, near]).bytes();
    for hazard in [0, 1, 2, u64::MAX] {
        assert_eq!(refused(&job, hazard, sheet), (5, 1));
    }
    // No such hazard.
    for hazard in [1, 2, 256, 1 << 32, u64::MAX] {
        assert_eq!(refused(&whole, hazard, sheet), (14, 0));
    }
    assert_eq!(refused(&PRINTED.bytes(), 0, sheet), (14, 0));
    // One that nobody reaches.
    let unreached = printed().with_hazard(N, 9_000).bytes();
    assert_eq!(refused(&unreached, 0, sheet), (14, 0));
    // One that far traffic does not reach: adjacent traffic is enough.
    let adjacent_alone = two_way(13_340).with_hazard(N, 8_999);
    assert_eq!(corners_of(&adjacent_alone), corners_of(&printed()));
}

// 10: an offset that keeps the driveway clear.

/// The smallest M for the first hazard of an accepted job.
fn smallest(job: &Draft, longest: u64) -> Option<u64> {
    offset(&job.bytes(), 0, longest).unwrap()
}

/// K2: 101,000 × (9,000 − M) / 9,000, and M at most 5,000 − 1,000.
#[test]
fn the_smallest_offset_without_flare() {
    let k2 = printed().with(FLARE_B, 0);
    for (longest, offset) in [
        (u64::MAX, Some(0)),
        ((1 << 32) + 5, Some(0)),
        (101_001, Some(0)),
        (101_000, Some(0)),
        (100_999, Some(1)),
        (100_989, Some(1)),
        (100_988, Some(2)),
        (67_335, Some(3_000)),
        (67_334, Some(3_000)),
        (67_333, Some(3_001)),
        (56_113, Some(4_000)),
        (56_112, Some(4_000)),
        (56_111, None),
        (1, None),
        (0, None),
    ] {
        assert_eq!(smallest(&k2, longest), offset, "{longest}");
    }
    // The header's M does not count, where the job is accepted with it.
    for header in [0, 2_999, 4_000] {
        let job = k2.clone().with(M, header);
        assert_eq!(smallest(&job, 67_334), Some(3_000));
        assert_eq!(smallest(&job, 101_000), Some(0));
    }
}

#[test]
fn the_last_offset() {
    // n − D below, at and above 20,000; 200,000 × (30,000 − M) / 30,000.
    let job = |near, deflection| {
        let job = printed().with(FLARE_B, 0).with(LF, 200_000).with(C, 30_000);
        let job = job.with(D, deflection).with_hazard(N, near);
        job.with_hazard(F, 60_000)
    };
    let at_20_000 = 66_667;
    assert_eq!(smallest(&job(25_000, 5_000), at_20_000), Some(20_000));
    assert_eq!(smallest(&job(25_000, 5_000), at_20_000 - 1), None);
    assert_eq!(smallest(&job(29_999, 1), at_20_000), Some(20_000));
    assert_eq!(smallest(&job(29_999, 1), at_20_000 - 1), None);
    assert_eq!(smallest(&job(24_999, 5_000), at_20_000), None);
    assert_eq!(smallest(&job(24_999, 5_000), 66_674), Some(19_999));
    // n = D: 0 alone.
    let only_0 = job(5_000, 5_000).with(M, 0);
    assert_eq!(smallest(&only_0, 200_000), Some(0));
    assert_eq!(smallest(&only_0, 199_999), None);
}

/// By every M one after the other, whatever the flare, the panels and the side.
#[test]
fn the_smallest_offset_is_the_smallest() {
    let mut random = Random::new(10, "offsets");
    let [mut found, mut none] = [0; 2];
    for _ in 0..150 {
        let straight = random.below(100_000);
        let flared = two_way(straight).with(FLARE_B, random.below(3));
        let job = flared.with_hazard(SIDE, random.below(2)).with(M, 0);
        let job = job.in_panels(random.between(1, 10_000));
        let at = |offset| {
            let job = job.clone().with(M, offset);
            let [upstream, _, hazard] = corners_of(&job);
            (upstream.0 - hazard.0).unsigned_abs()
        };
        let longest = at(random.below(4_001)) - random.below(2);
        let first = (0..=4_000).find(|offset| at(*offset) <= longest);
        assert_eq!(smallest(&job, longest), first);
        match first {
            Some(_) => found += 1,
            None => none += 1,
        }
    }
    assert!(found > 50 && none > 5, "{found} {none}");
}

#[test]
fn panels_and_the_straight_part_count() {
    // In panels of 4,000: 44,227 at 3,000 is raised to 48,000.
    let in_panels = printed().in_panels(4_000);
    let at_48_000 = smallest(&in_panels, 48_000);
    assert_eq!(at_48_000, smallest(&in_panels, 51_999));
    assert_eq!(at_48_000, smallest(&printed(), 48_000));
    assert!(at_48_000 < Some(3_000));
    assert_eq!(
        smallest(&in_panels, 47_999),
        smallest(&printed(), 44_000),
        "a panel less"
    );
    // 67,334 at 3,000 in the straight part; 72,755 by the formula with flare.
    assert_eq!(smallest(&k1_with(80_000), 67_334), Some(3_000));
    assert_eq!(smallest(&k1_with(67_334), 67_334), Some(3_000));
}

#[test]
fn other_hazards_do_not_count() {
    // The second may not stand behind an M above 3,000, and is refused there.
    let second = [0, 300_000, 310_000, 4_000, 9_000, 3];
    let job = printed().with(FLARE_B, 0);
    let job = job.with_hazards(&[PRINTED_HAZARD, second]);
    assert_eq!(offset(&job.bytes(), 0, 56_112), Ok(Some(4_000)));
    assert_eq!(offset(&job.bytes(), 1, 67_334), Ok(Some(3_000)));
    assert_eq!(offset(&job.bytes(), 1, 67_333), Ok(None));
}

#[test]
fn refusals_of_the_smallest_offset() {
    let refused = |job: &[u8], hazard| {
        let Refusal { number, value } = offset(job, hazard, 50_000).unwrap_err();
        (number, value)
    };
    let whole = printed().bytes();
    assert_eq!(refused(&[], 9), (1, 0));
    assert_eq!(refused(&[0x81, 0x00], 9), (2, 0));
    assert_eq!(refused(&printed().with(C, 0).bytes(), 9), (3, 6));
    assert_eq!(refused(&printed().with_hazard(LEVEL, 7).bytes(), 9), (4, 0));
    let left_over = [&whole[..], &[0x00]].concat();
    assert_eq!(refused(&left_over, 9), (7, whole.len() as u64));
    // The job itself has to be accepted: 5 by the header's M, of any hazard.
    assert_eq!(refused(&printed().with(M, 4_001).bytes(), 0), (5, 0));
    let near = [1, 200_000, 210_000, 3_999, 9_000, 3];
    let job = printed().with_hazards(&[PRINTED_HAZARD, near]).bytes();
    for hazard in [0, 1, 2, u64::MAX] {
        assert_eq!(refused(&job, hazard), (5, 1));
    }
    for hazard in [1, 2, 256, 1 << 32, u64::MAX] {
        assert_eq!(refused(&whole, hazard), (14, 0));
    }
    let unreached = printed().with_hazard(N, 9_000).bytes();
    assert_eq!(refused(&unreached, 0), (14, 0));
}

// 11: stations on the national chainage.

const LAST_STATION: u64 = 1_000_000_000_000;

#[test]
fn a_road_far_from_the_datum() {
    // The printed run goes from 155,773 to 210,000.
    let over_32_bits = (1 << 32) - 200_000;
    for by in [0, 5, over_32_bits, 1 << 35, LAST_STATION - 1_000_000] {
        let job = printed().moved(by);
        assert_eq!(job.right(), [(by + 155_773, by + 210_000, 3)]);
        assert_eq!(job.overhangs(0), (0, 0));
        let at = |station| level(&job.bytes(), 0, by + station).unwrap();
        assert_eq!([155_772, 155_773, 209_999, 210_000].map(at), [0, 3, 3, 0]);
        let text = reference::program::text(&job.bytes());
        let run = format!("R {} {} 3\n", by + 155_773, by + 210_000);
        assert_eq!(text, run + "total 54227 0\n");
    }
    assert_eq!(printed().moved(LAST_STATION - 999_999).refused(), (3, 3));
}

#[test]
fn the_greatest_length_of_a_road() {
    let road = |begin, end| PRINTED.with(A, begin).with(B, end);
    let longest = 2_000_000_000;
    for begin in [0, 1, 1 << 32, LAST_STATION - longest] {
        assert_eq!(road(begin, begin + longest).right(), []);
        assert_eq!(road(begin, begin + longest + 1).refused(), (3, 3));
    }
    // Before the limit of B itself.
    let begin = LAST_STATION - longest + 1;
    assert_eq!(road(begin, LAST_STATION).right(), []);
    assert_eq!(road(begin, LAST_STATION + 1).refused(), (3, 3));
    assert_eq!(road(0, LAST_STATION).refused(), (3, 3));
    assert_eq!(road(LAST_STATION - 1, LAST_STATION).right(), []);
}

#[test]
fn envelopes_at_the_last_station() {
    // 28,056 of far traffic behind the hazard.
    let road = two_way(0).with(FLARE_B, 0);
    let road = road.with(A, LAST_STATION - 2_000_000).with(B, LAST_STATION);
    let at = |start, end| {
        road.clone()
            .with_hazards(&[[0, start, end, 5_000, 9_000, 3]])
    };
    let job = at(LAST_STATION - 1, LAST_STATION);
    let run = (LAST_STATION - 1 - 67_334, LAST_STATION, 3);
    assert_eq!(job.right(), [run]);
    assert_eq!(job.overhangs(0), (0, 28_056));
    assert_eq!(corners_of(&job)[0].0, LAST_STATION as i64 - 1 - 67_334);
    assert_eq!(at(LAST_STATION - 1, LAST_STATION + 1).refused(), (4, 0));
}

#[test]
fn a_schedule_up_to_the_last_station() {
    let whole = number_bytes(&[1, 0, LAST_STATION, 6]);
    assert_eq!(whole.len(), 9, "a number of six bytes");
    assert_eq!(quantity(&whole, 6, 0, u64::MAX), Ok(LAST_STATION));
    assert_eq!(
        quantity(&whole, 6, 5, LAST_STATION - 5),
        Ok(LAST_STATION - 10)
    );
    let found = reference::lookup(&whole, &[], 0, LAST_STATION - 1);
    assert_eq!((found.start, found.length), (1, 8));
    let behind = reference::lookup(&whole, &[], 0, LAST_STATION);
    assert_eq!(behind.outcome, reference::Outcome::None);
    // The sum of gap and length alone passes the last station.
    for (gap, length) in [
        (0, LAST_STATION + 1),
        (1, LAST_STATION),
        (LAST_STATION, 1),
        ((1 << 42) - 1, (1 << 42) - 1),
    ] {
        let refusal = quantity(&number_bytes(&[1, gap, length, 6]), 6, 0, 1).unwrap_err();
        assert_eq!((refusal.number, refusal.value), (10, 0));
    }
    // Sums that pass 2 to the 32nd.
    let two = number_bytes(&[2, 3_000_000_000, 3_000_000_000, 1, 0, 1, 2]);
    assert_eq!(quantity(&two, 1, 0, 1 << 32), Ok((1 << 32) - 3_000_000_000));
    assert_eq!(quantity(&two, 2, 6_000_000_000, 6_000_000_002), Ok(1));
    // Counts and levels have the same form, and their own ranges.
    assert!(quantity(&number_bytes(&[1 << 32, 0, 5, 6]), 6, 0, 1).is_err());
    assert!(quantity(&number_bytes(&[1, 0, 5, (1 << 32) + 6]), 6, 0, 1).is_err());
}

#[test]
fn an_open_job_far_from_the_datum() {
    let by = (1 << 32) - 200_000;
    let job = printed().moved(by);
    let mut memory = opened_in(job.clone().with_hazards(&[]));
    assert_eq!(memory[8..16], by.to_le_bytes());
    assert_eq!(add(&mut memory, 3, hazard(job.hazards[0])), Ok(0));
    assert_eq!(memory[120..128], (1u64 << 32).to_le_bytes());
    assert_eq!(schedule(&memory, 0), planned(&job.bytes(), 0).unwrap());
    assert_eq!(keep(&mut memory, 0), Ok(0));
    assert_eq!(withdraw(&mut memory, 3), Ok(0));
    assert_eq!(return_to(&mut memory, 0), Ok(0));
    assert_eq!(schedule(&memory, 0), planned(&job.bytes(), 0).unwrap());
    // The road in the memory.
    let number = |no, value| broken_with_number(&memory, no, value);
    assert!(number(3, by + 2_000_000_001) && !number(3, by + 2_000_000_000));
    assert!(number(2, (1 << 32) + 1) && !number(2, 1 << 32));
}

#[test]
fn corners_counted_from_a_sheet_far_away() {
    let by = LAST_STATION - 1_000_000;
    let corners = |sheet| corners_from(&printed().moved(by), 0, sheet);
    let here = corners((by + 155_773, 3_000));
    assert_eq!(here, [(0, 2_059), (30_887, 0), (44_227, 0)]);
    let far = corners((0, LAST_STATION));
    let last = LAST_STATION as i64;
    assert_eq!(far[2], (last - 800_000, 3_000 - last));
    assert_eq!(corners((LAST_STATION, 0))[2], (-800_000, 3_000));
    // An approach that passes the last station.
    let left = PRINTED.with(LO, 200_000).with(FLARE_B, 0);
    let left = left.with(A, LAST_STATION - 1).with(B, LAST_STATION);
    let hazards = [[1, LAST_STATION - 1, LAST_STATION, 5_000, 9_000, 1]];
    let upstream = corners_of(&left.with_hazards(&hazards))[0];
    assert_eq!(upstream, (last + 133_334, 3_000));
}

// 12: more names than a byte has.

/// An open job in which hazards stand under these names.
fn standing_under(names: impl IntoIterator<Item = u16>) -> Vec<u8> {
    let mut memory = opened();
    for name in names {
        assert_eq!(add(&mut memory, name, hazard(PRINTED_HAZARD)), Ok(0));
    }
    memory
}

#[test]
fn names_that_are_alike_in_a_byte() {
    let mut memory = standing_under([7, 65_535, 263, 255, 0]);
    assert_eq!(names(&memory), [0, 7, 255, 263, 65_535]);
    let bytes = |place: usize| &memory[120 + 24 * place + 20..][..2];
    assert_eq!(bytes(1), [7, 0]);
    assert_eq!(bytes(3), [7, 1]);
    assert_eq!(bytes(4), [255, 255]);
    let again = |memory: &mut [u8]| add(memory, 263, hazard(PRINTED_HAZARD));
    assert_eq!(refused(&mut memory, again), (12, 263));
    assert_eq!(refused(&mut memory, |m| withdraw(m, 256)), (12, 256));
    assert_eq!(withdraw(&mut memory, 263), Ok(0));
    assert_eq!(names(&memory), [0, 7, 255, 65_535]);
    assert_eq!(refused(&mut memory, |m| withdraw(m, 263)), (12, 263));
    // The other refusals return the wide name, too.
    let mut adding = |name, field: usize, value| {
        let mut fields = PRINTED_HAZARD;
        fields[field] = value;
        refused(&mut memory, |memory| add(memory, name, hazard(fields)))
    };
    assert_eq!(adding(65_534, SIDE, 2), (4, 65_534));
    assert_eq!(adding(256, N, 3_999), (5, 256));
}

#[test]
fn row_15() {
    let mut memory = standing_under((0..256).map(|index| 257 * index));
    let mut adding = |name, field: usize, value| {
        let mut fields = PRINTED_HAZARD;
        fields[field] = value;
        refused(&mut memory, |memory| add(memory, name, hazard(fields)))
    };
    // Behind 12 and before 4 and 5.
    for (field, value) in [(LEVEL, 3), (SIDE, 2), (N, 3_999)] {
        assert_eq!(adding(65_535, field, value), (12, 65_535));
        assert_eq!(adding(0, field, value), (12, 0));
        assert_eq!(adding(65_534, field, value), (15, 0));
        assert_eq!(adding(1, field, value), (15, 0));
    }
    // Whatever is wrong, broken memory comes first.
    assert!(broken_with(&memory, 143, &[7]));
}

#[test]
fn room_left_by_a_withdrawal_is_used_again() {
    let mut memory = standing_under(1_000..1_256);
    for name in 0..500 {
        let adding = |memory: &mut [u8]| add(memory, name, hazard(PRINTED_HAZARD));
        assert_eq!(refused(&mut memory, adding), (15, 0));
        let withdrawn = if name < 256 { 1_000 + name } else { name - 256 };
        assert_eq!(withdraw(&mut memory, withdrawn), Ok(0));
        assert_eq!(adding(&mut memory), Ok(0));
    }
    assert_eq!(names(&memory), (244..500).collect::<Vec<u16>>());
}

#[test]
fn kept_states_carry_the_wide_names() {
    let mut memory = standing_under((0..256).map(|index| 65_280 + index));
    let full = memory.clone();
    assert_eq!(keep(&mut memory, 7), Ok(0));
    for name in 65_280..=65_535 {
        assert_eq!(withdraw(&mut memory, name), Ok(0));
    }
    assert_eq!(add(&mut memory, 256, hazard(PRINTED_HAZARD)), Ok(0));
    assert_eq!(keep(&mut memory, 0), Ok(0));
    assert_eq!(return_to(&mut memory, 7), Ok(0));
    assert_eq!(memory[..6_264], full[..6_264]);
    let adding = |memory: &mut [u8]| add(memory, 0, hazard(PRINTED_HAZARD));
    assert_eq!(refused(&mut memory, adding), (15, 0));
    assert_eq!(return_to(&mut memory, 0), Ok(0));
    assert_eq!(names(&memory), [256]);
    assert_eq!(adding(&mut memory), Ok(0));
}

// 13: panels for one run, with a limit on tries.

const ALL_TRIES: u64 = 65_536;

/// Overrun, counts, tries and floor.
fn best(overrun: u64, counts: &[u64], tries: u64, floor: u64) -> Result<Tried, Refusal> {
    let counts = counts.to_vec();
    Ok(Tried {
        best: Some(Layout { counts, overrun }),
        tries,
        floor,
    })
}

fn none(tries: u64, floor: u64) -> Result<Tried, Refusal> {
    Ok(Tried {
        best: None,
        tries,
        floor,
    })
}

#[test]
fn layouts_of_one_length() {
    assert_eq!(
        layout(&[4_000], 10_000, ALL_TRIES),
        best(2_000, &[3], 16, 2_000)
    );
    assert_eq!(layout(&[4_000], 12_000, ALL_TRIES), best(0, &[3], 16, 0));
    assert_eq!(layout(&[4_000], 60_000, ALL_TRIES), best(0, &[15], 16, 0));
    assert_eq!(layout(&[4_000], 60_001, ALL_TRIES), none(16, 3_999));
    // A run without length is covered by no panel at all.
    assert_eq!(layout(&[4_000], 0, ALL_TRIES), best(0, &[0], 16, 0));
    assert_eq!(layout(&[4_000], 0, 1), best(0, &[0], 1, 0));
    // The layouts of 0, 1, 2 and 3 panels.
    assert_eq!(layout(&[4_000], 10_000, 3), none(3, 2_000));
    assert_eq!(layout(&[4_000], 10_000, 4), best(2_000, &[3], 4, 2_000));
}

#[test]
fn layouts_are_tried_in_rising_order() {
    // 4 of the second length are the 5th layout; 5 × 4,000 the 81st.
    let both = |run, limit| layout(&[4_000, 2_500], run, limit);
    assert_eq!(both(10_000, 4), none(4, 0));
    assert_eq!(both(10_000, 5), best(0, &[0, 4], 5, 0));
    assert_eq!(both(10_000, ALL_TRIES), best(0, &[0, 4], 256, 0));
    // 20,000 is 8 × 2,500 first, then 5 × 4,000.
    assert_eq!(both(20_000, 256), best(0, &[0, 8], 256, 0));
    // 6,500 is a panel of each, the 18th; 7,500 is tried before it.
    assert_eq!(both(6_500, 17), best(1_000, &[0, 3], 17, 0));
    assert_eq!(both(6_500, 18), best(0, &[1, 1], 18, 0));
    // Equal lengths.
    assert_eq!(
        layout(&[7, 7, 7], 14, ALL_TRIES),
        best(0, &[0, 0, 2], 4_096, 0)
    );
    assert_eq!(
        layout(&[7, 7, 7], 106, ALL_TRIES),
        best(6, &[0, 1, 15], 4_096, 6)
    );
}

#[test]
fn the_floor() {
    let floor = |lengths: &[u64], run| layout(lengths, run, 1).unwrap().floor;
    assert_eq!(floor(&[6, 10], 7), 1);
    assert_eq!(floor(&[6, 10, 15], 7), 0, "coprime together");
    assert_eq!(floor(&[20_000; 4], 1), 19_999);
    assert_eq!(floor(&[20_000; 4], 0), 0);
    // The least multiple of 7 is 2 to the 64th and 5.
    assert_eq!(floor(&[7], u64::MAX), 6);
    assert_eq!(floor(&[20_000], u64::MAX), 8_385);
    assert_eq!(floor(&[1], u64::MAX), 0);
    // 6 and 10 make no 8: the floor is not always met.
    assert_eq!(layout(&[6, 10], 7, ALL_TRIES), best(3, &[0, 1], 256, 1));
}

#[test]
fn a_run_that_no_layout_covers() {
    let most = 15 * (20_000 + 19_999 + 19_998 + 19_997);
    let lengths = [20_000, 19_999, 19_998, 19_997];
    assert_eq!(
        layout(&lengths, most, ALL_TRIES),
        best(0, &[15; 4], ALL_TRIES, 0)
    );
    assert_eq!(layout(&lengths, most, ALL_TRIES - 1).unwrap().best, None);
    assert_eq!(layout(&lengths, most + 1, ALL_TRIES), none(ALL_TRIES, 0));
    assert_eq!(layout(&lengths, u64::MAX, ALL_TRIES), none(ALL_TRIES, 0));
}

/// By every layout at once: more tries never give a worse overrun, all tries give
/// the least, and no covering layout overruns by less than the floor.
#[test]
fn tries_and_floor() {
    let mut random = Random::new(13, "layouts");
    for _ in 0..150 {
        let count = random.between(1, 3) as usize;
        let lengths: Vec<u64> = (0..count).map(|_| random.between(1, 40)).collect();
        let run = random.below(15 * lengths.iter().sum::<u64>() + 20);
        let layouts = 16u64.pow(count as u32);
        let total = |index: u64| {
            let places = (0..count as u32).rev();
            let counts = places.map(|place| index / 16u64.pow(place) % 16);
            let panels = counts.zip(&lengths);
            panels.map(|(count, length)| count * length).sum::<u64>()
        };
        let covering = |index: &u64| total(*index) >= run;
        let mut before = u64::MAX;
        let mut limits = vec![1, 15, 16, 17, 100, ALL_TRIES];
        limits.extend([layouts - 1, layouts, layouts + 1]);
        limits.sort();
        for limit in limits {
            let tried = layout(&lengths, run, limit).unwrap();
            assert_eq!(tried.tries, limit.min(layouts));
            let least = (0..tried.tries).filter(covering).map(total).min();
            let least = least.map(|total| total - run);
            assert_eq!(tried.best.as_ref().map(|best| best.overrun), least);
            let overrun = least.unwrap_or(u64::MAX);
            assert!(overrun <= before);
            before = overrun;
            if let Some(best) = tried.best {
                let first = (0..layouts).find(|index| total(*index) == run + best.overrun);
                let index = best
                    .counts
                    .iter()
                    .fold(0, |index, count| 16 * index + count);
                assert_eq!(first, Some(index));
            }
        }
        let floor = layout(&lengths, run, 1).unwrap().floor;
        assert!(
            (0..layouts)
                .filter(covering)
                .all(|index| total(index) - run >= floor)
        );
    }
}

#[test]
fn refusals_of_layouts() {
    let refused = |lengths: &[u64], limit| {
        let Refusal { number, value } = layout(lengths, 5, limit).unwrap_err();
        (number, value)
    };
    let bad_lengths: [&[u64]; 9] = [
        &[],
        &[5; 5],
        &[5; 260],
        &[0],
        &[20_001],
        &[5, 5, 5, 0],
        &[20_001, 5],
        &[5, (1 << 32) + 5, 5],
        &[u64::MAX],
    ];
    for lengths in bad_lengths {
        for limit in [1, ALL_TRIES, 0, ALL_TRIES + 1, u64::MAX] {
            assert_eq!(refused(lengths, limit), (16, 0), "16 comes first");
        }
    }
    for limit in [0, ALL_TRIES + 1, 1 << 32, (1 << 32) + 5, u64::MAX] {
        assert_eq!(refused(&[1], limit), (17, 0));
        assert_eq!(refused(&[20_000; 4], limit), (17, 0));
    }
    assert!(layout(&[1, 20_000], 5, 1).is_ok());
    assert!(layout(&[1, 20_000], 5, ALL_TRIES).is_ok());
}

// 14: how far one withdrawal reaches.

/// The reach of one hazard, and the stretches of its side that alter without it.
fn without(draft: &Draft, index: usize) -> (Option<(u64, u64)>, Vec<(u64, u64)>) {
    let job = job::read(&draft.bytes()).unwrap();
    let hazard = job.hazards[index];
    let mut fewer = draft.clone();
    fewer.hazards.remove(index);
    let runs = |draft: &Draft, side| -> Vec<_> {
        let bytes = planned(&draft.bytes(), side).unwrap();
        let records = schedule::read(&bytes).unwrap();
        records.into_iter().map(|record| record.run).collect()
    };
    let other = 1 - hazard.side;
    assert_eq!(runs(draft, other), runs(&fewer, other));
    assert_eq!(reach_on(&job, &hazard, other), None);
    let altered = altered(&runs(draft, hazard.side), &runs(&fewer, hazard.side));
    let bound = reach(&job, &hazard);
    assert_eq!(outside(&altered, bound), []);
    let ends = |s: &Stretch| (s.start, s.end);
    (bound.as_ref().map(ends), altered.iter().map(ends).collect())
}

/// Two gaps of 49 at G = 50: the one that is withdrawn takes both with it, so the
/// farthest millimetre that alters is the 49th beyond its envelope at either end.
#[test]
fn a_withdrawal_alters_the_49th_millimetre_beyond_at_g_50() {
    let draft = with_envelopes(50, &[(0, 100, 2), (149, 200, 2), (249, 300, 2)]);
    assert_eq!(draft.right(), [(0, 300, 2)]);
    assert_eq!(without(&draft, 1), (Some((99, 250)), vec![(100, 249)]));
    // At the road's ends nothing is cut from the reach but what has no station.
    assert_eq!(without(&draft, 0), (Some((0, 150)), vec![(0, 149)]));
    assert_eq!(without(&draft, 2), (Some((199, 350)), vec![(200, 300)]));
    // A millimetre more in each gap, and the envelope alone alters.
    let apart = with_envelopes(50, &[(0, 100, 2), (150, 200, 2), (250, 300, 2)]);
    assert_eq!(without(&apart, 1), (Some((100, 250)), vec![(150, 200)]));
}

/// Without it one gap is left that is still shorter than G: nothing alters.
#[test]
fn a_withdrawal_in_a_short_gap_alters_nothing() {
    let draft = with_envelopes(50, &[(0, 100, 2), (110, 120, 2), (149, 200, 2)]);
    assert_eq!(without(&draft, 1), (Some((60, 170)), vec![]));
    // One of a higher level takes its own millimetres to level 2, no others.
    let higher = with_envelopes(50, &[(0, 100, 2), (110, 120, 3), (149, 200, 2)]);
    assert_eq!(without(&higher, 1), (Some((60, 170)), vec![(110, 120)]));
}

/// K10's gap has level 1; the hazard of level 3 is withdrawn.
#[test]
fn a_withdrawal_alters_lower_levels_too() {
    let draft = with_envelopes(50, &[(0, 100, 3), (140, 200, 1)]);
    assert_eq!(without(&draft, 0), (Some((0, 150)), vec![(0, 140)]));
    assert_eq!(without(&draft, 1), (Some((90, 250)), vec![(100, 200)]));
}

#[test]
fn an_equal_hazard_that_is_left_lets_nothing_alter() {
    let draft = with_envelopes(50, &[(0, 100, 2), (149, 200, 2), (149, 200, 2)]);
    assert_eq!(without(&draft, 1), (Some((99, 250)), vec![]));
    assert_eq!(without(&draft, 2), (Some((99, 250)), vec![]));
    let mut sides = draft;
    sides.hazards[2][SIDE] = 1;
    assert_eq!(without(&sides, 1), (Some((99, 250)), vec![(100, 200)]));
    assert_eq!(without(&sides, 2), (Some((99, 250)), vec![(149, 200)]));
}

/// K6: with n 9,000 nobody reaches it.
#[test]
fn a_hazard_without_an_envelope_has_no_reach() {
    assert_eq!(without(&printed().with_hazard(N, 9_000), 0), (None, vec![]));
    let reached = printed().with_hazard(N, 8_999).with(G, 1_000);
    let (bound, altered) = without(&reached, 0);
    assert_eq!(bound, Some((154_773, 211_000)));
    assert_eq!(altered, [(155_773, 210_000)]);
}

/// K1 in panels of 4,000: 44,227 becomes 48,000, and the road begins behind that.
#[test]
fn the_reach_of_a_raised_and_cut_envelope() {
    let raised = printed().in_panels(4_000).with(G, 1_000);
    let envelope = vec![(152_000, 210_000)];
    assert_eq!(without(&raised, 0), (Some((151_000, 211_000)), envelope));
    let cut = raised.with(A, 160_000);
    let envelope = vec![(160_000, 210_000)];
    assert_eq!(without(&cut, 0), (Some((159_000, 211_000)), envelope));
}
