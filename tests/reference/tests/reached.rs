//! The reach of one hazard, of a job and of an open job, with numbers worked by
//! hand from the paper's own lengths: 44,227 with the flare, 67,334 without it,
//! and 28,056 for far traffic.

mod common;

use common::*;
use reference::envelope::Overhang;
use reference::memory::BYTES;
use reference::open::Name;
use reference::{Reached, Refusal, Stretch, add, keep, open, open_reach, reach, return_to};
use reference::{memory, withdraw};

/// Side, envelope, overhangs, and the stretch outside which nothing alters.
type Numbers = (u64, [u64; 2], [u64; 2], [u64; 2]);

fn numbers(reached: Reached) -> Numbers {
    let ends = |stretch: Stretch| [stretch.start, stretch.end];
    let Overhang { before, after } = reached.overhang;
    let (envelope, altered) = (ends(reached.envelope), ends(reached.altered));
    (reached.side, envelope, [before, after], altered)
}

/// Of the first hazard of a job; the open job says the same.
fn first(draft: &Draft) -> Numbers {
    let of_job = numbers(reach(&draft.bytes(), 0).unwrap());
    let memory = opened(draft, &[700]);
    let of_open_job = numbers(open_reach(&memory, 700).unwrap());
    assert_eq!(of_open_job, of_job);
    of_job
}

/// An open job in which hazards of the draft stand under these names.
fn opened(draft: &Draft, names: &[Name]) -> Vec<u8> {
    let mut memory = vec![0xB7; BYTES];
    let header = draft.clone().with_hazards(&[]);
    open(&mut memory, &header.bytes()).unwrap();
    for (name, fields) in names.iter().zip(&draft.hazards) {
        add(&mut memory, *name, hazard(*fields)).unwrap();
    }
    memory
}

fn k4() -> Draft {
    let k2 = printed().with(FLARE_B, 0);
    k2.with(LO, 101_000).with(W, 3_500)
}

#[test]
fn one_traffic_with_g_and_without() {
    let none = [0, 0];
    let envelope = [155_773, 210_000];
    assert_eq!(first(&printed()), (0, envelope, none, envelope));
    let longer = [154_773, 211_000];
    let limited = printed().with(G, 1_000);
    assert_eq!(first(&limited), (0, envelope, none, longer));
    let longest = printed().with(G, 200_000);
    assert_eq!(first(&longest), (0, envelope, none, [0, 410_000]));
}

/// Adjacent traffic reaches whatever far traffic reaches, for n is not above
/// n + W: there is no hazard of far traffic alone.
#[test]
fn both_traffics_and_adjacent_traffic_alone() {
    let draft = k4().with(G, 50);
    let both = [132_666, 238_056];
    assert_eq!(first(&draft), (0, both, [0, 0], [132_616, 238_106]));
    let adjacent = draft.with_hazard(N, 5_500);
    let alone = [132_666, 210_000];
    assert_eq!(first(&adjacent), (0, alone, [0, 0], [132_616, 210_050]));
}

/// Its adjacent traffic is opposite, and forward where there is no other.
#[test]
fn a_hazard_on_the_left() {
    let left = k4().with(G, 50).with_hazard(SIDE, 1);
    let both = [171_944, 277_334];
    assert_eq!(first(&left), (1, both, [0, 0], [171_894, 277_384]));
    let adjacent = left.with_hazard(N, 5_500);
    let alone = [200_000, 277_334];
    assert_eq!(first(&adjacent), (1, alone, [0, 0], [199_950, 277_384]));
    let one_way = printed().with(G, 50).with_hazard(SIDE, 1);
    let forward = [155_773, 210_000];
    assert_eq!(first(&one_way), (1, forward, [0, 0], [155_723, 210_050]));
}

/// K6: n 9,000. Nothing is refused, and the side stands. n may be less than M + D
/// where nobody reaches.
#[test]
fn nobody_reaches_it() {
    let none = [0, 0];
    let unreached = printed().with_hazard(N, 9_000).with(G, 1_000);
    assert_eq!(first(&unreached), (0, none, none, none));
    let left = unreached.with_hazard(SIDE, 1).with(A, 100_000);
    assert_eq!(first(&left), (1, none, none, none));
    let near = left.with(C, 9_000).with(M, 20_000);
    assert_eq!(first(&near), (1, none, none, none));
}

/// K8: a millimetre before A. What is cut away is not lengthened: from is A.
#[test]
fn cut_at_a() {
    let k8 = printed().with(FLARE_B, 0).with_hazard(S, 67_333);
    let envelope = [0, 210_000];
    assert_eq!(first(&k8), (0, envelope, [1, 0], envelope));
    let limited = k8.with(G, 1_000);
    assert_eq!(first(&limited), (0, envelope, [1, 0], [0, 211_000]));
    let later = printed().with(A, 160_000).with(G, 1_000);
    let envelope = [160_000, 210_000];
    assert_eq!(first(&later), (0, envelope, [4_227, 0], [160_000, 211_000]));
}

/// The envelope is on the road, and G takes it up to A, past A and not to A.
#[test]
fn lengthened_to_a() {
    for (limit, from) in [
        (0, 155_773),
        (772, 155_001),
        (773, 155_000),
        (774, 155_000),
        (200_000, 155_000),
    ] {
        let draft = printed().with(A, 155_000).with(G, limit);
        let envelope = [155_773, 210_000];
        let altered = [from, 210_000 + limit];
        assert_eq!(first(&draft), (0, envelope, [0, 0], altered));
    }
}

#[test]
fn cut_at_b() {
    let draft = k4().with(B, 238_055);
    let envelope = [132_666, 238_055];
    assert_eq!(first(&draft), (0, envelope, [0, 1], envelope));
    let limited = draft.with(G, 2_666);
    let altered = [130_000, 238_055];
    assert_eq!(first(&limited), (0, envelope, [0, 1], altered));
    let at_its_end = k4().with(B, 210_000);
    let envelope = [132_666, 210_000];
    assert_eq!(first(&at_its_end), (0, envelope, [0, 28_056], envelope));
}

#[test]
fn lengthened_to_b() {
    for (limit, to) in [(943, 238_999), (944, 239_000), (945, 239_000)] {
        let draft = k4().with(B, 239_000).with(G, limit);
        let altered = [132_666 - limit, to];
        assert_eq!(first(&draft), (0, [132_666, 238_056], [0, 0], altered));
    }
}

#[test]
fn g_longer_than_the_road() {
    let road = printed().with(A, 150_000).with(B, 240_000).with(G, 200_000);
    let altered = [150_000, 240_000];
    assert_eq!(first(&road), (0, [155_773, 210_000], [0, 0], altered));
    // The hazard is the whole road.
    let whole = k4().with(A, 200_000).with(B, 210_000).with(G, 200_000);
    let hazard = [200_000, 210_000];
    assert_eq!(first(&whole), (0, hazard, [67_334, 28_056], hazard));
}

/// 44,227 is raised to 48,000 by panels of 4,000, and is 47 panels of 941.
#[test]
fn in_whole_panels() {
    let raised = printed().in_panels(4_000).with(G, 1_000);
    let altered = [151_000, 211_000];
    assert_eq!(first(&raised), (0, [152_000, 210_000], [0, 0], altered));
    let measured = printed().in_panels(941);
    let envelope = [155_773, 210_000];
    assert_eq!(first(&measured), (0, envelope, [0, 0], envelope));
    // 67,334 to 68,000 and 28,056 to 32,000, both cut.
    let both = k4().in_panels(4_000).with(A, 132_001).with(B, 241_998);
    let envelope = [132_001, 241_998];
    assert_eq!(first(&both), (0, envelope, [1, 2], envelope));
}

#[test]
fn up_to_the_last_station() {
    let by = 999_999_000_000;
    let draft = k4().with(G, 50).with(B, 238_100).moved(by);
    let (envelope, altered) = ([132_666, 238_056], [132_616, 238_100]);
    let moved = |stretch: [u64; 2]| stretch.map(|station| station + by);
    let expected = (0, moved(envelope), [0, 0], moved(altered));
    assert_eq!(first(&draft), expected);
}

/// Other hazards do not count, whichever side they stand on.
#[test]
fn each_of_several() {
    let three = [
        [1, 100, 200, 9_000, 9_000, 1],
        PRINTED_HAZARD,
        [1, 900_000, 900_001, 5_000, 9_000, 6],
    ];
    let draft = PRINTED.with(G, 200_000).with_hazards(&three);
    let memory = opened(&draft, &[2, 0, 1]);
    let expected = [
        (1, [0, 0], [0, 0], [0, 0]),
        (0, [155_773, 210_000], [0, 0], [0, 410_000]),
        (1, [855_773, 900_001], [0, 0], [655_773, 1_000_000]),
    ];
    for (index, (name, expected)) in (0..).zip([2, 0, 1].into_iter().zip(expected)) {
        let of_job = reach(&draft.bytes(), index).unwrap();
        assert_eq!(numbers(of_job), expected);
        assert_eq!(open_reach(&memory, name), Ok(of_job));
    }
}

fn refused(answer: Result<Reached, Refusal>) -> (u64, u64) {
    let Refusal { number, value } = answer.unwrap_err();
    (number, value)
}

#[test]
fn refusals_of_the_job_come_before_14() {
    let draft = printed();
    for index in [1, 2, 256, 1 << 32, u64::MAX] {
        assert_eq!(refused(reach(&draft.bytes(), index)), (14, 0));
        assert_eq!(refused(reach(&PRINTED.bytes(), index)), (14, 0));
        let near = draft.clone().with_hazard(N, 3_999);
        assert_eq!(refused(reach(&near.bytes(), index)), (5, 0));
        let mut behind = draft.bytes();
        behind.push(0);
        let at = behind.len() as u64 - 1;
        assert_eq!(refused(reach(&behind, index)), (7, at));
        assert_eq!(refused(reach(&[], index)), (1, 0));
        assert_eq!(refused(reach(&[0x81, 0x00], index)), (2, 0));
        let bad_g = draft.clone().with(G, 200_001);
        assert_eq!(refused(reach(&bad_g.bytes(), index)), (3, 13));
        let bad_side = draft.clone().with_hazard(SIDE, 2);
        assert_eq!(refused(reach(&bad_side.bytes(), index)), (4, 0));
    }
    assert_eq!(refused(reach(&PRINTED.bytes(), 0)), (14, 0));
    assert!(reach(&draft.bytes(), 0).is_ok());
}

/// A name stands or does not, as the open job is now: kept states do not count.
#[test]
fn names_that_stand() {
    let draft = printed();
    let mut memory = opened(&draft, &[256]);
    let right = reach(&draft.bytes(), 0);
    for name in [0, 1, 255, 257, Name::MAX] {
        assert_eq!(refused(open_reach(&memory, name)), (12, name.into()));
    }
    assert_eq!(open_reach(&memory, 256), right);
    keep(&mut memory, 3).unwrap();
    withdraw(&mut memory, 256).unwrap();
    assert_eq!(refused(open_reach(&memory, 256)), (12, 256));
    return_to(&mut memory, 3).unwrap();
    assert_eq!(open_reach(&memory, 256), right);
}

/// 3 with 0 before 12, also where a kept state breaks the rules.
#[test]
fn memory_that_breaks_the_rules() {
    let mut memory = opened(&printed(), &[256]);
    keep(&mut memory, 0).unwrap();
    let level = memory::HEADER_BYTES + memory::LEVEL_AT;
    for at in [0, level, memory::NOW_BYTES, BYTES - 1] {
        let mut broken = memory.clone();
        broken[at] ^= 0x80;
        for name in [0, 256] {
            assert_eq!(refused(open_reach(&broken, name)), (3, 0), "byte {at}");
        }
    }
    assert!(open_reach(&memory, 256).is_ok());
}
