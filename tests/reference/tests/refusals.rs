//! The rows of the refusal table, and their order.

mod common;

use common::*;
use reference::{Outcome, Refusal, lookup, plan, quantity};

/// Plans both sides into a lent output and checks that nothing was written.
fn refused(job: &[u8]) -> (u64, u64) {
    let mut out = [0xAA; 64];
    let right = plan(job, 0, &mut out).unwrap_err();
    let left = plan(job, 1, &mut out).unwrap_err();
    assert_eq!(right, left);
    assert_eq!(out, [0xAA; 64]);
    (right.number, right.value)
}

/// The printed job of each kind.
fn both_kinds() -> [Draft; 2] {
    [printed(), printed().in_panels(4_000)]
}

/// The job with the bytes of one number, counted from 0, exchanged.
fn with_number_bytes(draft: &Draft, index: usize, replaced: &[u8]) -> (Vec<u8>, usize) {
    let list = draft.numbers();
    let mut job = number_bytes(&list[..index]);
    let begin = job.len();
    job.extend(replaced);
    job.extend(number_bytes(&list[index + 1..]));
    (job, begin)
}

#[test]
fn row_1_bytes_end() {
    for draft in both_kinds() {
        let job = draft.bytes();
        let mut begin = 0;
        for value in draft.numbers() {
            let size = number_bytes(&[value]).len();
            for end in begin..begin + size {
                assert_eq!(refused(&job[..end]), (1, begin as u64));
            }
            begin += size;
        }
        assert_eq!(begin, job.len());
    }
}

#[test]
fn row_2_number_form() {
    let wrong: [&[u8]; 5] = [
        &[0x80, 0x00],
        &[0x81, 0x80, 0x00],
        &[0x80, 0x80, 0x80, 0x80, 0x80, 0x00],
        &[0x80, 0x80, 0x80, 0x80, 0x80, 0x80],
        &[0x80, 0x80, 0x80, 0x80, 0x80, 0x80, 0x00],
    ];
    for draft in both_kinds() {
        for index in 0..draft.numbers().len() {
            for replaced in wrong {
                let (job, begin) = with_number_bytes(&draft, index, replaced);
                assert_eq!(refused(&job), (2, begin as u64));
            }
        }
    }
}

#[test]
fn row_2_at_the_very_end() {
    // A sixth byte with the top bit set is there, so the number is faulty in
    // form even where the job ends behind it.
    assert_eq!(refused(&[0x80; 6]), (2, 0));
    for length in 0..6 {
        assert_eq!(refused(&vec![0x80; length]), (1, 0));
    }
}

/// A number in its form that is too great for its field is 3 or 4, and never 2.
#[test]
fn great_values_are_out_of_range() {
    for draft in both_kinds() {
        let header = draft.numbers().len() - FIELDS;
        for index in 0..draft.numbers().len() {
            for value in [1 << 32, (1 << 35) - 1, 1 << 35, (1 << 42) - 1] {
                let (job, _) = with_number_bytes(&draft, index, &number_bytes(&[value]));
                let refusal = refused(&job);
                match index {
                    // Some of these are stations that a road may begin at, with
                    // the printed B before them.
                    A if value < 1_000_000_000_000 => assert_eq!(refusal, (3, 3)),
                    _ if index < header => assert_eq!(refusal, (3, index as u64 + 1)),
                    _ => assert_eq!(refusal, (4, 0)),
                }
            }
        }
    }
}

/// Least and greatest value of each header number of kind 2, with A = 0.
const HEADER_RANGES: [(u64, u64); 15] = [
    (1, 2),
    (0, 999_999_999_999),
    (1, 2_000_000_000),
    (1, 200_000),
    (0, 200_000),
    (1, 30_000),
    (0, 20_000),
    (0, 20_000),
    (1, 5_000),
    (1, 100),
    (0, 10),
    (0, 100_000),
    (0, 200_000),
    (1, 10_000),
    (0, 256),
];

/// Where refusal 3 is returned for a header without hazards that has this value
/// as this number.
fn header_refusal(header: &Draft, no: usize, value: u64) -> Option<u64> {
    let mut list = header.numbers();
    list[no - 1] = value;
    let refusal = plan(&number_bytes(&list), 0, &mut [0; 8]).err()?;
    (refusal.number == 3).then_some(refusal.value)
}

fn header_ranges(header: &Draft, ranges: &[(u64, u64)]) {
    assert_eq!(header.numbers().len(), ranges.len());
    let refusal = |no, value| header_refusal(header, no, value);
    // Another kind gives the numbers from 14 on another meaning.
    for (index, (low, high)) in ranges.iter().enumerate().skip(1) {
        let no = index + 1;
        // A at its greatest value leaves the printed B out of range.
        let greatest = if no == 2 { 999_999 } else { *high };
        assert_eq!(refusal(no, *low), None, "{no}");
        assert_eq!(refusal(no, greatest), None, "{no}");
        assert_eq!(refusal(no, high + 1), Some(no as u64), "{no}");
        if *low > 0 {
            assert_eq!(refusal(no, low - 1), Some(no as u64), "{no}");
        }
    }
    for kind in [0, 3, 4, 255, (1 << 32) - 1, (1 << 32) + 1, (1 << 42) - 1] {
        assert_eq!(refusal(1, kind), Some(1), "kind {kind}");
    }
}

#[test]
fn row_3_header_ranges() {
    let mut of_kind_1 = HEADER_RANGES.to_vec();
    of_kind_1.remove(PANEL);
    header_ranges(&PRINTED, &of_kind_1);
    header_ranges(&PRINTED.in_panels(4_000), &HEADER_RANGES);
}

/// The hazard count of one kind is the panel length of the other.
#[test]
fn row_3_the_other_kind() {
    assert_eq!(header_refusal(&PRINTED, 1, 2), Some(14), "panel length 0");
    let count_too_great = PRINTED.in_panels(257);
    assert_eq!(header_refusal(&count_too_great, 1, 1), Some(14));
}

#[test]
fn row_3_road_end_after_begin() {
    let road = |a, b| printed().with_hazards(&[]).with(A, a).with(B, b);
    let last = 1_000_000_000_000;
    assert_eq!(road(last - 1, last).right(), []);
    assert_eq!(road(last, last).refused(), (3, 2));
    assert_eq!(road(last, last + 1).refused(), (3, 2));
    assert_eq!(road(last - 1, last + 1).refused(), (3, 3));
    assert_eq!(road(500, 500).refused(), (3, 3));
    assert_eq!(road(500, 501).right(), []);
}

#[test]
fn row_4_hazard_ranges() {
    let road = printed().with(A, 100).with(B, 300_000);
    let refusal = |field, value| {
        let first = [0, 200_000, 210_000, 5_000, 9_000, 3];
        let mut second = first;
        second[field] = value;
        let job = road.clone().with_hazards(&[first, second]);
        job.runs(0).err().map(|r| (r.number, r.value))
    };
    assert_eq!(refusal(SIDE, 1), None);
    assert_eq!(refusal(SIDE, 2), Some((4, 1)));
    assert_eq!(refusal(S, 100), None, "its envelope is cut");
    assert_eq!(refusal(S, 99), Some((4, 1)));
    assert_eq!(refusal(S, 300_000), Some((4, 1)));
    assert_eq!(refusal(E, 200_001), None);
    assert_eq!(refusal(E, 200_000), Some((4, 1)));
    assert_eq!(refusal(E, 300_000), None);
    assert_eq!(refusal(E, 300_001), Some((4, 1)));
    assert_eq!(refusal(N, 0), Some((5, 1)), "in range, but too near");
    assert_eq!(refusal(N, 60_001), Some((4, 1)));
    assert_eq!(refusal(F, 5_000), None);
    assert_eq!(refusal(F, 4_999), Some((4, 1)));
    assert_eq!(refusal(F, 60_000), None);
    assert_eq!(refusal(F, 60_001), Some((4, 1)));
    assert_eq!(refusal(LEVEL, 1), None);
    assert_eq!(refusal(LEVEL, 6), None);
    assert_eq!(refusal(LEVEL, 0), Some((4, 1)));
    assert_eq!(refusal(LEVEL, 7), Some((4, 1)));
}

const GOOD: [u64; 6] = [0, 200_000, 210_000, 5_000, 9_000, 3];
const NEAR: [u64; 6] = [1, 200_000, 210_000, 3_999, 9_000, 3];
const OFF: [u64; 6] = [1, 1_000, 210_000, 5_000, 9_000, 3];
const NEAR_AND_OFF: [u64; 6] = [0, 1_000, 210_000, 3_999, 9_000, 3];

#[test]
fn row_5() {
    let with = |list: &[[u64; 6]]| printed().with_hazards(list);
    assert_eq!(with(&[GOOD, NEAR]).refused(), (5, 1));
    assert_eq!(with(&[GOOD, NEAR_AND_OFF]).refused(), (5, 1));
    // Hazards in order: the first that has a refusal.
    assert_eq!(with(&[NEAR, NEAR_AND_OFF]).refused(), (5, 0));
    // An envelope that leaves the road is none, whatever comes behind it.
    assert_eq!(with(&[OFF, NEAR]).refused(), (5, 1));
    assert_eq!(with(&[GOOD, OFF]).right(), [(155_773, 210_000, 3)]);
}

#[test]
fn nobody_reaches_nothing_is_refused() {
    // It has no envelope, so it is not too near.
    let job = printed().with(C, 3_000).with_hazards(&[NEAR_AND_OFF]);
    assert_eq!(job.right(), []);
}

#[test]
fn row_7_before_5() {
    let mut job = printed().with_hazards(&[NEAR, OFF]).bytes();
    let length = job.len() as u64;
    job.push(0x80);
    assert_eq!(refused(&job), (7, length));
}

#[test]
fn row_8_comes_first() {
    let mut out = [0xAA; 4];
    let refusal = Refusal {
        number: 8,
        value: 0,
    };
    assert_eq!(plan(&[], 2, &mut out), Err(refusal));
    assert_eq!(plan(&printed().bytes(), u64::MAX, &mut out), Err(refusal));
    assert_eq!(out, [0xAA; 4]);
    assert_eq!(quantity(&[], 0, 0, 0), Err(refusal));
    assert_eq!(quantity(&[0], 7, 0, 0), Err(refusal));
    assert_eq!(quantity(&[0], 1, 1, 0), Err(refusal));
}

#[test]
fn row_9_output_short() {
    let job = printed().bytes();
    let refusal = Err(Refusal {
        number: 9,
        value: 8,
    });
    for length in 0..8 {
        let mut out = vec![0xAA; length];
        assert_eq!(plan(&job, 0, &mut out), refusal);
        assert_eq!(out, vec![0xAA; length]);
    }
    assert_eq!(plan(&job, 0, &mut [0; 8]).unwrap().written, 8);
}

#[test]
fn row_9_comes_last() {
    let job = printed().with_hazards(&[NEAR]).bytes();
    let refusal = plan(&job, 0, &mut []).unwrap_err();
    assert_eq!((refusal.number, refusal.value), (5, 0));
}

#[test]
fn row_10_of_the_asked_side() {
    let bad = [0x01];
    let good = [0x00];
    let outcome = |side| lookup(&bad, &good, side, 0).outcome;
    let refusal = |number| Outcome::Refused(Refusal { number, value: 0 });
    assert_eq!(outcome(0), refusal(10));
    assert_eq!(outcome(1), Outcome::None);
    assert_eq!(outcome(2), refusal(8));
    assert_eq!(quantity(&bad, 1, 0, 1).unwrap_err().number, 10);
    assert_eq!(quantity(&good, 1, 0, 1), Ok(0));
}
