//! The job on paper and the cases K1 to K10.

mod common;

use common::*;
use reference::{Outcome, lookup, plan, planned, program, quantity};

#[test]
fn the_printed_program_output() {
    let job = printed().bytes();
    assert_eq!(program::text(&job), "R 155773 210000 3\ntotal 54227 0\n");
}

#[test]
fn the_printed_schedule() {
    let mut out = [0xAA; 12];
    let planned = |written| {
        Ok(reference::Planned {
            written,
            before: 0,
            after: 0,
        })
    };
    assert_eq!(plan(&printed().bytes(), 0, &mut out), planned(8));
    assert_eq!(out[..8], [0x01, 0xFD, 0xC0, 0x09, 0xD3, 0xA7, 0x03, 0x03]);
    assert_eq!(out[8..], [0xAA; 4]);
    let mut out = [0xAA; 2];
    assert_eq!(plan(&printed().bytes(), 1, &mut out), planned(1));
    assert_eq!(out, [0x00, 0xAA]);
}

#[test]
fn k1_as_printed() {
    assert_eq!(printed().right(), [(200_000 - 44_227, 210_000, 3)]);
}

fn k2() -> Draft {
    printed().with(FLARE_B, 0)
}

#[test]
fn k2_no_flare() {
    assert_eq!(k2().right(), [(200_000 - 67_334, 210_000, 3)]);
}

#[test]
fn k3_reach_cut_at_the_clear_zone() {
    let job = k2().with(LF, 88_000).with(C, 8_500).with(M, 2_000);
    assert_eq!(job.right(), [(200_000 - 67_295, 210_000, 3)]);
}

fn k4() -> Draft {
    k2().with(LO, 101_000).with(W, 3_500)
}

#[test]
fn k4_far_traffic() {
    assert_eq!(k4().right(), [(132_666, 238_056, 3)]);
}

#[test]
fn k4_on_the_left() {
    // On the left the opposite traffic is adjacent and the forward one far.
    let job = k4().with_hazard(SIDE, 1);
    let run = (200_000 - 28_056, 210_000 + 67_334, 3);
    assert_eq!(job.runs(1).unwrap(), [run]);
    assert_eq!(job.right(), []);
}

#[test]
fn one_way_on_the_left() {
    // With LO = 0 forward traffic is adjacent to the left side too.
    let job = k2().with_hazard(SIDE, 1);
    assert_eq!(job.runs(1).unwrap(), [(132_666, 210_000, 3)]);
}

#[test]
fn k5_far_traffic_reaches_no_more() {
    assert_eq!(k4().with_hazard(N, 5_499).right(), [(132_666, 238_056, 3)]);
    assert_eq!(k4().with_hazard(N, 5_500).right(), [(132_666, 210_000, 3)]);
}

#[test]
fn k6_the_clear_zone() {
    let covered = printed().with_hazard(N, 8_999);
    assert_eq!(covered.right(), [(155_773, 210_000, 3)]);
    assert_eq!(printed().with_hazard(N, 9_000).right(), []);
}

#[test]
fn k7_deflection() {
    let planned = printed().with_hazard(N, 4_000);
    assert_eq!(planned.right(), [(155_773, 210_000, 3)]);
    assert_eq!(printed().with_hazard(N, 3_999).refused(), (5, 0));
}

#[test]
fn k8_the_road_begin() {
    let begins_at_0 = k2().with_hazard(S, 67_334);
    assert_eq!(begins_at_0.right(), [(0, 210_000, 3)]);
    assert_eq!(begins_at_0.overhangs(0), (0, 0));
    let a_millimetre_before = k2().with_hazard(S, 67_333);
    assert_eq!(a_millimetre_before.right(), [(0, 210_000, 3)]);
    assert_eq!(a_millimetre_before.overhangs(0), (1, 0));
}

#[test]
fn the_road_end() {
    let ends_at_b = k4().with(B, 238_056);
    assert_eq!(ends_at_b.right(), [(132_666, 238_056, 3)]);
    assert_eq!(ends_at_b.overhangs(0), (0, 0));
    let a_millimetre_behind = k4().with(B, 238_055);
    assert_eq!(a_millimetre_behind.right(), [(132_666, 238_055, 3)]);
    assert_eq!(a_millimetre_behind.overhangs(0), (0, 1));
}

/// Two envelopes of level 2, `apart` from each other, at G = 50,000.
fn k9(apart: u64) -> Draft {
    let second = 210_000 + apart + 44_227;
    printed().with(G, 50_000).with_hazards(&[
        [0, 200_000, 210_000, 5_000, 9_000, 2],
        [0, second, second + 1_000, 5_000, 9_000, 2],
    ])
}

#[test]
fn k9_the_continuity_limit() {
    let end = 210_000 + 49_999 + 44_227 + 1_000;
    assert_eq!(k9(49_999).right(), [(155_773, end, 2)]);
    let second = (260_000, end + 1, 2);
    assert_eq!(k9(50_000).right(), [(155_773, 210_000, 2), second]);
}

#[test]
fn k10_each_level_separately() {
    let job = with_envelopes(50, &[(0, 100, 3), (140, 200, 1)]);
    assert_eq!(job.right(), [(0, 100, 3), (100, 200, 1)]);
    let job = with_envelopes(40, &[(0, 100, 3), (140, 200, 1)]);
    assert_eq!(job.right(), [(0, 100, 3), (140, 200, 1)]);
}

#[test]
fn touching_envelopes_of_one_level_are_one_run() {
    let job = with_envelopes(0, &[(100, 200, 2), (0, 100, 2)]);
    assert_eq!(job.right(), [(0, 200, 2)]);
    let job = with_envelopes(0, &[(100, 200, 2), (0, 100, 4)]);
    assert_eq!(job.right(), [(0, 100, 4), (100, 200, 2)]);
}

#[test]
fn both_sides_in_the_listing() {
    let job = k4().with_hazards(&[
        [1, 200_000, 210_000, 5_000, 9_000, 3],
        [0, 200_000, 210_000, 5_000, 9_000, 6],
    ]);
    let expected = "R 132666 238056 6\nL 171944 277334 3\ntotal 105390 105390\n";
    assert_eq!(program::text(&job.bytes()), expected);
    assert_eq!(program::text(&job.with_hazards(&[]).bytes()), "total 0 0\n");
}

#[test]
fn the_program_refuses() {
    assert_eq!(program::text(&[]), "refused 1 0\n");
    let near = printed().with_hazard(N, 3_999);
    assert_eq!(program::text(&near.bytes()), "refused 5 0\n");
    let mut long = printed().bytes();
    let length = long.len();
    long.resize(20_000, 0);
    assert_eq!(program::text(&long), format!("refused 7 {length}\n"));
}

#[test]
fn no_accepted_job_is_8192_bytes_long() {
    // The longest numbers that any field admits.
    let header = [
        2,
        999_000_000_000,
        1_000_000_000_000,
        200_000,
        200_000,
        30_000,
        20_000,
        20_000,
        5_000,
        100,
        10,
        100_000,
        200_000,
        10_000,
    ];
    let hazards = vec![[1, 999_500_000_000, 999_600_000_000, 60_000, 60_000, 6]; 256];
    let job = Draft { header, hazards };
    assert_eq!(job.bytes().len(), 5_162);
    assert!(job.bytes().len() < program::PASSED_ON);
    assert_eq!(program::text(&job.bytes()), "total 0 0\n");
}

fn schedule_of(job: &Draft) -> Vec<u8> {
    planned(&job.bytes(), 0).unwrap()
}

#[test]
fn lots_share_no_millimetre() {
    let schedule = schedule_of(&with_envelopes(50, &[(0, 100, 3), (140, 200, 1)]));
    assert_eq!(quantity(&schedule, 3, 0, 100), Ok(100));
    assert_eq!(quantity(&schedule, 3, 100, 200), Ok(0));
    assert_eq!(quantity(&schedule, 1, 0, 100), Ok(0));
    assert_eq!(quantity(&schedule, 1, 0, 101), Ok(1));
    assert_eq!(quantity(&schedule, 1, 150, 150), Ok(0));
    assert_eq!(quantity(&schedule, 1, 0, u64::MAX), Ok(100));
    assert_eq!(quantity(&schedule, 1, u64::MAX, u64::MAX), Ok(0));
}

#[test]
fn the_record_of_a_station() {
    let right = schedule_of(&with_envelopes(50, &[(0, 100, 3), (140, 200, 1)]));
    assert_eq!(right, [2, 0, 100, 3, 0, 100, 1]);
    let at = |side, station| {
        let found = lookup(&right, &[0x00], side, station);
        (found.start, found.length, found.outcome)
    };
    assert_eq!(at(0, 0), (1, 3, Outcome::Found));
    assert_eq!(at(0, 99), (1, 3, Outcome::Found));
    assert_eq!(at(0, 100), (4, 3, Outcome::Found));
    assert_eq!(at(0, 199), (4, 3, Outcome::Found));
    assert_eq!(at(0, 200), (0, 0, Outcome::None));
    assert_eq!(at(0, u64::MAX), (0, 0, Outcome::None));
    assert_eq!(at(1, 0), (0, 0, Outcome::None));
}

#[test]
fn most_runs_are_511() {
    let mut envelopes = vec![(0, 10_000, 1)];
    envelopes.extend((0..255).map(|i| (10 + 20 * i, 20 + 20 * i, 2 + i % 5)));
    let runs = with_envelopes(0, &envelopes).right();
    assert_eq!(runs.len(), 511);
    assert_eq!(runs[0], (0, 10, 1));
    assert_eq!(runs[1], (10, 20, 2));
    assert_eq!(runs[510], (5_100, 10_000, 1));
}
