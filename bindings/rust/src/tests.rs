//! The calls and what stands around them, with the engine that is linked.

use crate::numbers::Reader;
use crate::*;
use std::fmt;

/// The manual's sample job, and its right schedule.
const PRINTED: [u8; 34] = [
    0x01, 0x00, 0xC0, 0x84, 0x3D, 0x88, 0x95, 0x06, 0x00, 0xA8, 0x46, 0x00, 0xB8, 0x17, 0xE8, 0x07,
    0x0F, 0x01, 0x9C, 0x68, 0x00, 0x01, 0x00, 0xC0, 0x9A, 0x0C, 0xD0, 0xE8, 0x0C, 0x88, 0x27, 0xA8,
    0x46, 0x03,
];
const PRINTED_RIGHT: [u8; 8] = [0x01, 0xFD, 0xC0, 0x09, 0xD3, 0xA7, 0x03, 0x03];

fn printed() -> Job {
    Job::decode(&PRINTED).expect("the printed job")
}

fn opened() -> OpenJob {
    OpenJob::new(&printed().header.encode()).expect("its header opens")
}

fn refusal<T: fmt::Debug>(answer: Result<T, Refusal>) -> Refusal {
    answer.expect_err("to be refused")
}

#[test]
fn the_engine_fits() {
    let linked = version();
    assert!(linked.fits(), "{linked} is linked, not {VERSION}");
    assert_eq!(Version::WRITTEN_FOR.to_string(), VERSION);
    let version = |major, minor, patch| Version {
        major,
        minor,
        patch,
    };
    let wanted = version(3, 2, 5);
    assert!(wanted.serves(wanted));
    assert!(version(3, 3, 0).serves(wanted));
    assert!(!version(3, 2, 4).serves(wanted));
    assert!(!version(4, 2, 5).serves(wanted));
    assert!(!version(2, 9, 9).serves(wanted));
}

#[test]
fn numbers_are_those_of_the_manual() {
    let table: [(u64, &[u8]); 6] = [
        (0, &[0x00]),
        (127, &[0x7F]),
        (128, &[0x80, 0x01]),
        (155_773, &[0xFD, 0xC0, 0x09]),
        (999_000_155_773, &[0xFD, 0xCC, 0xB2, 0xC8, 0x89, 0x1D]),
        (4_398_046_511_103, &[0xFF, 0xFF, 0xFF, 0xFF, 0xFF, 0x7F]),
    ];
    for (number, bytes) in table {
        let mut written = Vec::new();
        put_number(&mut written, number);
        assert_eq!(written, bytes);
        let mut reader = Reader { bytes, at: 0 };
        assert_eq!(reader.number(), Ok(number));
        assert_eq!(reader.end(), Ok(()));
    }
}

/// Each field in its place, by numbers that differ.
#[test]
fn a_header_is_written_in_its_order() {
    let mut header = Header {
        begin: 10,
        end: 11,
        runout_forward: 12,
        runout_opposite: 13,
        clear_zone: 14,
        centreline: 15,
        barrier_offset: 16,
        deflection: 17,
        flare_along: 18,
        flare_across: 19,
        straight: 20,
        continuity: 21,
        panel: None,
    };
    let kind_1 = [1, 10, 11, 12, 13, 14, 15, 16, 17, 18, 19, 20, 21, 0];
    let kind_2 = [2, 10, 11, 12, 13, 14, 15, 16, 17, 18, 19, 20, 21, 22, 0];
    assert_eq!(header.encode(), kind_1);
    assert_eq!(Job::decode(&kind_1).map(|job| job.header), Ok(header));
    header.panel = Some(22);
    assert_eq!(header.encode(), kind_2);
    assert_eq!(Job::decode(&kind_2).map(|job| job.header), Ok(header));
}

#[test]
fn hazards_are_written_in_their_order() {
    let mut job = printed();
    job.header.panel = Some(4_000);
    job.hazards.push(Hazard {
        side: 1,
        start: 2,
        end: 3,
        near_offset: 4,
        far_offset: 5,
        level: 6,
    });
    let bytes = job.encode();
    assert_eq!(bytes[bytes.len() - 6..], [1, 2, 3, 4, 5, 6]);
    assert_eq!(Job::decode(&bytes), Ok(job));
    assert_eq!(printed().encode(), PRINTED);
}

/// A job that is cut or lengthened is a fault at the byte that the engine
/// names too.
#[test]
fn a_job_ends_where_it_should() {
    let byte_of = |bytes: &[u8]| match Job::decode(bytes) {
        Err(Fault {
            place: Place::Byte(at),
            ..
        }) => at as u64,
        other => panic!("{other:?}"),
    };
    for length in 0..PRINTED.len() {
        let cut = &PRINTED[..length];
        let Refusal { number, value, .. } = refusal(plan_side(cut, RIGHT));
        assert_eq!((number, value), (JOB_ENDED, byte_of(cut)));
    }
    let longer = [&PRINTED[..], &[0]].concat();
    let Refusal { number, value, .. } = refusal(plan_side(&longer, RIGHT));
    assert_eq!((number, value), (JOB_LEFT_OVER, byte_of(&longer)));
}

/// The engine says the same number at the same byte.
#[test]
fn a_number_has_one_form() {
    for wrong in [&[0x80, 0x00][..], &[0xFF; 6], &[0xFF; 7]] {
        let job = [&PRINTED[..1], wrong, &PRINTED[2..]].concat();
        let fault = Job::decode(&job).expect_err("no number");
        assert_eq!(fault.place, Place::Byte(1));
        let Refusal { number, value, .. } = refusal(plan_side(&job, RIGHT));
        assert_eq!((number, value), (NUMBER_MALFORMED, 1));
    }
}

#[test]
fn kinds_and_counts_have_an_end() {
    for kind in [0, 3] {
        let mut job = PRINTED;
        job[0] = kind;
        let fault = Job::decode(&job).expect_err("no kind");
        assert_eq!(fault.to_string(), "byte 0: the kind is neither 1 nor 2");
    }
    let mut many = printed();
    many.hazards = vec![many.hazards[0]; HAZARDS_MAX];
    assert_eq!(Job::decode(&many.encode()), Ok(many.clone()));
    many.hazards.push(many.hazards[0]);
    let fault = Job::decode(&many.encode()).expect_err("257 hazards");
    assert_eq!(fault.to_string(), "byte 21: the hazard count is above 256");
}

#[test]
fn a_schedule_is_its_runs() {
    let right = plan_side(&PRINTED, RIGHT).expect("the printed job is planned");
    let runs = [Run {
        start: 155_773,
        end: 210_000,
        level: NC_3,
    }];
    assert_eq!(right.schedule, PRINTED_RIGHT);
    assert_eq!(decode_schedule(&right.schedule).as_deref(), Ok(&runs[..]));
    assert_eq!(encode_schedule(&runs).as_deref(), Ok(&PRINTED_RIGHT[..]));
    assert_eq!(decode_record(&PRINTED_RIGHT[1..]), Ok([155_773, 54_227, 3]));
    assert_eq!(decode_schedule(&[0]), Ok(vec![]));
    assert_eq!(encode_schedule(&[]), Ok(vec![0]));
}

/// With any one byte of a schedule changed, lost or added, the engine and
/// this crate agree on whether it is one.
#[test]
fn what_the_engine_refuses_is_a_fault() {
    let agree = |bytes: &[u8]| {
        let engine = quantity(bytes, NC_1, 0, 0).map_err(|refusal| refusal.number);
        let here = decode_schedule(bytes);
        match engine {
            Ok(_) => assert_eq!(
                here.and_then(|runs| encode_schedule(&runs)),
                Ok(bytes.into())
            ),
            Err(number) => {
                assert_eq!(number, NO_SCHEDULE);
                assert!(here.is_err(), "{bytes:02X?}");
            }
        }
        engine.is_ok()
    };
    // Three runs, of which two touch; the last ends at the greatest station.
    let schedule = [
        3, 5, 2, 1, 0, 2, 2, 1, 0xF6, 0x9F, 0x94, 0xA5, 0x8D, 0x1D, 3,
    ];
    assert!(agree(&schedule));
    let mut accepted = 0;
    for at in 0..schedule.len() {
        for byte in 0..=u8::MAX {
            let mut changed = schedule;
            changed[at] = byte;
            accepted += u32::from(agree(&changed));
        }
        agree(&schedule[..at]);
        agree(&schedule[at..]);
    }
    assert!(!agree(&[&schedule[..], &[0]].concat()));
    assert!(
        accepted > 100,
        "only {accepted} of the changed ones are schedules"
    );
}

#[test]
fn runs_that_make_no_schedule() {
    let run = |start, end, level| Run { start, end, level };
    let fault = |runs: &[Run]| encode_schedule(runs).expect_err("a fault").to_string();
    assert_eq!(fault(&[run(5, 5, 1)]), "run 0: it has no length");
    assert_eq!(fault(&[run(5, 6, 0)]), "run 0: its level is not 1 to 6");
    assert_eq!(
        fault(&[run(0, STATION_MAX + 1, 1)]),
        "run 0: it ends after the greatest station"
    );
    assert_eq!(
        fault(&[run(5, 6, 1), run(5, 7, 2)]),
        "run 1: it begins before the end of the run before it"
    );
    assert_eq!(
        fault(&[run(5, 6, 1), run(6, 7, 1)]),
        "run 1: it touches the run before it, which has the same level"
    );
    let mut many: Vec<Run> = (0..RUNS_MAX as u64)
        .map(|i| run(2 * i, 2 * i + 1, 1))
        .collect();
    let schedule = encode_schedule(&many).expect("511 runs");
    assert_eq!(quantity(&schedule, NC_1, 0, STATION_MAX), Ok(511));
    many.push(run(2_000, 2_001, 1));
    assert_eq!(fault(&many), "run 511: a schedule has at most 511 runs");
}

/// What an open job has is what was added, and its schedule that of its job.
#[test]
fn an_open_job_can_be_read() {
    let mut job = opened();
    let headwall = printed().hazards[0];
    let tree = Hazard {
        side: LEFT,
        start: 400_000,
        end: 400_700,
        near_offset: 4_500,
        far_offset: 4_900,
        level: NC_2,
    };
    assert_eq!(job.add(65_535, headwall), Ok(()));
    assert_eq!(job.add(300, tree), Ok(()));
    let standing: Vec<(u16, Hazard)> = job.standing().collect();
    assert_eq!(standing, [(300, tree), (65_535, headwall)]);
    assert_eq!(job.job().header, printed().header);
    let bytes = job.job().encode();
    for side in [RIGHT, LEFT] {
        assert_eq!(job.plan_side(side), plan_side(&bytes, side));
    }
    let mut panels = printed().header;
    panels.panel = Some(4_000);
    let job = OpenJob::new(&panels.encode()).expect("kind 2 opens");
    assert_eq!(job.job().header, panels);
}

/// The engine's own refusals of a job's bytes.
#[test]
fn refusals_of_a_job_in_words() {
    let planned = |job: &Job| refusal(plan_side(&job.encode(), RIGHT)).to_string();
    let mut wrong = printed();
    wrong.header.barrier_offset = 20_001;
    assert_eq!(
        planned(&wrong),
        "refused 3 with 8, header number 8, barrier offset M, is outside its range"
    );
    let mut wrong = printed();
    wrong.hazards[0].level = 7;
    assert_eq!(
        planned(&wrong),
        "refused 4 with 0, a field of hazard 0 is outside its range"
    );
    let mut wrong = printed();
    wrong.hazards[0].near_offset = 3_999;
    assert_eq!(
        planned(&wrong),
        "refused 5 with 0, hazard 0 leaves the barrier no room to deflect"
    );
    assert_eq!(
        format!("{:?}", refusal(plan_side(&PRINTED[..5], LEFT))),
        "Plan { side: 1 } refused 1 with 5, the job ends before or inside the number at byte \
         5; hand over all of the job's bytes, with as many hazards as its hazard count says"
    );
    let mut out = [0; 7];
    assert_eq!(
        format!("{:#}", refusal(plan(&PRINTED, RIGHT, &mut out))),
        "refused 9 with 8, the schedule takes 8 bytes; lend as many bytes; \
         BARRIER_SCHEDULE_MAX, 5624, always suffice"
    );
    assert_eq!(
        format!("{:#}", refusal(level(&PRINTED, 2, 0))),
        "refused 8 with 0, the side is neither 0 (right) nor 1 (left); \
         ask for BARRIER_RIGHT or BARRIER_LEFT"
    );
}

/// The hazard that is asked for is in the call; the reply has it not.
#[test]
fn refusals_of_an_approach() {
    let words = "refused 14 with 0, no such hazard, or adjacent traffic does not reach it; \
                 hazards count from 0";
    let corners = refusal(corners(&PRINTED, 9, 0, 0));
    let offset = refusal(offset(&PRINTED, 9, 0));
    assert!(format!("{corners:#}").starts_with(words), "{corners:#}");
    assert!(format!("{offset:#}").starts_with(words), "{offset:#}");
    assert_eq!(corners.call, Call::Corners { hazard: 9 });
    assert_eq!(
        refusal(super::corners(&PRINTED, 0, STATION_MAX + 1, 0)).to_string(),
        "refused 8 with 0, a number of the sheet corner is above 1000000000000"
    );
}

/// The manual's figures, of a job and of an open one, on either side.
#[test]
fn reaches_are_those_of_the_manual() {
    let table = [
        (
            200_000..210_000,
            5_000,
            0,
            155_773..210_000,
            0,
            155_773..210_000,
        ),
        (
            200_000..210_000,
            5_000,
            50_000,
            155_773..210_000,
            0,
            105_773..260_000,
        ),
        (20_000..30_000, 5_000, 50_000, 0..30_000, 24_227, 0..80_000),
        (200_000..210_000, 9_000, 50_000, 0..0, 0, 0..0),
    ];
    for (stations, near_offset, continuity, envelope, before, stretch) in table {
        for side in [RIGHT, LEFT] {
            let mut job = printed();
            job.header.continuity = continuity;
            job.hazards[0] = Hazard {
                side,
                start: stations.start,
                end: stations.end,
                near_offset,
                ..job.hazards[0]
            };
            let wanted = Reach {
                side,
                envelope: envelope.clone(),
                before,
                after: 0,
                stretch: stretch.clone(),
            };
            assert_eq!(wanted.is_reached(), near_offset < 9_000);
            assert_eq!(reach(&job.encode(), 0).as_ref(), Ok(&wanted));
            let mut open = OpenJob::new(&job.header.encode()).expect("its header opens");
            assert_eq!(open.add(65_535, job.hazards[0]), Ok(()));
            let unchanged = open.clone();
            assert_eq!(open.reach(65_535), Ok(wanted));
            assert!(open == unchanged);
        }
    }
}

#[test]
fn refusals_of_a_reach() {
    let none = refusal(reach(&PRINTED, 1));
    assert_eq!(
        format!("{none:#}"),
        "refused 14 with 0, there is no such hazard in the job; hazards count from 0 in the \
         job's order"
    );
    assert_eq!(none.call, Call::Reach { hazard: 1 });
    assert_eq!(
        refusal(opened().reach(9)).to_string(),
        "refused 12 with 9, the name 9 does not stand"
    );
    let mut broken = opened();
    broken.memory.count = 1;
    assert_eq!(
        refusal(broken.reach(0)).to_string(),
        "refused 3 with 0, the memory is not an open job"
    );
}

/// The engine's own refusals on an open job: names, not indices.
#[test]
fn refusals_of_an_open_job_in_words() {
    let mut job = opened();
    let headwall = printed().hazards[0];
    let said = |answer: Result<(), Refusal>| refusal(answer).to_string();
    let wrong = Hazard {
        level: 0,
        ..headwall
    };
    assert_eq!(
        said(job.add(700, wrong)),
        "refused 4 with 700, a field of the hazard to be named 700 is outside its range"
    );
    let near = Hazard {
        near_offset: 0,
        ..headwall
    };
    assert_eq!(
        said(job.add(700, near)),
        "refused 5 with 700, the hazard to be named 700 leaves the barrier no room to deflect"
    );
    assert_eq!(
        said(job.withdraw(7)),
        "refused 12 with 7, the name 7 does not stand"
    );
    assert_eq!(job.add(7, headwall), Ok(()));
    assert_eq!(
        said(job.add(7, headwall)),
        "refused 12 with 7, the name 7 stands already"
    );
    assert_eq!(
        said(job.keep(8)),
        "refused 13 with 0, the state number is above 7"
    );
    assert_eq!(
        format!("{:#}", refusal(job.return_to(3))),
        "refused 13 with 0, the state number is above 7, or nothing is kept under it; \
         return to a number from 0 to 7 that was kept since the job was opened"
    );
    for name in 1_000..1_255 {
        assert_eq!(job.add(name, headwall), Ok(()));
    }
    assert_eq!(
        said(job.add(8, headwall)),
        "refused 15 with 0, 256 hazards stand already"
    );
    assert_eq!(
        format!("{:#}", refusal(job.open(&PRINTED))),
        "refused 3 with 14, header number 14, hazard count h (kind 1) or panel length \
         (kind 2), is outside its range; to open a job its hazard count (kind 1) has to be \
         0, hazards are added afterwards; a panel length (kind 2) has to be 1 to 10000"
    );
    let mut never_opened = OpenJob {
        memory: c::OpenJob::UNOPENED,
    };
    assert_eq!(
        said(never_opened.keep(0)),
        "refused 3 with 0, the memory is not an open job"
    );
}

#[test]
fn refusals_of_schedules_and_layouts_in_words() {
    let said = |refusal: Refusal| refusal.to_string();
    assert_eq!(
        said(refusal(quantity(&PRINTED_RIGHT, NC_3, 2, 1))),
        "refused 8 with 0, the level is not 1 to 6, or p is above q"
    );
    assert_eq!(
        said(refusal(quantities(&PRINTED_RIGHT, NC_3, &[(0, 1); 65]))),
        "refused 11 with 0, more than 64 ranges"
    );
    assert_eq!(
        said(refusal(lookup(&[], &[], RIGHT, 0))),
        "refused 10 with 0, these bytes are not a schedule"
    );
    assert_eq!(
        said(refusal(layout(&[], 1, TRIES_MAX))),
        "refused 16 with 0, no panel length, too many, or one outside its range"
    );
    assert_eq!(
        said(refusal(layout(&[4_000], 1, 0))),
        "refused 17 with 0, a limit of no tries, or of more than 65536"
    );
}

/// 6 is not given any more, and 18 not yet; tests/refusals.rs has all rows.
#[test]
fn what_is_not_given_is_said_to_be_that() {
    let said = |call, number, value| {
        let refusal = Refusal {
            call,
            number,
            value,
        };
        (refusal.reason(), refusal.remedy())
    };
    let (reason, remedy) = said(Call::Add, 6, 0);
    assert_eq!(
        reason,
        "a number that barrier.h does not have for this call"
    );
    assert!(remedy.starts_with("look whether"));
    assert_eq!(said(Call::Add, 18, 0).0, reason);
    assert_eq!(said(Call::Plan { side: 0 }, HEADER_RANGE, 0).0, reason);
    assert_eq!(said(Call::Plan { side: 0 }, HEADER_RANGE, 16).0, reason);
    assert_ne!(said(Call::Plan { side: 0 }, HEADER_RANGE, 15).0, reason);
    assert_eq!(said(Call::Layout, DONE, 0).0, "done");
}

#[test]
fn kilometres_there_and_back() {
    for (station, mm) in [
        ("0+000.000", 0),
        ("1+250.000", 1_250_000),
        ("999000+155.773", 999_000_155_773),
        ("1000000+000.000", STATION_MAX),
    ] {
        assert_eq!(kilometres(mm), station);
        assert_eq!(mm_of_kilometres(station), Some(mm));
    }
    assert_eq!(mm_of_kilometres("1+250"), Some(1_250_000));
    for wrong in [
        "",
        "+",
        "1+",
        "+250",
        "1250",
        "1+25",
        "1+2500",
        "1+250.",
        "1+250.00",
        "1+250.0000",
        "1+250,000",
        "-1+250",
        "1++50",
        "1+250+000",
        "1.5+250",
        " 1+250",
        "1000000+000.001",
        "99999999999999999999+000",
    ] {
        assert_eq!(mm_of_kilometres(wrong), None, "{wrong}");
    }
}

/// The figures of barrier.h, "Sides and traffic", where traffic drives on the
/// right and on the left.
#[test]
fn sides_are_swapped() {
    let mut job = printed();
    job.header.runout_opposite = 101_000;
    job.header.centreline = 3_500;
    job.header.flare_across = 0;
    let mut run_of = |side| {
        job.hazards[0].side = side;
        let planned = plan_side(&job.encode(), side).expect("a plan");
        let runs = decode_schedule(&planned.schedule).expect("a schedule");
        (runs[0].start, runs[0].end)
    };
    assert_eq!(run_of(RIGHT), (132_666, 238_056));
    assert_eq!(run_of(LEFT), (171_944, 277_334));
    assert_eq!(run_of(swap_side(LEFT)), (132_666, 238_056));
    assert_eq!(run_of(swap_side(RIGHT)), (171_944, 277_334));
    assert_eq!(swap_side(2), 2);
}

/// The figures of the sample job, towards falling stations, and back.
#[test]
fn a_road_is_turned_round() {
    let mut job = printed();
    let Header { begin, end, .. } = job.header;
    let headwall = job.hazards[0];
    let turned = turn_hazard(begin, end, headwall);
    assert_eq!(
        (turned.side, turned.start, turned.end),
        (LEFT, 790_000, 800_000)
    );
    assert_eq!(turn_hazard(begin, end, turned), headwall);
    job.hazards[0] = turned;
    let bytes = job.encode();
    let planned = plan_side(&bytes, swap_side(RIGHT)).expect("a plan");
    let run = decode_schedule(&planned.schedule).expect("a schedule")[0];
    assert_eq!((run.start, run.end), (745_773, 800_000));
    let back = turn_run(begin, end, run);
    assert_eq!((back.start, back.end, back.level), (200_000, 254_227, 3));
    let upstream = corners(&bytes, 0, 0, 0).expect("corners").upstream;
    let upstream = turn_corner(begin, end, upstream);
    assert_eq!((upstream.station, upstream.offset), (254_227.0, 5_059.0));
    let at = |station| level(&bytes, LEFT, turn_station(begin, end, station));
    assert_eq!(at(254_226), Ok(NC_3));
    assert_eq!(at(254_227), Ok(0));
    assert_eq!(at(199_999), Ok(0));
    assert_eq!(at(200_000), Ok(NC_3));
    assert_eq!(turn_overhangs(1, 2), (2, 1));
}

#[test]
fn metres_are_rounded_as_said() {
    // Down, to the nearest, up.
    for (text, wanted) in [
        ("0", [0, 0, 0]),
        ("155.773", [155_773; 3]),
        ("155.7730000", [155_773; 3]),
        ("155.7725", [155_772, 155_773, 155_773]),
        ("155.7724999", [155_772, 155_772, 155_773]),
        (".0005", [0, 1, 1]),
        (".00000001", [0, 0, 1]),
        ("7.", [7_000; 3]),
        ("1000000000", [STATION_MAX; 3]),
    ] {
        let [down, nearest, up] = wanted.map(Some);
        assert_eq!(millimetres_of_text(text, Rounding::Down), down, "{text}");
        assert_eq!(
            millimetres_of_text(text, Rounding::Nearest),
            nearest,
            "{text}"
        );
        assert_eq!(millimetres_of_text(text, Rounding::Up), up, "{text}");
    }
    for text in [
        "1000000000.0005",
        "99999999999999999999",
        "",
        ".",
        "-",
        "-1",
        "+1",
        "1,5",
        "1.5.5",
        "1e3",
        " 1",
        "1 m",
    ] {
        assert_eq!(millimetres_of_text(text, Rounding::Nearest), None, "{text}");
    }
    for (number, wanted) in [
        (155.773, Some(155_773)),
        (0.0005, Some(1)),
        (0.000_499, Some(0)),
        (-0.000_4, Some(0)),
        (-0.001, None),
        (1e9, Some(STATION_MAX)),
        (1e9 + 0.001, None),
        (f64::NAN, None),
        (f64::INFINITY, None),
    ] {
        assert_eq!(millimetres(number), wanted, "{number}");
    }
    // No millimetre of a long road is lost on the way.
    for count in (0..STATION_MAX).step_by(9_999_999_937) {
        assert_eq!(millimetres(count as f64 / 1000.0), Some(count));
        assert_eq!(
            millimetres_of_text(&metres(count), Rounding::Down),
            Some(count)
        );
    }
}
