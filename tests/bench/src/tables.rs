//! The tables in Markdown.

use std::hint::black_box;
use std::process::ExitCode;

use cases::calls::{
    contract, corners_reply, layout_reply, offset_reply, plan_reply, reach_reply, record, reply,
};
use cases::{Memory, ReachReply, Reply};
use reference::layout::MOST_TRIES;

use crate::jobs::{self, Kind, LAST, Order, ROAD_END};
use crate::time::{self, Pair, Times};

const COUNTS: [u64; 6] = [1, 8, 32, 64, 128, 256];

/// The time of planning one job.
struct Planned {
    kind: Kind,
    order: Order,
    hazards: u64,
    runs: usize,
    times: Times,
}

pub fn print() -> ExitCode {
    if !agree() {
        println!("The engine and the reference differ; nothing was measured.");
        return ExitCode::FAILURE;
    }
    let planned: Vec<Planned> = groups().into_iter().flat_map(measure_plan).collect();
    print_plan(&planned);
    print_growth(&planned);
    print_level();
    print_one_hazard();
    print_layout();
    print_quantity();
    print_contract();
    print_lookup();
    print_open_job();
    ExitCode::SUCCESS
}

/// Jobs of one kind and order with several numbers of hazards.
struct Group {
    kind: Kind,
    order: Order,
    counts: Vec<u64>,
}

fn groups() -> Vec<Group> {
    let mut list = Vec::new();
    for kind in [Kind::Sparse, Kind::Dense, Kind::Islands] {
        for order in [Order::Station, Order::Shuffled] {
            let counts = match kind {
                Kind::Islands => vec![256],
                _ => COUNTS.to_vec(),
            };
            list.push(Group {
                kind,
                order,
                counts,
            });
        }
    }
    list
}

impl Group {
    fn jobs(&self) -> Vec<Vec<u8>> {
        let job = |count: &u64| jobs::job(self.kind, self.order, *count);
        self.counts.iter().map(job).collect()
    }
}

/// Whether both plan the same bytes for every job that is measured.
fn agree() -> bool {
    groups().iter().flat_map(Group::jobs).all(|job| {
        let mut ours = vec![0; 8_192];
        let mut theirs = vec![0; 8_192];
        let expected = plan_reply(reference::plan(&job, 0, &mut ours));
        engine::plan(&job, 0, &mut theirs) == expected && ours == theirs
    })
}

/// The numbers of hazards are measured together, for the growth between them.
fn measure_plan(group: Group) -> Vec<Planned> {
    let jobs = group.jobs();
    let times = time::together(jobs.iter().map(|job| plan_pair(job)).collect());
    let row = |((hazards, job), times): ((&u64, &Vec<u8>), Times)| Planned {
        kind: group.kind,
        order: group.order,
        hazards: *hazards,
        runs: jobs::runs(&jobs::schedule(job)).len(),
        times,
    };
    group.counts.iter().zip(&jobs).zip(times).map(row).collect()
}

fn plan_pair(job: &[u8]) -> Pair<'_> {
    let mut engine_out = vec![0; 8_192];
    let mut reference_out = vec![0; 8_192];
    Pair {
        engine: Box::new(move || {
            black_box(engine::plan(black_box(job), 0, &mut engine_out));
        }),
        reference: Box::new(move || {
            let _ = black_box(reference::plan(black_box(job), 0, &mut reference_out));
        }),
    }
}

fn print_plan(planned: &[Planned]) {
    println!("Plan, ns per call:\n");
    println!("| job | order | hazards | runs | engine | reference | engine/reference |");
    println!("|---|---|---:|---:|---:|---:|---:|");
    for row in planned {
        println!(
            "| {} | {} | {} | {} | {} |",
            row.kind.name(),
            row.order.name(),
            row.hazards,
            row.runs,
            columns(&row.times)
        );
    }
}

fn columns(times: &Times) -> String {
    let Times { engine, reference } = times;
    format!("{engine:.0} | {reference:.0} | {:.2}", times.ratio())
}

/// How many times longer four times as many hazards take.
fn print_growth(planned: &[Planned]) {
    println!("\nGrowth of plan from 64 to 256 hazards:\n");
    println!("| job | order | engine | reference |");
    println!("|---|---|---:|---:|");
    let with = |row: &Planned, hazards| {
        let same = |other: &&Planned| {
            other.kind == row.kind && other.order == row.order && other.hazards == hazards
        };
        planned.iter().find(same)
    };
    for few in planned.iter().filter(|row| row.hazards == 64) {
        if let Some(many) = with(few, 256) {
            let engine = many.times.engine / few.times.engine;
            let reference = many.times.reference / few.times.reference;
            let (kind, order) = (few.kind.name(), few.order.name());
            println!("| {kind} | {order} | {engine:.2} | {reference:.2} |");
        }
    }
}

fn print_level() {
    println!("\nLevel at a station in the middle run, ns per call:\n");
    println!("| job | order | hazards | engine | reference | engine/reference |");
    println!("|---|---|---:|---:|---:|---:|");
    for kind in [Kind::Sparse, Kind::Dense, Kind::Islands] {
        let job = jobs::job(kind, Order::Shuffled, 256);
        let station = jobs::middle(&job);
        let pair = Pair {
            engine: Box::new(|| {
                black_box(engine::level(black_box(&job), 0, station));
            }),
            reference: Box::new(|| {
                let _ = black_box(reference::level(black_box(&job), 0, station));
            }),
        };
        let (name, order) = (kind.name(), Order::Shuffled.name());
        println!("| {name} | {order} | 256 | {} |", columns(&pair.times()));
    }
}

/// The calls on one hazard of the sparse job.
fn print_one_hazard() {
    println!("\nOf the last of 256 hazards, sparse and shuffled, ns per call:\n");
    println!("| call | engine | reference | engine/reference |");
    println!("|---|---:|---:|---:|");
    let job = jobs::job(Kind::Sparse, Order::Shuffled, 256);
    let (station, offset) = jobs::SHEET;
    let corners = Pair {
        engine: Box::new(|| {
            black_box(engine::corners(black_box(&job), LAST, station, offset));
        }),
        reference: Box::new(|| {
            let given = reference::corners(black_box(&job), LAST, station, offset);
            black_box(corners_reply(given));
        }),
    };
    let longest = jobs::at_last_offset(&job);
    let smallest = Pair {
        engine: Box::new(|| {
            black_box(engine::offset(black_box(&job), LAST, longest));
        }),
        reference: Box::new(|| {
            let given = reference::offset(black_box(&job), LAST, longest);
            black_box(offset_reply(given));
        }),
    };
    let reach = Pair {
        engine: Box::new(|| {
            black_box(engine::reach(black_box(&job), LAST));
        }),
        reference: Box::new(|| {
            black_box(reach_reply(reference::reach(black_box(&job), LAST)));
        }),
    };
    let pairs = [
        ("corners", corners),
        ("smallest offset", smallest),
        ("reach", reach),
    ];
    for (name, pair) in pairs {
        println!("| {name} | {} |", columns(&pair.times()));
    }
}

fn print_layout() {
    println!("\nLayouts of one run, all of them tried, ns per call:\n");
    println!("| lengths | tries | engine | reference | engine/reference |");
    println!("|---:|---:|---:|---:|---:|");
    for count in 1..=jobs::PANELS.len() {
        let lengths = &jobs::PANELS[..count];
        let pair = Pair {
            engine: Box::new(|| {
                black_box(engine::layout(black_box(lengths), jobs::RUN, MOST_TRIES));
            }),
            reference: Box::new(|| {
                let tried = reference::layout(black_box(lengths), jobs::RUN, MOST_TRIES);
                black_box(layout_reply(tried));
            }),
        };
        let tries = 16u64.pow(count as u32);
        println!("| {count} | {tries} | {} |", columns(&pair.times()));
    }
}

fn print_quantity() {
    println!("\nQuantity, ns per call, the road in one lot or in 64:\n");
    println!("| schedule of | runs | lots | engine | reference | engine/reference |");
    println!("|---|---:|---:|---:|---:|---:|");
    for (kind, hazards) in schedules() {
        let schedule = jobs::schedule(&jobs::job(kind, Order::Station, hazards));
        let runs = jobs::runs(&schedule);
        let end = runs.last().map_or(ROAD_END, |run| run.stretch.end);
        for lots in [1, 64] {
            let times = measure_quantity(&schedule, end, lots);
            let name = kind.name();
            println!("| {name} | {} | {lots} | {} |", runs.len(), columns(&times));
        }
    }
}

fn schedules() -> [(Kind, u64); 4] {
    [
        (Kind::Sparse, 1),
        (Kind::Sparse, 256),
        (Kind::Dense, 256),
        (Kind::Islands, 256),
    ]
}

/// The mean over the calls of all lots.
fn measure_quantity(schedule: &[u8], end: u64, lots: u64) -> Times {
    let stations: Vec<u64> = (0..=lots).map(|lot| end * lot / lots).collect();
    let each_lot = |call: &dyn Fn(u64, u64) -> u64| {
        let sum: u64 = stations.windows(2).map(|lot| call(lot[0], lot[1])).sum();
        black_box(sum);
    };
    let engine = |p, q| engine::quantity(black_box(schedule), 3, p, q).value;
    let reference = |p, q| reference::quantity(black_box(schedule), 3, p, q).unwrap_or(0);
    let pair = Pair {
        engine: Box::new(|| each_lot(&engine)),
        reference: Box::new(|| each_lot(&reference)),
    };
    let times = pair.times();
    Times {
        engine: times.engine / lots as f64,
        reference: times.reference / lots as f64,
    }
}

/// 64 lots in one call, beside one call for each.
fn print_contract() {
    println!("\nQuantities, ns for 64 lots over 511 runs:\n");
    println!("| schedule | runs of the level | calls | engine | reference | engine/reference |");
    println!("|---|---:|---:|---:|---:|---:|");
    let all = jobs::schedule_of_one_level(3);
    let half = jobs::schedule(&jobs::job(Kind::Islands, Order::Station, 256));
    for (name, schedule, level) in [("written", all, 3), ("planned", half, 1)] {
        let runs = jobs::runs(&schedule);
        let of_level = runs.iter().filter(|run| run.level == level).count();
        let lots = jobs::lots(&schedule);
        let one = measure_contract(&schedule, level, &lots);
        let each = measure_single_calls(&schedule, level, &lots);
        for (calls, times) in [(1, one), (lots.len() / 2, each)] {
            println!("| {name} | {of_level} | {calls} | {} |", columns(&times));
        }
    }
}

fn measure_contract(schedule: &[u8], level: u64, lots: &[u64]) -> Times {
    let pair = Pair {
        engine: Box::new(|| {
            black_box(engine::quantities(black_box(schedule), level, lots));
        }),
        reference: Box::new(|| {
            let given = reference::quantities(black_box(schedule), level, lots);
            black_box(contract(given));
        }),
    };
    pair.times()
}

fn measure_single_calls(schedule: &[u8], level: u64, lots: &[u64]) -> Times {
    let pair = Pair {
        engine: Box::new(|| {
            for lot in lots.chunks_exact(2) {
                black_box(engine::quantity(black_box(schedule), level, lot[0], lot[1]));
            }
        }),
        reference: Box::new(|| {
            for lot in lots.chunks_exact(2) {
                let given = reference::quantity(black_box(schedule), level, lot[0], lot[1]);
                black_box(reply(given));
            }
        }),
    };
    pair.times()
}

fn print_lookup() {
    println!("\nLookup, ns per call:\n");
    println!("| schedule of | runs | station in | engine | reference | engine/reference |");
    println!("|---|---:|---|---:|---:|---:|");
    for (kind, hazards) in schedules() {
        let schedule = jobs::schedule(&jobs::job(kind, Order::Station, hazards));
        let runs = jobs::runs(&schedule);
        let places = [
            ("the first run", runs[0].stretch.start),
            ("the middle run", runs[runs.len() / 2].stretch.start),
            ("the last run", runs[runs.len() - 1].stretch.start),
            ("no run", u64::MAX),
        ];
        for (place, station) in places {
            let times = measure_lookup(&schedule, station);
            let name = kind.name();
            println!(
                "| {name} | {} | {place} | {} |",
                runs.len(),
                columns(&times)
            );
        }
    }
}

/// Open jobs with 256 hazards, or 255 and one that is added.
fn print_open_job() {
    println!("\nOpen job of 256 hazards and 511 runs, ns per call:\n");
    println!("| call | full states kept | engine | reference | engine/reference |");
    println!("|---|---:|---:|---:|---:|");
    for (kept, open) in [(0, jobs::open()), (8, jobs::open_and_kept())] {
        for (name, times) in measure_open_job(&open) {
            println!("| {name} | {kept} | {} |", columns(&times));
        }
    }
    let memory = jobs::open_and_kept().memory;
    let keep = on_memory(
        &memory,
        |memory| engine::keep(memory, 3),
        |memory| reply(reference::keep(&mut memory.job, 3)),
    );
    let return_to = on_memory(
        &memory,
        |memory| engine::return_to(memory, 3),
        |memory| reply(reference::return_to(&mut memory.job, 3)),
    );
    for (name, pair) in [("keep", keep), ("return", return_to)] {
        println!("| {name} | 8 | {} |", columns(&pair.times()));
    }
}

fn measure_open_job(open: &jobs::Open) -> Vec<(&'static str, Times)> {
    let jobs::Open { memory, hazards } = open;
    let hazard = hazards[127];
    let mut fewer = memory.clone();
    reference::withdraw(&mut fewer.job, 127).expect("the name stands");
    let add = on_memory(
        &fewer,
        |memory| engine::add(memory, 127, hazard),
        |memory| reply(reference::add(&mut memory.job, 127, hazard)),
    );
    let withdraw = on_memory(
        memory,
        |memory| engine::withdraw(memory, 127),
        |memory| reply(reference::withdraw(&mut memory.job, 127)),
    );
    let (mut engine_out, mut reference_out) = (vec![0; 8_192], vec![0; 8_192]);
    let schedule = on_memory(
        memory,
        move |memory| engine::open_schedule(memory, 0, &mut engine_out).reply(),
        move |memory| {
            let planned = reference::open_schedule(&memory.job, 0, &mut reference_out);
            plan_reply(planned).reply()
        },
    );
    let reach = on_memory(
        memory,
        |memory| said(engine::open_reach(memory, 127)),
        |memory| said(reach_reply(reference::open_reach(&memory.job, 127))),
    );
    // Refused 13 next after the test of the memory.
    let test = on_memory(
        memory,
        |memory| engine::return_to(memory, 8),
        |memory| reply(reference::return_to(&mut memory.job, 8)),
    );
    let pairs = [
        ("add", add),
        ("withdraw", withdraw),
        ("schedule", schedule),
        ("reach", reach),
        ("test of the memory", test),
    ];
    pairs.map(|(name, pair)| (name, pair.times())).into()
}

/// What is timed is the call; of its reply one number is looked at.
fn said(reply: ReachReply) -> Reply {
    let reply = black_box(reply);
    Reply {
        number: reply.number,
        value: reply.to,
    }
}

/// A call on an open job; it is given a fresh copy each time.
fn on_memory<'a>(
    memory: &'a Memory,
    mut engine: impl FnMut(&mut Memory) -> Reply + 'a,
    mut reference: impl FnMut(&mut Memory) -> Reply + 'a,
) -> Pair<'a> {
    Pair {
        engine: Box::new(move || {
            black_box(engine(&mut black_box(memory).clone()));
        }),
        reference: Box::new(move || {
            black_box(reference(&mut black_box(memory).clone()));
        }),
    }
}

fn measure_lookup(schedule: &[u8], station: u64) -> Times {
    let left = [0];
    let pair = Pair {
        engine: Box::new(|| {
            black_box(engine::lookup(black_box(schedule), &left, 0, station));
        }),
        reference: Box::new(|| {
            let found = reference::lookup(black_box(schedule), &left, 0, station);
            black_box(record(found));
        }),
    };
    pair.times()
}
