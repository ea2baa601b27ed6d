//! One fixed case, called exactly as often as asked: the instructions of one
//! call are the difference between two counts.

use std::hint::black_box;

use cases::calls::{
    contract, corners_reply, layout_reply, offset_reply, plan_reply, reach_reply, record, reply,
};
use reference::layout::MOST_TRIES;
use reference::open::Name;

use crate::jobs::{self, Kind, LAST, Order, ROAD_END};

pub const NAMES: [&str; 33] = [
    "sparse-shuffled",
    "sparse-shuffled-64",
    "sparse-shuffled-8",
    "sparse-shuffled-1",
    "sparse-shuffled-panels-4000",
    "overhang-sparse-shuffled",
    "chainage-sparse-shuffled",
    "dense-shuffled",
    "runs511-shuffled",
    "runs511-ordered",
    "level-sparse-shuffled",
    "level-dense-shuffled",
    "corners-sparse-shuffled",
    "offset-sparse-shuffled",
    "reach-sparse-shuffled",
    "layout-4-all",
    "quantity-511",
    "quantities-64-all",
    "quantities-64-half",
    "quantity-64-single-calls",
    "lookup-511-middle",
    "open-opening",
    "open-add-255",
    "open-withdraw-256",
    "open-schedule-256",
    "open-reach-256",
    "open-add-255-kept",
    "open-withdraw-256-kept",
    "open-keep-256-kept",
    "open-return-256-kept",
    "open-reach-256-kept",
    "open-test-256",
    "open-test-256-kept",
];

/// The name that is added and withdrawn, in the middle of the others.
const NAME: Name = 127;

#[derive(Clone, Copy, PartialEq, Eq)]
enum Who {
    Engine,
    Reference,
}

pub struct Single {
    name: String,
    times: u64,
    who: Who,
}

pub fn read(arguments: &[String]) -> Option<Single> {
    let value = |option: &str| {
        let at = arguments.iter().position(|argument| argument == option)?;
        arguments.get(at + 1)
    };
    let name = value("--case")?.clone();
    let who = match value("--who")?.as_str() {
        "engine" => Who::Engine,
        "reference" => Who::Reference,
        _ => return None,
    };
    let times = value("--times")?.parse().ok()?;
    let known = NAMES.contains(&name.as_str()) && arguments.len() == 6;
    known.then_some(Single { name, times, who })
}

impl Single {
    pub fn run(&self) {
        match self.name.as_str() {
            "sparse-shuffled" => self.plan(jobs::job(Kind::Sparse, Order::Shuffled, 256)),
            "sparse-shuffled-64" => self.plan(jobs::job(Kind::Sparse, Order::Shuffled, 64)),
            "sparse-shuffled-8" => self.plan(jobs::job(Kind::Sparse, Order::Shuffled, 8)),
            "sparse-shuffled-1" => self.plan(jobs::job(Kind::Sparse, Order::Shuffled, 1)),
            "sparse-shuffled-panels-4000" => {
                let job = jobs::job_in_panels(Kind::Sparse, Order::Shuffled, 256, 4_000);
                self.plan(job)
            }
            "overhang-sparse-shuffled" => self.plan(jobs::job_over_road_ends(256)),
            "chainage-sparse-shuffled" => self.plan(jobs::job_at_last_station(256)),
            "dense-shuffled" => self.plan(jobs::job(Kind::Dense, Order::Shuffled, 256)),
            "runs511-shuffled" => self.plan(jobs::job(Kind::Islands, Order::Shuffled, 256)),
            "runs511-ordered" => self.plan(jobs::job(Kind::Islands, Order::Station, 256)),
            "level-sparse-shuffled" => self.level(Kind::Sparse),
            "level-dense-shuffled" => self.level(Kind::Dense),
            "corners-sparse-shuffled" => self.corners(),
            "offset-sparse-shuffled" => self.offset(),
            "reach-sparse-shuffled" => self.reach(),
            "layout-4-all" => self.layout(),
            "quantity-511" => self.quantity(),
            "quantities-64-all" => self.quantities(&jobs::schedule_of_one_level(3), 3),
            "quantities-64-half" => self.quantities(&schedule_511(), 1),
            "quantity-64-single-calls" => self.single_calls(&jobs::schedule_of_one_level(3), 3),
            "lookup-511-middle" => self.lookup(),
            "open-opening" => self.opening(),
            "open-add-255" => self.add(jobs::open()),
            "open-withdraw-256" => self.withdraw(jobs::open()),
            "open-schedule-256" => self.schedule(),
            "open-reach-256" => self.open_reach(jobs::open()),
            "open-add-255-kept" => self.add(jobs::open_and_kept()),
            "open-withdraw-256-kept" => self.withdraw(jobs::open_and_kept()),
            "open-keep-256-kept" => self.keep(),
            "open-return-256-kept" => self.return_to(jobs::open_and_kept(), 3),
            "open-reach-256-kept" => self.open_reach(jobs::open_and_kept()),
            // Refused 13 next after the test of the memory.
            "open-test-256" => self.return_to(jobs::open(), 8),
            _ => self.return_to(jobs::open_and_kept(), 8),
        }
    }

    fn plan(&self, job: Vec<u8>) {
        let mut out = vec![0; 8_192];
        for _ in 0..self.times {
            black_box(match self.who {
                Who::Engine => engine::plan(black_box(&job), 0, &mut out),
                Who::Reference => plan_reply(reference::plan(black_box(&job), 0, &mut out)),
            });
        }
    }

    /// In the middle run of 256 hazards in no order.
    fn level(&self, kind: Kind) {
        let job = jobs::job(kind, Order::Shuffled, 256);
        let station = jobs::middle(&job);
        for _ in 0..self.times {
            let job = black_box(&job);
            black_box(match self.who {
                Who::Engine => engine::level(job, 0, station),
                Who::Reference => reply(reference::level(job, 0, station)),
            });
        }
    }

    /// The last of 256 hazards, counted from a sheet corner.
    fn corners(&self) {
        let job = jobs::job(Kind::Sparse, Order::Shuffled, 256);
        let sheet = jobs::SHEET;
        for _ in 0..self.times {
            let job = black_box(&job);
            black_box(match self.who {
                Who::Engine => engine::corners(job, LAST, sheet.0, sheet.1),
                Who::Reference => corners_reply(reference::corners(job, LAST, sheet.0, sheet.1)),
            });
        }
    }

    /// The last of 256 hazards, its last M.
    fn offset(&self) {
        let job = jobs::job(Kind::Sparse, Order::Shuffled, 256);
        let longest = jobs::at_last_offset(&job);
        for _ in 0..self.times {
            let job = black_box(&job);
            black_box(match self.who {
                Who::Engine => engine::offset(job, LAST, longest),
                Who::Reference => offset_reply(reference::offset(job, LAST, longest)),
            });
        }
    }

    /// The last of 256 hazards.
    fn reach(&self) {
        let job = jobs::job(Kind::Sparse, Order::Shuffled, 256);
        for _ in 0..self.times {
            let job = black_box(&job);
            black_box(match self.who {
                Who::Engine => engine::reach(job, LAST),
                Who::Reference => reach_reply(reference::reach(job, LAST)),
            });
        }
    }

    /// Every layout of four lengths.
    fn layout(&self) {
        let (lengths, run) = (jobs::PANELS, jobs::RUN);
        for _ in 0..self.times {
            let lengths = black_box(&lengths);
            black_box(match self.who {
                Who::Engine => engine::layout(lengths, run, MOST_TRIES),
                Who::Reference => layout_reply(reference::layout(lengths, run, MOST_TRIES)),
            });
        }
    }

    /// The whole road in one lot.
    fn quantity(&self) {
        let schedule = schedule_511();
        for _ in 0..self.times {
            let schedule = black_box(&schedule);
            black_box(match self.who {
                Who::Engine => engine::quantity(schedule, 3, 0, ROAD_END),
                Who::Reference => reply(reference::quantity(schedule, 3, 0, ROAD_END)),
            });
        }
    }

    /// 64 lots in one call.
    fn quantities(&self, schedule: &[u8], level: u64) {
        let lots = jobs::lots(schedule);
        for _ in 0..self.times {
            let (schedule, lots) = (black_box(schedule), black_box(&lots));
            black_box(match self.who {
                Who::Engine => engine::quantities(schedule, level, lots),
                Who::Reference => contract(reference::quantities(schedule, level, lots)),
            });
        }
    }

    /// The same 64 lots, one call for each; all of them count as one.
    fn single_calls(&self, schedule: &[u8], level: u64) {
        let lots = jobs::lots(schedule);
        for _ in 0..self.times {
            for lot in lots.chunks_exact(2) {
                let schedule = black_box(schedule);
                black_box(match self.who {
                    Who::Engine => engine::quantity(schedule, level, lot[0], lot[1]),
                    Who::Reference => reply(reference::quantity(schedule, level, lot[0], lot[1])),
                });
            }
        }
    }

    /// A station in the middle run.
    fn lookup(&self) {
        let schedule = schedule_511();
        let station = jobs::runs(&schedule)[255].stretch.start;
        for _ in 0..self.times {
            let schedule = black_box(&schedule);
            black_box(match self.who {
                Who::Engine => engine::lookup(schedule, &[0], 0, station),
                Who::Reference => record(reference::lookup(schedule, &[0], 0, station)),
            });
        }
    }
}

// Open jobs. A call that changes the memory is given a fresh copy each time.

impl Single {
    /// Over memory that holds 256 hazards and eight full states, the first time;
    /// whatever the memory holds, opening writes all of it.
    fn opening(&self) {
        let mut memory = jobs::open_and_kept().memory;
        let header = jobs::header();
        for _ in 0..self.times {
            let memory = black_box(&mut memory);
            let header = black_box(&header);
            black_box(match self.who {
                Who::Engine => engine::open(memory, header),
                Who::Reference => reply(reference::open(&mut memory.job, header)),
            });
        }
    }

    /// The 256th hazard.
    fn add(&self, open: jobs::Open) {
        let jobs::Open {
            mut memory,
            hazards,
        } = open;
        let hazard = hazards[usize::from(NAME)];
        reference::withdraw(&mut memory.job, NAME).expect("the name stands");
        for _ in 0..self.times {
            let mut memory = black_box(&memory).clone();
            let hazard = black_box(hazard);
            black_box(match self.who {
                Who::Engine => engine::add(&mut memory, NAME, hazard),
                Who::Reference => reply(reference::add(&mut memory.job, NAME, hazard)),
            });
        }
    }

    /// One of 256 hazards.
    fn withdraw(&self, open: jobs::Open) {
        for _ in 0..self.times {
            let mut memory = black_box(&open.memory).clone();
            black_box(match self.who {
                Who::Engine => engine::withdraw(&mut memory, NAME),
                Who::Reference => reply(reference::withdraw(&mut memory.job, NAME)),
            });
        }
    }

    /// Under a used number; what is kept stays the same.
    fn keep(&self) {
        let mut memory = jobs::open_and_kept().memory;
        for _ in 0..self.times {
            let memory = black_box(&mut memory);
            black_box(match self.who {
                Who::Engine => engine::keep(memory, 3),
                Who::Reference => reply(reference::keep(&mut memory.job, 3)),
            });
        }
    }

    /// What stands stays the same.
    fn return_to(&self, open: jobs::Open, state: u64) {
        let mut memory = open.memory;
        for _ in 0..self.times {
            let memory = black_box(&mut memory);
            black_box(match self.who {
                Who::Engine => engine::return_to(memory, state),
                Who::Reference => reply(reference::return_to(&mut memory.job, state)),
            });
        }
    }

    /// One of 256 hazards; the memory is only read.
    fn open_reach(&self, open: jobs::Open) {
        let mut memory = open.memory;
        for _ in 0..self.times {
            let memory = black_box(&mut memory);
            black_box(match self.who {
                Who::Engine => engine::open_reach(memory, NAME),
                Who::Reference => reach_reply(reference::open_reach(&memory.job, NAME)),
            });
        }
    }

    /// 511 runs of 256 hazards.
    fn schedule(&self) {
        let mut memory = jobs::open().memory;
        let mut out = vec![0; 8_192];
        for _ in 0..self.times {
            let memory = black_box(&mut memory);
            black_box(match self.who {
                Who::Engine => engine::open_schedule(memory, 0, &mut out),
                Who::Reference => plan_reply(reference::open_schedule(&memory.job, 0, &mut out)),
            });
        }
    }
}

fn schedule_511() -> Vec<u8> {
    jobs::schedule(&jobs::job(Kind::Islands, Order::Station, 256))
}
