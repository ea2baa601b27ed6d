//! Refusals in words are those of barrier_help.h: the lines that a program in C
//! prints of them, in the file that BARRIER_REFUSALS names, one for each call,
//! number and value. Without such a file nothing is compared.

use barrier_engine::{Call, Refusal};
use std::{env, fs};

const CALLS: [(&str, Call); 16] = [
    ("barrier_plan", Call::Plan { side: 0 }),
    ("barrier_level", Call::Level { side: 0 }),
    ("barrier_corners", Call::Corners { hazard: 0 }),
    ("barrier_offset", Call::Offset { hazard: 0 }),
    ("barrier_quantity", Call::Quantity),
    ("barrier_quantities", Call::Quantities),
    ("barrier_lookup", Call::Lookup { side: 0 }),
    ("barrier_layout", Call::Layout),
    ("barrier_open", Call::Open),
    ("barrier_add", Call::Add),
    ("barrier_withdraw", Call::Withdraw),
    ("barrier_open_schedule", Call::OpenSchedule { side: 0 }),
    ("barrier_keep", Call::Keep { state: 0 }),
    ("barrier_return", Call::Return { state: 0 }),
    ("barrier_reach", Call::Reach { hazard: 0 }),
    ("barrier_open_reach", Call::OpenReach),
];

#[test]
fn refusals_are_those_of_c() {
    let Some(path) = env::var_os("BARRIER_REFUSALS") else {
        return;
    };
    let wanted = fs::read_to_string(path).expect("the lines of the program in C");
    let mut rows = String::new();
    for (name, call) in CALLS {
        for number in 0..=18 {
            for value in [0, 1, 7, 13, 14, 15, 16] {
                let refusal = Refusal {
                    call,
                    number,
                    value,
                };
                let (reason, remedy) = (refusal.reason(), refusal.remedy());
                rows += &format!("{name} {number} {value}: {reason} | {remedy}\n");
            }
        }
    }
    for (here, there) in rows.lines().zip(wanted.lines()) {
        assert_eq!(here, there);
    }
    assert_eq!(rows.lines().count(), wanted.lines().count());
}
