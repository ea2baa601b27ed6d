//! Lists of calls that use only names of a byte reply as before names became
//! wider. Every add of open jobs is answered as it was then, wherever its name and
//! the names that stand are of a byte.

use std::cell::Cell;
use std::rc::Rc;

use cases::calls::right;
use cases::wrong_open::{BROKEN, DONE};
use cases::{Calls, Checker, Memory, Random, Reply, families};
use reference::job::{self, Hazard};
use reference::open::{MOST_STANDING, Name};
use reference::{OpenJob, envelope, memory};

const LAST_NAME: Name = 255;

/// How many adds were answered as they were, and of those how many on 256 hazards.
#[derive(Default)]
struct Seen {
    adds: Cell<u64>,
    full: Cell<u64>,
}

/// Add as it was: 12, then 4 and 5, each with the name, and nothing about room.
fn add_as_it_was(memory: &mut Memory, name: Name, hazard: Hazard) -> Reply {
    let Some(mut open) = memory::read(&memory.job) else {
        return BROKEN;
    };
    let index = usize::from(name);
    let number = if open.standing.contains_key(&name) {
        12
    } else if !job::in_range(&open.header, &hazard) {
        4
    } else if envelope::envelope(&open.header, index, &hazard).is_err() {
        5
    } else {
        open.standing.insert(name, hazard);
        memory::write(&open, &mut memory.job);
        return DONE;
    };
    Reply {
        number,
        value: name.into(),
    }
}

fn names_of_a_byte(open: &OpenJob) -> bool {
    open.standing.keys().all(|name| *name <= LAST_NAME)
}

fn as_they_were(seen: &Rc<Seen>) -> Calls {
    let seen = seen.clone();
    Calls {
        add: Box::new(move |memory, name, hazard| {
            let open = memory::read(&memory.job);
            match open.filter(|open| name <= LAST_NAME && names_of_a_byte(open)) {
                Some(open) => {
                    let full = open.standing.len() == MOST_STANDING;
                    seen.adds.set(seen.adds.get() + 1);
                    seen.full.set(seen.full.get() + u64::from(full));
                    add_as_it_was(memory, name, hazard)
                }
                None => (right().add)(memory, name, hazard),
            }
        }),
        ..right()
    }
}

#[test]
fn names_of_a_byte_reply_as_before() {
    let seen = Rc::new(Seen::default());
    let mut checker = Checker::new(as_they_were(&seen));
    let open_jobs = families::ALL
        .iter()
        .filter(|family| family.name.starts_with("open jobs"));
    for seed in 11..=15 {
        checker.begin_round(seed);
        for family in open_jobs.clone() {
            checker.begin_family(family.name);
            let mut random = Random::new(seed, family.name);
            if let Err(difference) = (family.run)(&mut checker, &mut random) {
                panic!("{difference}");
            }
        }
    }
    let (adds, full) = (seen.adds.get(), seen.full.get());
    println!("{adds} adds as they were, {full} of them on 256 hazards");
    assert!(adds > 8_000 && full > 30, "{adds} {full}");
}
