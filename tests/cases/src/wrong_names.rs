//! Names wider than a byte and the room for 256 hazards with one slip each. The
//! test has to find every one of them.

use std::cell::RefCell;
use std::rc::Rc;

use reference::calls::plan_job;
use reference::memory::{self, HEADER, HEADER_BYTES, NOW_BYTES, PLACE_BYTES};
use reference::open::{MOST_STANDING, Name, Standing};
use reference::{OpenJob, Refusal, add, keep, return_to, withdraw};
use reference::{envelope, job, job::Hazard};

use crate::calls::{Calls, Memory, Reply, plan_reply, reply, right};
use crate::wrong_memory::one_call_each;
use crate::wrong_open::{BROKEN, DONE, number_at, with_add, with_schedule, with_withdraw};
use crate::wrong_overhang::testing;
use crate::wrong_states::{after, open_job, with_keep, with_return};

/// Every wrong name with the name of its slip.
pub fn all() -> Vec<(&'static str, Calls)> {
    let mut list = wrong_rooms();
    list.extend(narrow_names());
    list.extend(names_in_refusals());
    list.extend(names_in_the_memory());
    list
}

/// The lower byte of a name.
fn cut(name: Name) -> Name {
    name & 0xFF
}

fn number(number: u64, value: impl Into<u64>) -> Reply {
    let value = value.into();
    Reply { number, value }
}

const NO_ROOM: Reply = Reply {
    number: 15,
    value: 0,
};

/// One add: what was asked, and the open job before it, if the memory was right.
struct Asked {
    before: Option<OpenJob>,
    name: Name,
    hazard: Hazard,
}

impl Asked {
    fn standing(&self) -> usize {
        self.before.as_ref().map_or(0, |open| open.standing.len())
    }

    /// What add says of the hazard alone: 4 and 5.
    fn hazard_reply(&self) -> Reply {
        let Some(open) = &self.before else {
            return BROKEN;
        };
        let index = usize::from(self.name);
        if !job::in_range(&open.header, &self.hazard) {
            return number(4, self.name);
        }
        match envelope::envelope(&open.header, index, &self.hazard) {
            Err(Refusal { number, value }) => Reply { number, value },
            Ok(_) => DONE,
        }
    }
}

/// The right add, with another reply, which leaves the memory as it was before
/// where it is a refusal, or with the memory changed afterwards.
fn after_add(change: fn(&Asked, Reply, &mut Memory) -> Reply) -> Calls {
    with_add(Box::new(move |memory, name, hazard| {
        let before = memory.clone();
        let asked = Asked {
            before: memory::read(&memory.job),
            name,
            hazard,
        };
        let right = reply(add(&mut memory.job, name, hazard));
        let reply = change(&asked, right, memory);
        if reply != DONE {
            *memory = before;
        }
        reply
    }))
}

// Room.

fn wrong_rooms() -> Vec<(&'static str, Calls)> {
    vec![
        (
            "15 before 12",
            after_add(|asked, reply, _| {
                match asked.standing() == MOST_STANDING && reply.number == 12 {
                    true => NO_ROOM,
                    false => reply,
                }
            }),
        ),
        (
            "15 where 255 stand",
            after_add(
                |asked, reply, _| match asked.standing() == 255 && reply.number != 12 {
                    true => NO_ROOM,
                    false => reply,
                },
            ),
        ),
        (
            "15 after 4",
            after_add(|asked, reply, _| match asked.hazard_reply() {
                refused if reply == NO_ROOM && refused.number == 4 => refused,
                _ => reply,
            }),
        ),
        (
            "15 after 5",
            after_add(|asked, reply, _| match asked.hazard_reply() {
                refused if reply == NO_ROOM && refused.number == 5 => refused,
                _ => reply,
            }),
        ),
        (
            "15 with the name",
            after_add(|asked, reply, _| match reply {
                NO_ROOM => number(15, asked.name),
                _ => reply,
            }),
        ),
        (
            "15 with the count",
            after_add(|_, reply, _| match reply {
                NO_ROOM => number(15, MOST_STANDING as u64),
                _ => reply,
            }),
        ),
        (
            "15 before the memory",
            after_add(|_, reply, memory| {
                let count = number_at(&memory.job, HEADER - 1);
                match reply == BROKEN && count == MOST_STANDING as u64 {
                    true => NO_ROOM,
                    false => reply,
                }
            }),
        ),
        (
            "12 where 256 stand",
            after_add(|asked, reply, _| match reply {
                NO_ROOM => number(12, asked.name),
                _ => reply,
            }),
        ),
        (
            "a hazard more than 256 passed over without a word",
            after_add(|_, reply, _| match reply {
                NO_ROOM => DONE,
                _ => reply,
            }),
        ),
        (
            "the highest name gives way where 256 stand",
            after_add(|asked, reply, memory| {
                if reply == NO_ROOM && asked.hazard_reply() == DONE {
                    let mut open = open_job(memory);
                    open.standing.pop_last();
                    open.standing.insert(asked.name, asked.hazard);
                    memory::write(&open, &mut memory.job);
                    return DONE;
                }
                reply
            }),
        ),
        (
            "kept hazards take room too",
            after_add(|asked, reply, _| {
                let Some(open) = &asked.before else {
                    return reply;
                };
                let kept: usize = open.kept.iter().flatten().map(Standing::len).sum();
                match reply == DONE && open.standing.len() + kept >= MOST_STANDING {
                    true => NO_ROOM,
                    false => reply,
                }
            }),
        ),
        ("room left by a withdrawal not used again", lost_room()),
    ]
}

/// What a withdrawal from a full job leaves is remembered as full.
fn lost_room() -> Calls {
    let left = Rc::new(RefCell::new(Vec::new()));
    let still_full = left.clone();
    Calls {
        withdraw: Box::new(move |memory, name| {
            let full = number_at(&memory.job, HEADER - 1) == MOST_STANDING as u64;
            let reply = reply(withdraw(&mut memory.job, name));
            if reply == DONE && full {
                *left.borrow_mut() = memory.job[..NOW_BYTES].to_vec();
            }
            reply
        }),
        add: Box::new(move |memory, name, hazard| {
            let lost = memory.job[..NOW_BYTES] == still_full.borrow()[..];
            match lost && !open_job(memory).standing.contains_key(&name) {
                true => NO_ROOM,
                false => reply(add(&mut memory.job, name, hazard)),
            }
        }),
        ..right()
    }
}

// Names that are cut.

fn narrow_names() -> Vec<(&'static str, Calls)> {
    // A name that the right reply has another meaning for.
    let refused_add = |refused: fn(Name) -> bool| {
        with_add(Box::new(move |memory, name, hazard| {
            let before = memory.clone();
            let right = reply(add(&mut memory.job, name, hazard));
            if right == DONE && refused(name) {
                *memory = before;
                return number(12, name);
            }
            right
        }))
    };
    vec![
        (
            "the name cut to a byte in add",
            with_add(Box::new(|memory, name, hazard| {
                reply(add(&mut memory.job, cut(name), hazard))
            })),
        ),
        (
            "the name cut to a byte in a withdrawal",
            with_withdraw(Box::new(|memory, name| {
                reply(withdraw(&mut memory.job, cut(name)))
            })),
        ),
        (
            "names cut to a byte in add and in a withdrawal",
            Calls {
                add: Box::new(|memory, name, hazard| {
                    reply(add(&mut memory.job, cut(name), hazard))
                }),
                withdraw: Box::new(|memory, name| reply(withdraw(&mut memory.job, cut(name)))),
                ..right()
            },
        ),
        (
            "names cut to a byte by keep",
            with_keep(after(keep, |done| {
                let kept = &mut done.after.kept[done.state];
                kept.iter_mut().for_each(cut_names);
            })),
        ),
        (
            "names cut to a byte by a return",
            with_return(after(return_to, |done| cut_names(&mut done.after.standing))),
        ),
        (
            "names above 255 lost by keep",
            with_keep(after(keep, |done| {
                let kept = done.after.kept[done.state].iter_mut();
                kept.for_each(|kept| kept.retain(|name, _| *name < 256));
            })),
        ),
        (
            "hazards of names above 255 left out of a schedule",
            with_schedule(Box::new(|memory, side, room, lent| {
                match memory::read(&memory.job) {
                    Some(mut open) => {
                        open.standing.retain(|name, _| *name < 256);
                        plan_reply(plan_job(&open.job(), side, &mut room[lent]))
                    }
                    None => BROKEN.into(),
                }
            })),
        ),
        (
            "a name taken as standing that is alike in a byte",
            after_add(|asked, reply, _| {
                let alike = |open: &OpenJob| {
                    let mut names = open.standing.keys();
                    names.any(|name| cut(*name) == cut(asked.name))
                };
                match reply == DONE && asked.before.as_ref().is_some_and(alike) {
                    true => number(12, asked.name),
                    false => reply,
                }
            }),
        ),
        (
            "a name withdrawn that is alike in a byte",
            with_withdraw(Box::new(|memory, name| {
                let right = reply(withdraw(&mut memory.job, name));
                if let (12, Some(mut open)) = (right.number, memory::read(&memory.job))
                    && let Some(alike) =
                        open.standing.keys().find(|other| cut(**other) == cut(name))
                {
                    let alike = *alike;
                    open.standing.remove(&alike);
                    memory::write(&open, &mut memory.job);
                    return DONE;
                }
                right
            })),
        ),
        ("names up to 255", refused_add(|name| name > 255)),
        ("names up to 32,767", refused_add(|name| name > 32_767)),
        ("names up to 65,534", refused_add(|name| name == Name::MAX)),
    ]
}

/// A later hazard takes the place of one that is alike.
fn cut_names(standing: &mut Standing) {
    let wide = std::mem::take(standing);
    standing.extend(wide.into_iter().map(|(name, hazard)| (cut(name), hazard)));
}

// Names in refusals.

fn names_in_refusals() -> Vec<(&'static str, Calls)> {
    let in_a_byte = |refusal: u64| {
        with_add(Box::new(move |memory, name, hazard| {
            match reply(add(&mut memory.job, name, hazard)) {
                reply if reply.number == refusal => number(refusal, cut(name)),
                reply => reply,
            }
        }))
    };
    vec![
        ("12 of add with the name in a byte", in_a_byte(12)),
        ("4 of add with the name in a byte", in_a_byte(4)),
        ("5 of add with the name in a byte", in_a_byte(5)),
        (
            "12 of a withdrawal with the name in a byte",
            with_withdraw(Box::new(|memory, name| {
                match reply(withdraw(&mut memory.job, name)) {
                    reply if reply.number == 12 => number(12, cut(name)),
                    reply => reply,
                }
            })),
        ),
    ]
}

// Names in the memory.

fn names_in_the_memory() -> Vec<(&'static str, Calls)> {
    // The places after an add in another order of their names.
    let in_order = |order: fn(Name) -> Name| {
        with_add(Box::new(move |memory, name, hazard| {
            let reply = reply(add(&mut memory.job, name, hazard));
            if reply == DONE {
                let open = open_job(memory);
                let mut names: Vec<Name> = open.standing.keys().copied().collect();
                names.sort_by_key(|name| order(*name));
                let places = memory.job[HEADER_BYTES..NOW_BYTES].chunks_mut(PLACE_BYTES);
                for (place, name) in places.zip(names) {
                    place.copy_from_slice(&memory::place_bytes(name, &open.standing[&name]));
                }
            }
            reply
        }))
    };
    let wide = |standing: &Standing| standing.keys().any(|name| *name > 255);
    let mut list = vec![
        // A sign in the top bit.
        (
            "names in the order of signed ones",
            in_order(|name| name ^ 0x8000),
        ),
        (
            "names in the order of their lower bytes",
            in_order(Name::swap_bytes),
        ),
    ];
    list.extend(one_call_each(
        [
            "names above 255 refused in the memory by add",
            "names above 255 refused in the memory by a withdrawal",
            "names above 255 refused in the memory by a schedule",
            "names above 255 refused in the memory by keep",
            "names above 255 refused in the memory by a return",
        ],
        || testing(move |open| wide(&open.standing)),
    ));
    list.push((
        "kept names above 255 refused in the memory",
        testing(move |open| open.kept.iter().flatten().any(wide)),
    ));
    list
}

#[cfg(test)]
mod tests {
    use super::*;
    use crate::compare::Checker;

    /// A wrong engine has to be wrong in its slip alone: with no slip at all the
    /// parts are those of the reference.
    #[test]
    fn no_difference_without_a_slip() {
        let mut checker = Checker::new(Calls {
            keep: after(keep, |_| ()),
            return_to: after(return_to, |_| ()),
            ..after_add(|_, reply, _| reply)
        });
        if let Err(difference) = crate::run(&mut checker, 7, 1) {
            panic!("{difference}");
        }
    }
}
