//! Named states of an open job with one slip each. The test has to find every one
//! of them.

use reference::memory::{self, MARK_BYTES, NOW_BYTES, STATE_BYTES};
use reference::open::{STATES, Standing};
use reference::{OpenJob, Refusal, add, keep, open, return_to, withdraw};

use crate::calls::{Calls, Memory, Reply, StateCall, reply, right};
use crate::wrong_open::{BROKEN, DONE, with_open, with_withdraw};

/// Every wrong state with the name of its slip.
pub fn all() -> Vec<(&'static str, Calls)> {
    let mut list = wrong_keeps();
    list.extend(wrong_returns());
    list.extend(wrong_numbers());
    list.extend(wrong_openings());
    list.extend(wrong_changes());
    list
}

pub fn with_keep(keep: Box<StateCall>) -> Calls {
    Calls { keep, ..right() }
}

pub fn with_return(return_to: Box<StateCall>) -> Calls {
    Calls {
        return_to,
        ..right()
    }
}

const REFUSED: Reply = Reply {
    number: 13,
    value: 0,
};

/// The bytes of a kept state.
fn state_bytes(memory: &mut Memory, state: usize) -> &mut [u8] {
    let at = NOW_BYTES + STATE_BYTES * state;
    &mut memory.job[at..at + STATE_BYTES]
}

/// An open job before and after a call that was done, and the state's number.
pub struct Done {
    pub before: OpenJob,
    pub after: OpenJob,
    pub state: usize,
}

/// The open job that this memory is.
pub fn open_job(memory: &Memory) -> OpenJob {
    memory::read(&memory.job).expect("the call was done")
}

/// The right call, and where it is done the open job changed afterwards.
pub fn after(
    call: fn(&mut [u8], u64) -> Result<u64, Refusal>,
    change: fn(&mut Done),
) -> Box<StateCall> {
    Box::new(move |memory, state| {
        let before = memory.clone();
        let reply = reply(call(&mut memory.job, state));
        if reply == DONE {
            let mut done = Done {
                before: open_job(&before),
                after: open_job(memory),
                state: state as usize,
            };
            change(&mut done);
            memory::write(&done.after, &mut memory.job);
        }
        reply
    })
}

// Keep.

fn wrong_keeps() -> Vec<(&'static str, Calls)> {
    let after_keep = |change: fn(&mut Done)| with_keep(after(keep, change));
    vec![
        (
            "keep leaves what a used number has",
            after_keep(|done| {
                if let Some(kept) = &done.before.kept[done.state] {
                    done.after.kept[done.state] = Some(kept.clone());
                }
            }),
        ),
        (
            "keep adds to what a used number has",
            after_keep(|done| {
                let mut sum = done.before.kept[done.state].clone().unwrap_or_default();
                sum.extend(done.before.standing.clone());
                done.after.kept[done.state] = Some(sum);
            }),
        ),
        (
            "keep touches the next state",
            after_keep(|done| {
                let next = (done.state + 1) % STATES;
                done.after.kept[next] = Some(done.before.standing.clone());
            }),
        ),
        (
            "keep empties the other states",
            after_keep(|done| {
                let kept = done.after.kept[done.state].take();
                done.after.kept.fill(None);
                done.after.kept[done.state] = kept;
            }),
        ),
        (
            "keep empties what stands",
            after_keep(|done| done.after.standing.clear()),
        ),
        (
            "an empty job not kept",
            after_keep(|done| {
                if done.before.standing.is_empty() {
                    done.after.kept[done.state] = None;
                }
            }),
        ),
        (
            "keep leaves out the hazard of the highest name",
            after_keep(|done| {
                if let Some(kept) = &mut done.after.kept[done.state] {
                    kept.pop_last();
                }
            }),
        ),
        (
            "keep under a used number refused",
            refused_where(|open, state| open.kept[state].is_some()),
        ),
        (
            "an empty job refused by keep",
            refused_where(|open, _| open.standing.is_empty()),
        ),
        (
            "keep leaves the places behind a shorter state",
            with_keep(Box::new(|memory, state| {
                let before = memory.clone();
                let reply = reply(keep(&mut memory.job, state));
                if reply == DONE {
                    leave_behind(memory, &before, state as usize);
                }
                reply
            })),
        ),
        (
            "the number of the state said when kept",
            with_keep(Box::new(|memory, state| {
                let reply = reply(keep(&mut memory.job, state));
                match reply {
                    DONE => Reply {
                        number: 0,
                        value: state,
                    },
                    _ => reply,
                }
            })),
        ),
    ]
}

/// Keep refused for this open job and state.
fn refused_where(refused: fn(&OpenJob, usize) -> bool) -> Calls {
    with_keep(Box::new(move |memory, state| {
        let before = memory.clone();
        let reply = reply(keep(&mut memory.job, state));
        if reply == DONE && refused(&open_job(&before), state as usize) {
            *memory = before;
            return REFUSED;
        }
        reply
    }))
}

/// What a state had before stays behind the hazards that it has now.
fn leave_behind(memory: &mut Memory, before: &Memory, state: usize) {
    let mut before = before.clone();
    let places = 2 * MARK_BYTES;
    let left = state_bytes(&mut before, state)[places..].to_vec();
    for (byte, left) in state_bytes(memory, state)[places..].iter_mut().zip(left) {
        if *byte == 0 {
            *byte = left;
        }
    }
}

// Return.

fn wrong_returns() -> Vec<(&'static str, Calls)> {
    let after_return = |change: fn(&mut Done)| with_return(after(return_to, change));
    // A return to a state that is not kept, answered in another way.
    let unkept = |change: fn(&mut OpenJob)| {
        with_return(Box::new(move |memory, state| {
            let reply = reply(return_to(&mut memory.job, state));
            if reply == REFUSED && state < STATES as u64 {
                let mut open = open_job(memory);
                change(&mut open);
                memory::write(&open, &mut memory.job);
                return DONE;
            }
            reply
        }))
    };
    vec![
        (
            "a return uses its state up",
            after_return(|done| done.after.kept[done.state] = None),
        ),
        (
            "a return empties the states behind its own",
            after_return(|done| done.after.kept[done.state + 1..].fill(None)),
        ),
        (
            "a return exchanges what stands with what was kept",
            after_return(|done| {
                done.after.kept[done.state] = Some(done.before.standing.clone());
            }),
        ),
        (
            "a return adds to what stands",
            after_return(|done| {
                let kept = std::mem::take(&mut done.after.standing);
                done.after.standing = done.before.standing.clone();
                done.after.standing.extend(kept);
            }),
        ),
        (
            "a return withdraws and does not add again",
            after_return(|done| {
                let before = done.before.standing.clone();
                done.after
                    .standing
                    .retain(|name, _| before.contains_key(name));
            }),
        ),
        (
            "a return keeps the hazard of a name that stands",
            after_return(|done| {
                for (name, hazard) in &mut done.after.standing {
                    *hazard = *done.before.standing.get(name).unwrap_or(hazard);
                }
            }),
        ),
        (
            "a return to a state that is not kept empties the job",
            unkept(|open| open.standing.clear()),
        ),
        (
            "a return to a state that is not kept does nothing",
            unkept(|_| ()),
        ),
        (
            "a return to a state that is not kept takes the first that is",
            unkept(|open| {
                if let Some(kept) = open.kept.iter().flatten().next() {
                    open.standing = kept.clone();
                }
            }),
        ),
        (
            "a return to an empty job refused",
            with_return(Box::new(|memory, state| {
                let before = memory.clone();
                let reply = reply(return_to(&mut memory.job, state));
                if reply == DONE && open_job(memory).standing.is_empty() {
                    *memory = before;
                    return REFUSED;
                }
                reply
            })),
        ),
        (
            "a return leaves the places behind the last hazard",
            with_return(Box::new(|memory, state| {
                let before = memory.clone();
                let reply = reply(return_to(&mut memory.job, state));
                for (byte, left) in memory.job.iter_mut().zip(before.job).take(NOW_BYTES) {
                    if reply == DONE && *byte == 0 {
                        *byte = left;
                    }
                }
                reply
            })),
        ),
        (
            "a refused return clears the open job",
            with_return(Box::new(|memory, state| {
                let reply = reply(return_to(&mut memory.job, state));
                if reply == REFUSED {
                    let mut open = open_job(memory);
                    open.standing.clear();
                    memory::write(&open, &mut memory.job);
                }
                reply
            })),
        ),
    ]
}

// The numbers of states.

fn wrong_numbers() -> Vec<(&'static str, Calls)> {
    // Another number in both calls.
    let number = |number: fn(u64) -> u64| Calls {
        keep: Box::new(move |memory, state| reply(keep(&mut memory.job, number(state)))),
        return_to: Box::new(move |memory, state| reply(return_to(&mut memory.job, number(state)))),
        ..right()
    };
    // Another reply of both calls.
    let replied = |change: fn(u64, &mut Reply)| Calls {
        keep: Box::new(move |memory, state| {
            let mut reply = reply(keep(&mut memory.job, state));
            change(state, &mut reply);
            reply
        }),
        return_to: Box::new(move |memory, state| {
            let mut reply = reply(return_to(&mut memory.job, state));
            change(state, &mut reply);
            reply
        }),
        ..right()
    };
    vec![
        ("numbers of states modulo 8", number(|state| state % 8)),
        (
            "numbers of states in one byte",
            number(|state| state & 0xFF),
        ),
        (
            "numbers of states in 32 bits",
            number(|state| state & 0xFFFF_FFFF),
        ),
        ("a number above 7 taken as 7", number(|state| state.min(7))),
        (
            "seven states",
            number(|state| if state == 7 { u64::MAX } else { state }),
        ),
        (
            "numbers of states from 1 to 8",
            number(|state| state.wrapping_sub(1)),
        ),
        (
            "refusal 13 with the number of the state",
            replied(|state, reply| {
                if *reply == REFUSED {
                    reply.value = state;
                }
            }),
        ),
        (
            "a number above 7 before the memory",
            replied(|state, reply| {
                if *reply == BROKEN && state >= STATES as u64 {
                    *reply = REFUSED;
                }
            }),
        ),
        (
            "a return to what is not kept before the memory",
            with_return(Box::new(|memory, state| {
                let reply = reply(return_to(&mut memory.job, state));
                let marks = state_bytes(memory, state as usize % STATES);
                let unused = memory::value(&marks[..MARK_BYTES]) == 0;
                match reply == BROKEN && state < STATES as u64 && unused {
                    true => REFUSED,
                    false => reply,
                }
            })),
        ),
        (
            "a number above 7 refused 8",
            replied(|state, reply| {
                if *reply == REFUSED && state >= STATES as u64 {
                    reply.number = 8;
                }
            }),
        ),
    ]
}

// Opening.

fn wrong_openings() -> Vec<(&'static str, Calls)> {
    // The bytes of states that an opening leaves as they were.
    let left = |from: usize| {
        with_open(Box::new(move |memory, bytes| {
            let mut before = memory.clone();
            let reply = reply(open(&mut memory.job, bytes));
            if reply == DONE {
                for state in 0..STATES {
                    let left = state_bytes(&mut before, state)[from..].to_vec();
                    state_bytes(memory, state)[from..].copy_from_slice(&left);
                }
            }
            reply
        }))
    };
    vec![
        ("an opening leaves the states", left(0)),
        ("an opening unmarks the states alone", left(2 * MARK_BYTES)),
        (
            "an opening leaves state 7",
            with_open(Box::new(|memory, bytes| {
                let left = state_bytes(memory, STATES - 1).to_vec();
                let reply = reply(open(&mut memory.job, bytes));
                if reply == DONE {
                    state_bytes(memory, STATES - 1).copy_from_slice(&left);
                }
                reply
            })),
        ),
        (
            "a refused opening empties the states",
            with_open(Box::new(|memory, bytes| {
                let reply = reply(open(&mut memory.job, bytes));
                if reply != DONE {
                    memory.job[NOW_BYTES..].fill(0);
                }
                reply
            })),
        ),
    ]
}

// Adds and withdrawals that reach what is kept.

fn wrong_changes() -> Vec<(&'static str, Calls)> {
    vec![
        (
            "keep shares what stands",
            Calls {
                add: Box::new(|memory, name, hazard| {
                    shared(memory, |memory| reply(add(&mut memory.job, name, hazard)))
                }),
                withdraw: Box::new(|memory, name| {
                    shared(memory, |memory| reply(withdraw(&mut memory.job, name)))
                }),
                ..right()
            },
        ),
        (
            "a withdrawal reaches the kept states",
            with_withdraw(Box::new(|memory, name| {
                let reply = reply(withdraw(&mut memory.job, name));
                if reply == DONE {
                    let mut open = open_job(memory);
                    for kept in open.kept.iter_mut().flatten() {
                        kept.remove(&name);
                    }
                    memory::write(&open, &mut memory.job);
                }
                reply
            })),
        ),
    ]
}

/// The states that were equal to what stood become what stands after the call.
fn shared(memory: &mut Memory, call: impl Fn(&mut Memory) -> Reply) -> Reply {
    let before = memory::read(&memory.job);
    let reply = call(memory);
    if let (DONE, Some(before)) = (reply, before) {
        let mut open = open_job(memory);
        let standing: Standing = open.standing.clone();
        for kept in open.kept.iter_mut().flatten() {
            if *kept == before.standing {
                *kept = standing.clone();
            }
        }
        memory::write(&open, &mut memory.job);
    }
    reply
}
