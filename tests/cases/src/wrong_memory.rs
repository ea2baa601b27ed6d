//! Tests of an open job's memory with one slip each. The test has to find every
//! one of them.

use reference::envelope;
use reference::job::{self, Hazard, Job, NATIONAL};
use reference::memory::{
    BYTES, HEADER, HEADER_BYTES, MARK_BYTES, NOW_BYTES, PLACE_BYTES, PLACES, STATE_BYTES, all_0,
    read_place, value,
};
use reference::{add, keep, open_schedule, return_to, withdraw};

use crate::calls::{Calls, Memory, Reply, plan_reply, reply, right};
use crate::draft::{A, B, KIND, PANEL, header_range};
use crate::wrong_open::{BROKEN, DONE, number_at, with_add, with_schedule, with_withdraw};
use crate::wrong_states::{with_keep, with_return};

/// Every wrong test with the name of its slip.
pub fn all() -> Vec<(&'static str, Calls)> {
    let mut list = untested_by_a_call();
    list.extend(untested_rules());
    list.extend(untested_kept_rules());
    list
}

/// A rule that memory may break.
#[derive(Clone, Copy, Debug, PartialEq, Eq)]
enum Rule {
    Kind,
    /// Another header number is in its range.
    Header,
    /// B − A is at most its limit.
    Length,
    /// The panel length of kind 2 is in its range.
    Panel,
    /// The panel length of kind 1 is 1.
    NoPanel,
    /// A state is kept or not.
    Used,
    /// At most 256 hazards.
    Count,
    /// No name stands twice, one behind the other.
    Twice,
    /// Names rise.
    Order,
    /// Refusals 4 and 5 of a hazard that stands.
    Field,
    Near,
    /// A place that is not used is all 0, and so is a state that is not kept.
    Unused,
}

/// A rule that is broken, in the open job as it is now or in a kept state.
#[derive(Clone, Copy, Debug, PartialEq, Eq)]
struct Breach {
    rule: Rule,
    kept: bool,
}

/// Every rule that the memory breaks. Where a header number does without which
/// a hazard cannot be asked, the hazards are not looked at.
fn broken(memory: &[u8; BYTES]) -> Vec<Breach> {
    let numbers: Vec<u64> = (0..HEADER).map(|place| number_at(memory, place)).collect();
    let mut list = broken_header(&numbers);
    if list.contains(&Rule::Header) || numbers[PANEL] == 0 {
        return breaches(list, false);
    }
    let header = job_of(&numbers);
    let places = &memory[HEADER_BYTES..NOW_BYTES];
    list.extend(broken_row(&header, numbers[HEADER - 1], places));
    let mut list = breaches(list, false);
    for state in memory[NOW_BYTES..].chunks(STATE_BYTES) {
        list.extend(breaches(broken_state(&header, state), true));
    }
    list
}

fn breaches(rules: Vec<Rule>, kept: bool) -> Vec<Breach> {
    let breach = |rule| Breach { rule, kept };
    rules.into_iter().map(breach).collect()
}

/// The header without the count.
fn broken_header(numbers: &[u64]) -> Vec<Rule> {
    let mut list = Vec::new();
    for (place, number) in numbers[..HEADER - 1].iter().enumerate() {
        let (rule, (low, high)) = match place {
            KIND => (Rule::Kind, header_range(numbers, place)),
            PANEL if numbers[KIND] == 1 => (Rule::NoPanel, (1, 1)),
            PANEL => (Rule::Panel, header_range(numbers, place)),
            B if too_long(numbers) => (Rule::Length, header_range(numbers, place)),
            _ => (Rule::Header, header_range(numbers, place)),
        };
        if !(low..=high).contains(number) {
            list.push(rule);
        }
    }
    list
}

/// Whether both ends are stations of a road, too far from each other.
fn too_long(numbers: &[u64]) -> bool {
    let (begin, end) = (numbers[A], numbers[B]);
    begin < end && end <= NATIONAL.last_end && end - begin > NATIONAL.longest
}

/// A state that is marked as used in whatever way is looked at as a kept one.
fn broken_state(header: &Job, state: &[u8]) -> Vec<Rule> {
    let (marks, places) = state.split_at(2 * MARK_BYTES);
    let (used, count) = marks.split_at(MARK_BYTES);
    let mut list = Vec::new();
    match value(used) {
        0 if !all_0(state) => list.push(Rule::Unused),
        0 => (),
        used => {
            if used > 1 {
                list.push(Rule::Used);
            }
            list.extend(broken_row(header, value(count), places));
        }
    }
    list
}

/// A row of places, so many of them used.
fn broken_row(header: &Job, count: u64, places: &[u8]) -> Vec<Rule> {
    if count > PLACES as u64 {
        return vec![Rule::Count];
    }
    let (used, unused) = places.split_at(PLACE_BYTES * count as usize);
    let mut list = Vec::new();
    let mut previous = None;
    for (name, hazard) in used.chunks(PLACE_BYTES).map(read_place) {
        if previous == Some(name) {
            list.push(Rule::Twice);
        }
        if previous > Some(name) {
            list.push(Rule::Order);
        }
        previous = Some(name);
        list.extend(broken_by(header, &hazard));
    }
    if !all_0(unused) {
        list.push(Rule::Unused);
    }
    list
}

/// The job of these header numbers, which are in their ranges.
fn job_of(numbers: &[u64]) -> Job {
    Job {
        kind: numbers[0],
        road_begin: numbers[1],
        road_end: numbers[2],
        runout_forward: numbers[3],
        runout_opposite: numbers[4],
        clear_zone: numbers[5],
        centreline: numbers[6],
        barrier_offset: numbers[7],
        deflection: numbers[8],
        flare_along: numbers[9],
        flare_across: numbers[10],
        straight: numbers[11],
        continuity: numbers[12],
        panel: numbers[13],
        hazards: Vec::new(),
    }
}

fn broken_by(header: &Job, hazard: &Hazard) -> Option<Rule> {
    if !job::in_range(header, hazard) {
        return Some(Rule::Field);
    }
    let refused = envelope::envelope(header, 0, hazard).is_err();
    refused.then_some(Rule::Near)
}

fn untested_by_a_call() -> Vec<(&'static str, Calls)> {
    let mut list = one_call_each(
        [
            "the memory not tested by add",
            "the memory not tested by a withdrawal",
            "the memory not tested by a schedule",
            "the memory not tested by keep",
            "the memory not tested by a return",
        ],
        || untested(|memory| !broken(&memory.job).is_empty()),
    );
    list.extend(one_call_each(
        [
            "the kept states not tested by add",
            "the kept states not tested by a withdrawal",
            "the kept states not tested by a schedule",
            "the kept states not tested by keep",
            "the kept states not tested by a return",
        ],
        || untested(|memory| breaks(memory, |breach| breach.kept)),
    ));
    list.push((
        "broken memory refused with the header number",
        with_withdraw(Box::new(|memory, name| {
            let mut reply = reply(withdraw(&mut memory.job, name));
            if reply == BROKEN && number_at(&memory.job, KIND) == 0 {
                reply.value = 1;
            }
            reply
        })),
    ));
    list
}

/// These calls in the place of add, withdraw, schedule, keep or return alone.
pub fn one_call_each(
    names: [&'static str; 5],
    calls: impl Fn() -> Calls,
) -> Vec<(&'static str, Calls)> {
    let alone = [
        with_add(calls().add),
        with_withdraw(calls().withdraw),
        with_schedule(calls().open_schedule),
        with_keep(calls().keep),
        with_return(calls().return_to),
    ];
    names.into_iter().zip(alone).collect()
}

fn untested_rules() -> Vec<(&'static str, Calls)> {
    let names = [
        ("the kind in the memory not tested", Rule::Kind),
        ("the header in the memory not tested", Rule::Header),
        ("B − A in the memory not tested", Rule::Length),
        ("the panel length in the memory not tested", Rule::Panel),
        (
            "kind 1 in the memory with another panel length taken",
            Rule::NoPanel,
        ),
        ("a count above 256 in the memory taken", Rule::Count),
        ("a name twice in the memory taken", Rule::Twice),
        ("names out of order in the memory taken", Rule::Order),
        ("fields of hazards in the memory not tested", Rule::Field),
        ("a hazard too near in the memory taken", Rule::Near),
        ("places that are not used not tested", Rule::Unused),
    ];
    one_rule_each(&names, false)
}

fn untested_kept_rules() -> Vec<(&'static str, Calls)> {
    let names = [
        ("a state used in another way taken", Rule::Used),
        ("a kept count above 256 taken", Rule::Count),
        ("a kept name twice taken", Rule::Twice),
        ("kept names out of order taken", Rule::Order),
        ("fields of kept hazards not tested", Rule::Field),
        ("a kept hazard too near taken", Rule::Near),
        ("what is not used in states not tested", Rule::Unused),
    ];
    one_rule_each(&names, true)
}

/// Memory that breaks one of these rules alone is taken.
fn one_rule_each(names: &[(&'static str, Rule)], kept: bool) -> Vec<(&'static str, Calls)> {
    let alone = |rule: Rule| {
        untested(move |memory| breaks(memory, |breach| *breach == Breach { rule, kept }))
    };
    names
        .iter()
        .map(|(name, rule)| (*name, alone(*rule)))
        .collect()
}

/// Whether the memory is broken in this way alone.
fn breaks(memory: &Memory, way: impl Fn(&Breach) -> bool) -> bool {
    let broken = broken(&memory.job);
    !broken.is_empty() && broken.iter().all(way)
}

/// This memory is taken by every call: nothing is done with it, and the reply
/// says that all is well.
fn untested(passed_over: impl Fn(&Memory) -> bool + Copy + 'static) -> Calls {
    let taken = move |memory: &Memory, reply: Reply| match reply == BROKEN && passed_over(memory) {
        true => DONE,
        false => reply,
    };
    Calls {
        add: Box::new(move |memory, name, hazard| {
            let reply = reply(add(&mut memory.job, name, hazard));
            taken(memory, reply)
        }),
        withdraw: Box::new(move |memory, name| {
            let reply = reply(withdraw(&mut memory.job, name));
            taken(memory, reply)
        }),
        keep: Box::new(move |memory, state| {
            let reply = reply(keep(&mut memory.job, state));
            taken(memory, reply)
        }),
        return_to: Box::new(move |memory, state| {
            let reply = reply(return_to(&mut memory.job, state));
            taken(memory, reply)
        }),
        open_schedule: Box::new(move |memory, side, room, lent| {
            let reply = plan_reply(open_schedule(&memory.job, side, &mut room[lent]));
            match taken(memory, reply.reply()) {
                DONE => DONE.into(),
                _ => reply,
            }
        }),
        ..right()
    }
}

#[cfg(test)]
mod tests {
    use super::*;
    use crate::Random;
    use crate::{jobs, open};
    use reference::open::STATES;
    use reference::{OpenJob, memory};

    /// The rules, asked one by one, and the reference's reading find the same
    /// memory right.
    #[test]
    fn the_rules_are_those_of_the_reference() {
        let mut random = Random::new(1, "rules");
        let [mut right, mut wrong] = [0; 2];
        for _ in 0..3_000 {
            let draft = jobs::small(&mut random);
            let Ok(mut open) = OpenJob::open(&draft.clone().with_hazards(&[]).bytes()) else {
                continue;
            };
            for fields in draft.hazards {
                let _ = open.add(open::any_name(&mut random), open::hazard(fields));
                let _ = open.keep(random.below(20));
            }
            let mut memory = [0; BYTES];
            memory::write(&open, &mut memory);
            for _ in 0..random.below(3) {
                // In one of the rows, where something stands.
                let state = NOW_BYTES + STATE_BYTES * random.index(STATES);
                let row = random.pick(&[0, 0, state]);
                let used = HEADER_BYTES + PLACE_BYTES * (open.standing.len() + 1);
                memory[row + random.index(used)] ^= 1 << random.below(8);
            }
            let is_right = memory::read(&memory).is_some();
            assert_eq!(
                broken(&memory).is_empty(),
                is_right,
                "{:?}",
                broken(&memory)
            );
            right += u64::from(is_right);
            wrong += u64::from(!is_right);
        }
        assert!(right > 500 && wrong > 500, "{right} {wrong}");
    }
}
