//! Layouts with one slip each. The test has to find every one of them.
//!
//! The smallest total in place of the smallest overrun is no slip: among the
//! layouts that cover one run they are the same.

use reference::layout::{
    self, LONGEST, Layout, MOST_LENGTHS, MOST_OF_EACH, MOST_TRIES, Tried, floor,
    greatest_common_divisor, next, total,
};
use reference::{Refusal, layout as right_layout};

use crate::calls::{Calls, LayoutReply, layout_reply, right};

/// Every wrong layout with the name of its slip.
pub fn all() -> Vec<(&'static str, Calls)> {
    let mut list = wrong_orders();
    list.extend(wrong_overruns());
    list.extend(wrong_tries());
    list.extend(wrong_floors());
    list.extend(wrong_refusals());
    list.extend(wrong_nones());
    list.extend(wrong_replies());
    list.extend(wrong_inputs());
    list
}

/// The parts of trying that a slip exchanges.
#[derive(Clone, Copy)]
struct Rules {
    /// What the lengths and the run are taken as.
    lengths: fn(&[u64]) -> Vec<u64>,
    run: fn(u64) -> u64,
    most_of_each: u64,
    next: fn(Vec<u64>, u64) -> Option<Vec<u64>>,
    total: fn(&[u64], &[u64]) -> u64,
    /// The overrun of a total over a run; none where it does not cover.
    overrun: fn(u64, u64) -> Option<u64>,
    /// Whether a layout is better than the best before it.
    better: fn(&Layout, &Layout) -> bool,
    /// Whether no more layouts are tried, with this overrun and this floor.
    enough: fn(u64, u64) -> bool,
    /// How many layouts are tried under a limit, and how many of them are said.
    limit: fn(u64) -> u64,
    floor: fn(&[u64], u64) -> u64,
}

const RIGHT: Rules = Rules {
    lengths: <[u64]>::to_vec,
    run: |run| run,
    most_of_each: MOST_OF_EACH,
    next,
    total,
    overrun: u64::checked_sub,
    better: |layout, best| layout.overrun < best.overrun,
    enough: |_, _| false,
    limit: |limit| limit,
    floor,
};

fn with_layout(call: impl Fn(&[u64], u64, u64) -> LayoutReply + 'static) -> Calls {
    Calls {
        layout: Box::new(move |lengths, run, limit| call(lengths, run, limit)),
        ..right()
    }
}

/// Trying by these rules; the refusals are the right ones.
fn by(rules: Rules) -> Calls {
    with_layout(move |lengths, run, limit| {
        layout_reply(refusal(lengths, limit).map(|()| tried_by(&rules, lengths, run, limit)))
    })
}

fn tried_by(rules: &Rules, lengths: &[u64], run: u64, limit: u64) -> Tried {
    let (lengths, run) = ((rules.lengths)(lengths), (rules.run)(run));
    let floor = (rules.floor)(&lengths, run);
    let mut best: Option<Layout> = None;
    let mut tries = 0;
    let mut counts = Some(vec![0; lengths.len()]);
    while let Some(tried) = counts.filter(|_| tries < (rules.limit)(limit)) {
        tries += 1;
        if let Some(overrun) = (rules.overrun)((rules.total)(&lengths, &tried), run) {
            let counts = tried.clone();
            let layout = Layout { counts, overrun };
            if best
                .as_ref()
                .is_none_or(|best| (rules.better)(&layout, best))
            {
                best = Some(layout);
            }
            if (rules.enough)(overrun, floor) {
                break;
            }
        }
        counts = (rules.next)(tried, rules.most_of_each);
    }
    Tried { best, tries, floor }
}

/// Refusals 16 and 17.
fn refusal(lengths: &[u64], limit: u64) -> Result<(), Refusal> {
    lengths_refusal(lengths)?;
    limit_refusal(limit)
}

fn lengths_refusal(lengths: &[u64]) -> Result<(), Refusal> {
    right_layout(lengths, 0, 1).map(|_| ())
}

fn limit_refusal(limit: u64) -> Result<(), Refusal> {
    match (1..=MOST_TRIES).contains(&limit) {
        true => Ok(()),
        false => Err(Refusal::tries()),
    }
}

/// The right reply changed.
fn replied(change: fn(&mut LayoutReply, &[u64], u64, u64)) -> Calls {
    with_layout(move |lengths, run, limit| {
        let mut reply = layout_reply(right_layout(lengths, run, limit));
        change(&mut reply, lengths, run, limit);
        reply
    })
}

/// How many layouts there are.
fn layouts(lengths: &[u64]) -> u64 {
    (MOST_OF_EACH + 1).pow(lengths.len() as u32)
}

// The order of layouts.

fn wrong_orders() -> Vec<(&'static str, Calls)> {
    let next = |next| by(Rules { next, ..RIGHT });
    let better = |better| by(Rules { better, ..RIGHT });
    let most = |most_of_each| {
        by(Rules {
            most_of_each,
            ..RIGHT
        })
    };
    vec![
        (
            "layouts: the first length's count fastest",
            next(first_fastest),
        ),
        (
            "layouts: the last layout with the smallest overrun",
            better(|layout, best| layout.overrun <= best.overrun),
        ),
        (
            "layouts: the fewest panels of the smallest overrun",
            better(|layout, best| {
                let panels = |layout: &Layout| layout.counts.iter().sum::<u64>();
                (layout.overrun, panels(layout)) < (best.overrun, panels(best))
            }),
        ),
        ("layouts: the first that covers", better(|_, _| false)),
        ("layouts: the last that covers", better(|_, _| true)),
        (
            "layouts: the greatest overrun",
            better(|layout, best| layout.overrun > best.overrun),
        ),
        ("layouts: counts up to 16", most(MOST_OF_EACH + 1)),
        ("layouts: counts up to 14", most(MOST_OF_EACH - 1)),
        (
            "layouts: counts from 1",
            by(Rules {
                total: |lengths, counts| total(lengths, counts) + lengths.iter().sum::<u64>(),
                ..RIGHT
            }),
        ),
        ("layouts: one length at a time", next(one_length)),
    ]
}

fn first_fastest(mut counts: Vec<u64>, most_of_each: u64) -> Option<Vec<u64>> {
    counts.reverse();
    let mut counts = next(counts, most_of_each)?;
    counts.reverse();
    Some(counts)
}

/// Passes over layouts of two lengths or more.
fn one_length(counts: Vec<u64>, most_of_each: u64) -> Option<Vec<u64>> {
    let mut counts = next(counts, most_of_each)?;
    while counts.iter().filter(|count| **count > 0).count() > 1 {
        counts = next(counts, most_of_each)?;
    }
    Some(counts)
}

// Overruns.

fn wrong_overruns() -> Vec<(&'static str, Calls)> {
    let overrun = |overrun| by(Rules { overrun, ..RIGHT });
    let total = |total| by(Rules { total, ..RIGHT });
    vec![
        (
            "layouts: a total that just has the run does not cover it",
            overrun(|total, run| total.checked_sub(run).filter(|overrun| *overrun > 0)),
        ),
        (
            "layouts: the nearest total, shorter or longer",
            overrun(|total, run| Some(total.abs_diff(run))),
        ),
        (
            "layouts: a total a millimetre short covers",
            overrun(|total, run| {
                (total + 1)
                    .checked_sub(run)
                    .map(|over| over.saturating_sub(1))
            }),
        ),
        (
            "layouts: the total in place of the overrun",
            overrun(|total, run| total.checked_sub(run).map(|_| total)),
        ),
        (
            "layouts: totals in 16 bits",
            total(|lengths, counts| layout::total(lengths, counts) & 0xFFFF),
        ),
        (
            "layouts: the run in 32 bits",
            by(Rules {
                run: |run| run & 0xFFFF_FFFF,
                ..RIGHT
            }),
        ),
        (
            "layouts: a run without length is covered by one panel",
            by(Rules {
                run: |run| run.max(1),
                ..RIGHT
            }),
        ),
    ]
}

// Tries.

fn wrong_tries() -> Vec<(&'static str, Calls)> {
    let enough = |enough| by(Rules { enough, ..RIGHT });
    let limit = |limit| by(Rules { limit, ..RIGHT });
    vec![
        (
            "layouts: stopped at an overrun of 0",
            enough(|overrun, _| overrun == 0),
        ),
        (
            "layouts: stopped at the floor",
            enough(|overrun, floor| overrun == floor),
        ),
        (
            "layouts: stopped at the first that covers",
            enough(|_, _| true),
        ),
        (
            "layouts: tries counted up to the best alone",
            replied(|reply, lengths, _, _| {
                if reply.found == 1 {
                    let counts = &reply.counts[..lengths.len()];
                    let index = counts.iter().fold(0, |index, count| 16 * index + count);
                    reply.tries = index + 1;
                }
            }),
        ),
        (
            "layouts: tries always the limit",
            replied(|reply, _, _, limit| {
                if reply.number == 0 {
                    reply.tries = limit;
                }
            }),
        ),
        (
            "layouts: tries always the layouts there are",
            replied(|reply, lengths, _, _| {
                if reply.number == 0 {
                    reply.tries = layouts(lengths);
                }
            }),
        ),
        (
            "layouts: tries that cover alone counted",
            replied(|reply, lengths, run, limit| {
                if reply.number == 0 {
                    reply.tries = covering(lengths, run, limit);
                }
            }),
        ),
        (
            "layouts: all tried, and the limit said",
            replied(|reply, lengths, run, _| {
                if let (0, Ok(all)) = (reply.number, right_layout(lengths, run, MOST_TRIES)) {
                    let tries = reply.tries;
                    *reply = layout_reply(Ok(Tried { tries, ..all }));
                }
            }),
        ),
        (
            "layouts: one more tried than the limit",
            limit(|limit| limit + 1),
        ),
        (
            "layouts: one fewer tried than the limit",
            limit(|limit| limit - 1),
        ),
        (
            "layouts: a limit of 65,536 taken as 0 in 16 bits",
            limit(|limit| limit & 0xFFFF),
        ),
        (
            "layouts: all tried, whatever the limit",
            limit(|_| MOST_TRIES),
        ),
    ]
}

/// How many of the tried layouts cover the run.
fn covering(lengths: &[u64], run: u64, limit: u64) -> u64 {
    let mut covering = 0;
    let mut counts = Some(vec![0; lengths.len()]);
    for _ in 0..limit {
        let Some(tried) = counts else {
            break;
        };
        covering += u64::from(total(lengths, &tried) >= run);
        counts = next(tried, MOST_OF_EACH);
    }
    covering
}

// Floors.

fn wrong_floors() -> Vec<(&'static str, Calls)> {
    let floor = |floor| by(Rules { floor, ..RIGHT });
    vec![
        (
            "layouts: the floor by the smallest length",
            floor(|lengths, run| by_divisor(lengths.iter().min(), run)),
        ),
        (
            "layouts: the floor by the greatest length",
            floor(|lengths, run| by_divisor(lengths.iter().max(), run)),
        ),
        (
            "layouts: the floor by the first length",
            floor(|lengths, run| by_divisor(lengths.first(), run)),
        ),
        (
            "layouts: the floor by the last length",
            floor(|lengths, run| by_divisor(lengths.last(), run)),
        ),
        (
            "layouts: the floor by the first two lengths",
            floor(|lengths, run| layout::floor(&lengths[..lengths.len().min(2)], run)),
        ),
        (
            "layouts: the floor by the difference of the lengths",
            floor(|lengths, run| {
                let [first, second, ..] = lengths[..] else {
                    return layout::floor(lengths, run);
                };
                by_divisor(Some(&first.abs_diff(second).max(1)), run)
            }),
        ),
        (
            "layouts: a whole divisor as the floor of its multiple",
            floor(|lengths, run| match layout::floor(lengths, run) {
                0 => divisor(lengths),
                floor => floor,
            }),
        ),
        (
            "layouts: the floor down to a multiple",
            floor(|lengths, run| run % divisor(lengths)),
        ),
        (
            "layouts: the floor up to a multiple in 64 bits",
            floor(|lengths, run| {
                let divisor = divisor(lengths);
                let multiple = run.wrapping_add(divisor - 1) / divisor * divisor;
                multiple.wrapping_sub(run)
            }),
        ),
        (
            "layouts: the multiple in place of the floor",
            floor(|lengths, run| run.saturating_add(layout::floor(lengths, run))),
        ),
        ("layouts: no floor", floor(|_, _| 0)),
        (
            "layouts: the smallest overrun of all as the floor",
            floor(|lengths, run| {
                let all = right_layout(lengths, run, MOST_TRIES);
                let best = all.ok().and_then(|tried| tried.best);
                best.map_or(layout::floor(lengths, run), |best| best.overrun)
            }),
        ),
    ]
}

fn divisor(lengths: &[u64]) -> u64 {
    lengths.iter().copied().fold(0, greatest_common_divisor)
}

/// The distance up to a multiple of this length alone.
fn by_divisor(length: Option<&u64>, run: u64) -> u64 {
    length.map_or(0, |length| floor(&[*length], run))
}

// Refusals.

fn wrong_refusals() -> Vec<(&'static str, Calls)> {
    let refused = |refused: fn(&[u64], u64) -> Result<(), Refusal>| {
        with_layout(move |lengths, run, limit| {
            let refused = refused(lengths, limit);
            layout_reply(refused.and_then(|()| right_layout(lengths, run, limit)))
        })
    };
    // Other lengths and another limit asked for, where the right ones may be
    // refused.
    let taken = |lengths: fn(&[u64]) -> Vec<u64>, limit: fn(u64) -> u64| {
        with_layout(move |given, run, tries| {
            layout_reply(right_layout(&lengths(given), run, limit(tries)))
        })
    };
    vec![
        (
            "layouts: 17 before 16",
            refused(|lengths, limit| {
                limit_refusal(limit)?;
                lengths_refusal(lengths)
            }),
        ),
        (
            "layouts: 17 before a length out of range",
            refused(|lengths, limit| {
                if (1..=MOST_LENGTHS).contains(&lengths.len()) {
                    limit_refusal(limit)?;
                }
                refusal(lengths, limit)
            }),
        ),
        (
            "layouts: no length answered with none",
            with_layout(|lengths, run, limit| match lengths.is_empty() {
                true => LayoutReply::default(),
                false => layout_reply(right_layout(lengths, run, limit)),
            }),
        ),
        (
            "layouts: the first four of more lengths taken",
            taken(
                |lengths| lengths[..lengths.len().min(MOST_LENGTHS)].to_vec(),
                |limit| limit,
            ),
        ),
        (
            "layouts: the count of lengths in one byte",
            taken(
                |lengths| lengths[..lengths.len() & 0xFF].to_vec(),
                |limit| limit,
            ),
        ),
        (
            "layouts: four lengths refused",
            refused(|lengths, _| match lengths.len() {
                MOST_LENGTHS => Err(Refusal::panel_lengths()),
                _ => Ok(()),
            }),
        ),
        (
            "layouts: equal lengths refused",
            refused(|lengths, _| {
                let mut sorted = lengths.to_vec();
                sorted.sort();
                sorted.dedup();
                match sorted.len() < lengths.len() {
                    true => Err(Refusal::panel_lengths()),
                    false => Ok(()),
                }
            }),
        ),
        (
            "layouts: a length of 0 taken",
            taken(
                |lengths| each(lengths, |length| length.max(1)),
                |limit| limit,
            ),
        ),
        (
            "layouts: a length of 20,001 taken",
            taken(
                |lengths| {
                    each(lengths, |length| match length == LONGEST + 1 {
                        true => LONGEST,
                        false => length,
                    })
                },
                |limit| limit,
            ),
        ),
        (
            "layouts: a length of 20,000 refused",
            refused(|lengths, _| match lengths.contains(&LONGEST) {
                true => Err(Refusal::panel_lengths()),
                false => Ok(()),
            }),
        ),
        (
            "layouts: a length of 1 refused",
            refused(|lengths, _| match lengths.contains(&1) {
                true => Err(Refusal::panel_lengths()),
                false => Ok(()),
            }),
        ),
        (
            "layouts: the first length alone tested",
            taken(
                |lengths| match lengths {
                    [first, rest @ ..] if rest.len() < MOST_LENGTHS => {
                        let rest = each(rest, |length| length.clamp(1, LONGEST));
                        [vec![*first], rest].concat()
                    }
                    _ => lengths.to_vec(),
                },
                |limit| limit,
            ),
        ),
        (
            "layouts: lengths in 32 bits",
            taken(
                |lengths| each(lengths, |length| length & 0xFFFF_FFFF),
                |limit| limit,
            ),
        ),
        (
            "layouts: lengths in 16 bits",
            taken(
                |lengths| each(lengths, |length| length & 0xFFFF),
                |limit| limit,
            ),
        ),
        (
            "layouts: the limit in 32 bits",
            taken(<[u64]>::to_vec, |limit| limit & 0xFFFF_FFFF),
        ),
        (
            "layouts: a limit of 0 taken as no limit",
            taken(<[u64]>::to_vec, |limit| match limit {
                0 => MOST_TRIES,
                _ => limit,
            }),
        ),
        (
            "layouts: a limit above 65,536 taken as 65,536",
            taken(<[u64]>::to_vec, |limit| limit.min(MOST_TRIES)),
        ),
        (
            "layouts: a limit of 65,536 refused",
            refused(|lengths, limit| {
                lengths_refusal(lengths)?;
                match limit {
                    MOST_TRIES => Err(Refusal::tries()),
                    _ => Ok(()),
                }
            }),
        ),
        (
            "layouts: a limit above the layouts there are refused",
            refused(|lengths, limit| {
                lengths_refusal(lengths)?;
                match limit > layouts(lengths) {
                    true => Err(Refusal::tries()),
                    false => Ok(()),
                }
            }),
        ),
        (
            "layouts: a run without length refused",
            with_layout(|lengths, run, limit| {
                let reply = layout_reply(right_layout(lengths, run, limit));
                match run == 0 && reply.number == 0 {
                    true => layout_reply(Err(Refusal::argument())),
                    false => reply,
                }
            }),
        ),
        (
            "layouts: 16 with the count of lengths",
            replied(|reply, lengths, _, _| {
                if reply.number == 16 {
                    reply.value = lengths.len() as u64;
                }
            }),
        ),
        (
            "layouts: 16 with the place of the length",
            replied(|reply, lengths, _, _| {
                let stocked = |length: &u64| (1..=LONGEST).contains(length);
                if reply.number == 16 {
                    let place = lengths.iter().position(|length| !stocked(length));
                    reply.value = place.unwrap_or(0) as u64;
                }
            }),
        ),
        (
            "layouts: 17 with the limit",
            replied(|reply, _, _, limit| {
                if reply.number == 17 {
                    reply.value = limit;
                }
            }),
        ),
        (
            "layouts: the floor left after 17",
            replied(|reply, lengths, run, _| {
                if reply.number == 17 {
                    reply.floor = floor(lengths, run);
                }
            }),
        ),
        (
            "layouts: the tries left after 17",
            replied(|reply, lengths, _, limit| {
                if reply.number == 17 {
                    reply.tries = limit.min(layouts(lengths));
                }
            }),
        ),
        (
            "layouts: the answer of the first four lengths left after 16",
            replied(|reply, lengths, run, limit| {
                if reply.number == 16 && lengths.len() > MOST_LENGTHS {
                    let first = layout_reply(right_layout(&lengths[..MOST_LENGTHS], run, limit));
                    if first.number == 0 {
                        let number = reply.number;
                        *reply = LayoutReply { number, ..first };
                    }
                }
            }),
        ),
    ]
}

fn each(lengths: &[u64], change: fn(u64) -> u64) -> Vec<u64> {
    lengths.iter().copied().map(change).collect()
}

// None.

fn wrong_nones() -> Vec<(&'static str, Calls)> {
    // The right reply changed where no tried layout covers.
    let none = |change: fn(&mut LayoutReply, &[u64], u64, u64)| {
        with_layout(move |lengths, run, limit| {
            let mut reply = layout_reply(right_layout(lengths, run, limit));
            if reply.number == 0 && reply.found == 0 {
                change(&mut reply, lengths, run, limit);
            }
            reply
        })
    };
    vec![
        (
            "layouts: none without tries",
            none(|reply, _, _, _| reply.tries = 0),
        ),
        (
            "layouts: none without floor",
            none(|reply, _, _, _| reply.floor = 0),
        ),
        (
            "layouts: none with neither tries nor floor",
            none(|reply, _, _, _| *reply = LayoutReply::default()),
        ),
        (
            "layouts: none with the counts of the last layout tried",
            none(|reply, lengths, _, _| {
                let last = reply.tries - 1;
                for (place, count) in reply.counts[..lengths.len()].iter_mut().rev().enumerate() {
                    *count = last >> (4 * place) & MOST_OF_EACH;
                }
            }),
        ),
        (
            "layouts: none with what is missing as the overrun",
            none(|reply, lengths, run, _| {
                let most = total(lengths, &vec![MOST_OF_EACH; lengths.len()]);
                reply.overrun = run.abs_diff(most);
            }),
        ),
        (
            "layouts: none with the greatest number as the overrun",
            none(|reply, _, _, _| reply.overrun = u64::MAX),
        ),
        (
            "layouts: none said as found",
            none(|reply, _, _, _| reply.found = 1),
        ),
        (
            "layouts: none refused 17",
            none(|reply, _, _, _| *reply = layout_reply(Err(Refusal::tries()))),
        ),
        (
            "layouts: the layouts behind the limit tried where none covers",
            none(|reply, lengths, run, _| {
                if let Ok(all) = right_layout(lengths, run, MOST_TRIES) {
                    *reply = layout_reply(Ok(all));
                }
            }),
        ),
        (
            "layouts: found 0 for an overrun of 0",
            replied(|reply, _, _, _| {
                if reply.overrun == 0 {
                    reply.found = 0;
                }
            }),
        ),
        (
            "layouts: none where the best overrun is above the floor",
            replied(|reply, _, _, _| {
                if reply.found == 1 && reply.overrun > reply.floor {
                    reply.found = 0;
                    reply.overrun = 0;
                    reply.counts = [0; MOST_LENGTHS];
                }
            }),
        ),
    ]
}

// Replies.

fn wrong_replies() -> Vec<(&'static str, Calls)> {
    vec![
        (
            "layouts: counts turned",
            replied(|reply, lengths, _, _| reply.counts[..lengths.len().min(4)].reverse()),
        ),
        (
            "layouts: counts in the last places",
            replied(|reply, lengths, _, _| {
                if reply.number == 0 {
                    reply.counts.rotate_right(MOST_LENGTHS - lengths.len());
                }
            }),
        ),
        (
            "layouts: lengths in place of counts",
            replied(|reply, lengths, _, _| {
                if reply.found == 1 {
                    reply.counts[..lengths.len()].copy_from_slice(lengths);
                }
            }),
        ),
        (
            "layouts: the overrun said as the value",
            replied(|reply, _, _, _| reply.value += reply.overrun),
        ),
        (
            "layouts: the tries said as found",
            replied(|reply, _, _, _| reply.found *= reply.tries),
        ),
        (
            "layouts: tries and floor exchanged",
            replied(|reply, _, _, _| std::mem::swap(&mut reply.tries, &mut reply.floor)),
        ),
    ]
}

// Inputs.

fn wrong_inputs() -> Vec<(&'static str, Calls)> {
    let lengths = |lengths| by(Rules { lengths, ..RIGHT });
    vec![
        (
            "layouts: the longest panels first",
            lengths(|lengths| {
                let mut sorted = lengths.to_vec();
                sorted.sort_by(|a, b| b.cmp(a));
                sorted
            }),
        ),
        (
            "layouts: the shortest panels first",
            lengths(|lengths| {
                let mut sorted = lengths.to_vec();
                sorted.sort();
                sorted
            }),
        ),
        (
            "layouts: equal lengths taken once",
            lengths(|lengths| {
                let mut once = lengths.to_vec();
                once.dedup();
                once
            }),
        ),
        (
            "layouts: the lengths put in order in the caller's memory",
            Calls {
                layout: Box::new(|lengths, run, limit| {
                    let reply = layout_reply(right_layout(lengths, run, limit));
                    lengths.sort();
                    reply
                }),
                ..right()
            },
        ),
    ]
}

#[cfg(test)]
mod tests {
    use super::*;
    use crate::compare::Checker;

    /// A wrong engine has to be wrong in its slip alone: with no slip at all the
    /// parts are those of the reference.
    #[test]
    fn no_difference_without_a_slip() {
        let mut checker = Checker::new(by(RIGHT));
        if let Err(difference) = crate::run(&mut checker, 8, 1) {
            panic!("{difference}");
        }
    }
}
