//! Panels for one run: layouts tried one after the other.

use crate::refusal::Refusal;

/// The yard stocks at most this many panel lengths.
pub const MOST_LENGTHS: usize = 4;

/// The longest panel.
pub const LONGEST: u64 = 20_000;

/// A layout has at most this many panels of each length.
pub const MOST_OF_EACH: u64 = 15;

/// At most this many layouts are tried: those that there are of four lengths.
pub const MOST_TRIES: u64 = 65_536;

/// What the tries give.
#[derive(Clone, Debug, PartialEq, Eq)]
pub struct Tried {
    /// None if no tried layout covers the run.
    pub best: Option<Layout>,
    pub tries: u64,
    pub floor: u64,
}

/// A layout that covers the run: a count of each length, in their order.
#[derive(Clone, Debug, PartialEq, Eq)]
pub struct Layout {
    pub counts: Vec<u64>,
    pub overrun: u64,
}

/// The first of the tried layouts with the smallest overrun: refusal 16 for the
/// lengths, then 17 for the limit.
pub fn layout(lengths: &[u64], run: u64, limit: u64) -> Result<Tried, Refusal> {
    let stocked = |length: &u64| (1..=LONGEST).contains(length);
    if !(1..=MOST_LENGTHS).contains(&lengths.len()) || !lengths.iter().all(stocked) {
        return Err(Refusal::panel_lengths());
    }
    if !(1..=MOST_TRIES).contains(&limit) {
        return Err(Refusal::tries());
    }
    let mut best: Option<Layout> = None;
    let mut tries = 0;
    let mut counts = Some(vec![0; lengths.len()]);
    while let Some(tried) = counts.filter(|_| tries < limit) {
        tries += 1;
        if let Some(overrun) = total(lengths, &tried).checked_sub(run)
            && best.as_ref().is_none_or(|best| overrun < best.overrun)
        {
            let counts = tried.clone();
            best = Some(Layout { counts, overrun });
        }
        counts = next(tried, MOST_OF_EACH);
    }
    Ok(Tried {
        best,
        tries,
        floor: floor(lengths, run),
    })
}

/// The next layout in rising order, the last length's count changing fastest;
/// none behind the last.
pub fn next(mut counts: Vec<u64>, most_of_each: u64) -> Option<Vec<u64>> {
    for count in counts.iter_mut().rev() {
        if *count < most_of_each {
            *count += 1;
            return Some(counts);
        }
        *count = 0;
    }
    None
}

pub fn total(lengths: &[u64], counts: &[u64]) -> u64 {
    let panels = lengths.iter().zip(counts);
    panels.map(|(length, count)| length * count).sum()
}

/// The distance from the run's length up to the least multiple, not below it, of
/// the lengths' greatest common divisor. The multiple may need more than 64 bits.
pub fn floor(lengths: &[u64], run: u64) -> u64 {
    let divisor = lengths.iter().copied().fold(0, greatest_common_divisor);
    let run = u128::from(run);
    let multiple = run.next_multiple_of(divisor.into());
    (multiple - run) as u64
}

/// Of 0 and another number it is the other.
pub fn greatest_common_divisor(a: u64, b: u64) -> u64 {
    match b {
        0 => a,
        _ => greatest_common_divisor(b, a % b),
    }
}

#[cfg(test)]
mod tests {
    use super::*;

    #[test]
    fn the_last_count_changes_fastest() {
        let mut list = vec![vec![0, 0]];
        while let Some(counts) = next(list[list.len() - 1].clone(), 2) {
            list.push(counts);
        }
        let expected = [
            [0, 0],
            [0, 1],
            [0, 2],
            [1, 0],
            [1, 1],
            [1, 2],
            [2, 0],
            [2, 1],
            [2, 2],
        ];
        assert_eq!(list, expected);
    }

    #[test]
    fn common_divisors() {
        for a in 0..60 {
            for b in 0..60 {
                let divides = |d: &u64| a % d == 0 && b % d == 0;
                let greatest = (1..60).rev().find(divides);
                if a > 0 || b > 0 {
                    assert_eq!(Some(greatest_common_divisor(a, b)), greatest);
                }
            }
        }
    }
}
