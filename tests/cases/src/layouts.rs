//! The families of layouts: panels for one run, with a limit on tries.

use reference::layout::{LONGEST, MOST_OF_EACH, MOST_TRIES, total};

use crate::Random;
use crate::compare::Checker;
use crate::families::Outcome;

/// Panel lengths of the yard: one to four, coprime, with a common divisor,
/// equal, next to each other, the shortest and the longest.
const YARDS: &[&[u64]] = &[
    &[1],
    &[4_000],
    &[LONGEST],
    &[4_000, 2_500],
    &[2_500, 4_000],
    &[6, 10],
    &[7, 7],
    &[1, LONGEST],
    &[3, 5, 16],
    &[6, 10, 15],
    &[500, 500, 750],
    &[4_000, 3_000, 2_500, 1_333],
    &[12, 18, 30, 42],
    &[9, 9, 9, 9],
    &[LONGEST, LONGEST - 1, LONGEST - 2, LONGEST - 3],
    &[1, 16, 256, 4_096],
];

/// One, few, and the counts of layouts of one to four lengths with their
/// neighbours.
const LIMITS: [u64; 15] = [
    1,
    2,
    7,
    15,
    16,
    17,
    100,
    255,
    256,
    257,
    4_095,
    4_096,
    4_097,
    MOST_TRIES - 1,
    MOST_TRIES,
];

/// Every limit with runs of every sort.
pub fn every_limit(checker: &mut Checker, random: &mut Random) -> Outcome {
    for lengths in YARDS {
        for limit in LIMITS {
            for run in runs(random, lengths) {
                // All runs with all layouts of four lengths would take long.
                if limit < 4_095 || lengths.len() < 3 || random.percent(30) {
                    checker.layout(lengths, run, limit)?;
                }
            }
        }
    }
    Ok(())
}

/// No length, short, just what a layout has and a millimetre to either side, the
/// greatest total and just above, and near the ends of 32 and of 64 bits.
fn runs(random: &mut Random, lengths: &[u64]) -> Vec<u64> {
    let most = total(lengths, &vec![MOST_OF_EACH; lengths.len()]);
    let attained = attained(random, lengths);
    let mut list = vec![0, 1, attained, attained + 1, attained.saturating_sub(1)];
    list.extend([random.below(most + 1), most - 1, most, most + 1]);
    list.push(random.pick(&[1 << 32, (1 << 32) + attained, 1 << 63]));
    list.extend([u64::MAX, u64::MAX - random.below(LONGEST)]);
    list
}

/// The total of any layout, of few panels more often than of many.
fn attained(random: &mut Random, lengths: &[u64]) -> u64 {
    let most = random.pick(&[2, MOST_OF_EACH]);
    let mut count = |_: &u64| random.between(0, most);
    let counts: Vec<u64> = lengths.iter().map(&mut count).collect();
    total(lengths, &counts)
}

/// Lengths of every size, some of them equal or with a common divisor.
pub fn at_random(checker: &mut Checker, random: &mut Random) -> Outcome {
    for _ in 0..400 {
        let lengths = lengths(random);
        let limit = match random.below(4) {
            0 => random.pick(&LIMITS),
            1 => random.edgy(1, MOST_TRIES),
            _ => random.between(1, 600),
        };
        for _ in 0..3 {
            let all = runs(random, &lengths);
            checker.layout(&lengths, random.pick(&all), limit)?;
        }
    }
    Ok(())
}

fn lengths(random: &mut Random) -> Vec<u64> {
    let unit = random.pick(&[1, 1, 1, 2, 6, 50, 500]);
    let longest = random.pick(&[12, 40, LONGEST / unit]);
    let mut list: Vec<u64> = Vec::new();
    for _ in 0..random.between(1, 4) {
        let length = match list.is_empty() || random.percent(80) {
            true => unit * random.edgy(1, longest),
            false => random.pick(&list),
        };
        list.push(length);
    }
    list
}

/// No length, more than four (some four in a byte or fewer), each length out of
/// range, some in range in 16 bits or in 32; limits out of range, some in range
/// in 16 bits or in 32; both.
pub fn refused(checker: &mut Checker, random: &mut Random) -> Outcome {
    let mut lists = vec![Vec::new()];
    for count in [5, 6, 8, 16, 256, 257, 260] {
        lists.push(vec![4_000; count]);
    }
    for count in 1..=5 {
        for place in 0..count {
            for bad in [
                0,
                LONGEST + 1,
                65_536,
                65_536 + 4_000,
                1 << 32,
                (1 << 32) + 4_000,
                u64::MAX,
            ] {
                let mut list: Vec<u64> = (1..=count).map(|index| 1_000 * index).collect();
                list[place as usize] = bad;
                lists.push(list);
            }
        }
    }
    let good = YARDS.iter().map(|lengths| lengths.to_vec());
    let bad_limits = [
        0,
        MOST_TRIES + 1,
        MOST_TRIES + 100,
        1 << 32,
        (1 << 32) + 100,
        u64::MAX,
    ];
    for lengths in lists.into_iter().chain(good) {
        for limit in bad_limits {
            checker.layout(&lengths, random.pick(&[0, 9_000, u64::MAX]), limit)?;
        }
        for run in [0, random.below(20_000), u64::MAX] {
            checker.layout(&lengths, run, random.pick(&[1, 100, 300]))?;
        }
    }
    Ok(())
}
