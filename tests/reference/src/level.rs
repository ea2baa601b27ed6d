//! Required levels and runs.

use crate::envelope::Envelope;
use crate::stretch::Stretch;

/// The highest level.
pub const HIGHEST: u64 = 6;

/// A set of millimetres, as its longest stretches in rising order: no two of
/// them overlap or touch.
pub type Set = Vec<Stretch>;

/// A longest stretch of one required level above 0.
#[derive(Clone, Copy, Debug, PartialEq, Eq)]
pub struct Run {
    pub stretch: Stretch,
    pub level: u64,
}

/// For each level 1 to 6, its set with the short gaps added.
pub struct Required {
    sets: Vec<(u64, Set)>,
}

impl Required {
    /// The required levels of one side's envelopes; filling is for each v
    /// separately.
    pub fn new(envelopes: &[Envelope], continuity: u64) -> Required {
        let filled = |v| (v, fill(&at_level(envelopes, v), continuity));
        Required {
            sets: (1..=HIGHEST).map(filled).collect(),
        }
    }

    /// The set of level v, 1 to 6, gaps added.
    pub fn set(&self, v: u64) -> &[Stretch] {
        let of_level = self.sets.iter().find(|(level, _)| *level == v);
        of_level.map_or(&[], |(_, set)| set)
    }

    /// The highest v whose set, gaps added, has the station; else 0.
    pub fn level(&self, station: u64) -> u64 {
        let mut highest_first = self.sets.iter().rev();
        match highest_first.find(|(_, set)| has(set, station)) {
            Some((v, _)) => *v,
            None => 0,
        }
    }

    /// Every station at which the required level can change, rising.
    fn boundaries(&self) -> Vec<u64> {
        let stretches = self.sets.iter().flat_map(|(_, set)| set);
        let mut list: Vec<u64> = stretches.flat_map(|s| [s.start, s.end]).collect();
        list.sort();
        list.dedup();
        list
    }

    /// The runs in rising order. Between two neighbouring boundaries the level
    /// is the same throughout; equal neighbours are one run.
    pub fn runs(&self) -> Vec<Run> {
        let mut runs: Vec<Run> = Vec::new();
        for pair in self.boundaries().windows(2) {
            let stretch = Stretch::new(pair[0], pair[1]);
            let level = self.level(stretch.start);
            if level > 0 {
                lengthen_or_push(&mut runs, Run { stretch, level });
            }
        }
        runs
    }
}

/// The required level at a station, from the envelopes of one side directly: the
/// highest v whose set, gaps added, has it; else 0.
pub fn level_at(envelopes: &[Envelope], continuity: u64, station: u64) -> u64 {
    let has_station = |v: &u64| {
        let high_enough = envelopes.iter().filter(|e| e.level >= *v);
        let stretches: Vec<Stretch> = high_enough.map(|e| e.stretch).collect();
        let covered = stretches.iter().any(|stretch| stretch.has(station));
        covered || in_short_gap(&stretches, continuity, station)
    };
    (1..=HIGHEST).rev().find(has_station).unwrap_or(0)
}

/// Whether a station that none of the stretches has is in a gap that is shorter
/// than the continuity limit. The gap goes from the last end before the station
/// to the next start behind it, if there are both.
fn in_short_gap(stretches: &[Stretch], continuity: u64, station: u64) -> bool {
    let ended = stretches
        .iter()
        .map(|s| s.end)
        .filter(|end| *end <= station);
    let coming = stretches
        .iter()
        .map(|s| s.start)
        .filter(|start| *start > station);
    match (ended.max(), coming.min()) {
        (Some(end), Some(start)) => start - end < continuity,
        _ => false,
    }
}

/// Adds a run behind the others; one that goes on at the last one's level
/// makes that one longer.
pub fn lengthen_or_push(runs: &mut Vec<Run>, next: Run) {
    match runs.last_mut() {
        Some(last) if last.level == next.level && last.stretch.end == next.stretch.start => {
            last.stretch.end = next.stretch.end;
        }
        _ => runs.push(next),
    }
}

/// The millimetres in envelopes of level v or higher.
pub fn at_level(envelopes: &[Envelope], v: u64) -> Set {
    let high_enough = envelopes.iter().filter(|e| e.level >= v);
    set(high_enough.map(|e| e.stretch).collect())
}

/// The millimetres that any of the stretches has.
pub fn set(mut stretches: Vec<Stretch>) -> Set {
    stretches.sort();
    let mut set = Set::new();
    for next in stretches {
        match set.last_mut() {
            Some(last) if next.start <= last.end => last.end = last.end.max(next.end),
            _ => set.push(next),
        }
    }
    set
}

/// The longest stretches without a millimetre of the set that have one
/// directly on both sides: from the end of each longest stretch of the set to
/// the start of the next.
pub fn gaps(set: &[Stretch]) -> Vec<Stretch> {
    set.windows(2)
        .map(|pair| Stretch::new(pair[0].end, pair[1].start))
        .collect()
}

/// The set with every gap added that is shorter than the continuity limit.
pub fn fill(set_at_level: &[Stretch], continuity: u64) -> Set {
    let short = gaps(set_at_level)
        .into_iter()
        .filter(|gap| gap.length() < continuity);
    set(set_at_level.iter().copied().chain(short).collect())
}

/// Whether the set has the station.
pub fn has(set: &[Stretch], station: u64) -> bool {
    let ended = set.partition_point(|stretch| stretch.end <= station);
    set.get(ended).is_some_and(|stretch| stretch.has(station))
}

#[cfg(test)]
mod tests {
    use super::*;
    use crate::envelope::Overhang;
    use crate::random::Random;

    const ROAD: usize = 70;

    /// The paper's words, millimetre by millimetre.
    fn level_of_each_millimetre(envelopes: &[Envelope], continuity: u64) -> Vec<u64> {
        let mut levels = vec![0; ROAD];
        for v in 1..=HIGHEST {
            let mut set: Vec<bool> = (0..ROAD as u64)
                .map(|t| {
                    envelopes
                        .iter()
                        .any(|e| e.level >= v && e.stretch.start <= t && t < e.stretch.end)
                })
                .collect();
            add_short_gaps(&mut set, continuity);
            for t in 0..ROAD {
                if set[t] {
                    levels[t] = v;
                }
            }
        }
        levels
    }

    /// Tries every stretch of the road.
    fn add_short_gaps(set: &mut [bool], continuity: u64) {
        let before = set.to_vec();
        for start in 1..before.len() {
            for end in start + 1..before.len() {
                let empty = before[start..end].iter().all(|has| !has);
                let one_on_both_sides = before[start - 1] && before[end];
                let short = ((end - start) as u64) < continuity;
                if empty && one_on_both_sides && short {
                    set[start..end].fill(true);
                }
            }
        }
    }

    /// A run is a longest stretch of one level above 0.
    fn runs_of(levels: &[u64]) -> Vec<Run> {
        let mut runs = Vec::new();
        let mut start = 0;
        while start < levels.len() {
            let same = levels[start..]
                .iter()
                .take_while(|l| **l == levels[start])
                .count();
            if levels[start] > 0 {
                runs.push(Run {
                    stretch: Stretch::new(start as u64, (start + same) as u64),
                    level: levels[start],
                });
            }
            start += same;
        }
        runs
    }

    fn random_envelopes(random: &mut Random) -> Vec<Envelope> {
        let count = random.below(9);
        let mut list = Vec::new();
        for _ in 0..count {
            let start = random.below(ROAD as u64 - 1);
            let end = (start + 1 + random.below(12)).min(ROAD as u64);
            list.push(Envelope {
                side: 0,
                stretch: Stretch::new(start, end),
                level: random.between(1, HIGHEST),
                overhang: Overhang::default(),
            });
        }
        list
    }

    #[test]
    fn as_millimetre_by_millimetre() {
        let mut random = Random::new(11, "levels");
        for _ in 0..3_000 {
            let envelopes = random_envelopes(&mut random);
            let continuity = random.below(20);
            let levels = level_of_each_millimetre(&envelopes, continuity);
            let required = Required::new(&envelopes, continuity);
            for (t, level) in levels.iter().enumerate() {
                assert_eq!(required.level(t as u64), *level);
                assert_eq!(level_at(&envelopes, continuity, t as u64), *level);
            }
            for t in [ROAD as u64, u64::MAX] {
                assert_eq!(required.level(t), 0);
                assert_eq!(level_at(&envelopes, continuity, t), 0);
            }
            assert_eq!(required.runs(), runs_of(&levels), "{envelopes:?}");
        }
    }

    /// The stretches of a set given as the bits of a number.
    fn set_of_bits(bits: u32) -> Set {
        let has = |t: &u64| bits >> t & 1 == 1;
        set((0..32)
            .filter(has)
            .map(|t| Stretch::new(t, t + 1))
            .collect())
    }

    fn bits_of_set(set: &[Stretch]) -> u32 {
        let bits = |s: &Stretch| (s.start..s.end).map(|t| 1 << t).sum::<u32>();
        set.iter().map(bits).sum()
    }

    fn has_short_gap(bits: u32, continuity: u64) -> bool {
        let set = set_of_bits(bits);
        gaps(&set).iter().any(|gap| gap.length() < continuity)
    }

    /// Of all sets that have the given one in them and no gap under the
    /// continuity limit, the filled one is the least (demand 2).
    #[test]
    fn filling_gives_the_least_set() {
        const ROAD: u32 = 9;
        for continuity in 0..6 {
            let open: Vec<u32> = (0..1 << ROAD)
                .filter(|bits| !has_short_gap(*bits, continuity))
                .collect();
            for bits in 0..1 << ROAD {
                let filled = bits_of_set(&fill(&set_of_bits(bits), continuity));
                assert!(open.contains(&filled));
                let mut larger = open.iter().filter(|other| *other & bits == bits);
                assert!(larger.all(|other| other & filled == filled));
            }
        }
    }

    #[test]
    fn no_envelopes_no_runs() {
        assert_eq!(Required::new(&[], 200_000).runs(), []);
    }
}
