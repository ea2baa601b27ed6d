//! Approach lengths.

/// The flare: b across for a along (b = 0: none), behind T of straight barrier.
#[derive(Clone, Copy, Debug, PartialEq, Eq)]
pub struct Flare {
    /// a
    pub along: u64,
    /// b
    pub across: u64,
    /// T
    pub straight: u64,
}

impl Flare {
    /// The same barrier without its flare: b = 0.
    pub fn without(self) -> Flare {
        Flare { across: 0, ..self }
    }
}

/// The approach length for runout length L, hazard reach R and barrier offset
/// m. Where the length without flare is at most T, the barrier ends in its
/// straight part and that length is the approach length; otherwise the formula
/// with flare stands.
pub fn length(runout: u64, reach: u64, offset: u64, flare: Flare) -> u64 {
    let straight = formula(runout, reach, offset, flare.without());
    if straight <= flare.straight {
        straight
    } else {
        formula(runout, reach, offset, flare)
    }
}

/// A length in whole panels: the least multiple of the panel length that is not
/// smaller.
pub fn raised(length: u64, panel: u64) -> u64 {
    length.next_multiple_of(panel)
}

/// L × (a × R + b × T − a × m) / (b × L + a × R), rounded up to the next whole
/// millimetre if not whole.
///
/// A hazard that is reached and not refused under 5 has R > m, so the
/// numerator and the divisor are above 0 wherever the planning asks.
pub fn formula(runout: u64, reach: u64, offset: u64, flare: Flare) -> u64 {
    let (numerator, divisor) = fraction(runout, reach, offset, flare);
    whole(numerator.div_ceil(divisor))
}

/// The numerator and the divisor of the formula, the divisor at least 1.
pub fn fraction(runout: u64, reach: u64, offset: u64, flare: Flare) -> (u128, u128) {
    let l = u128::from(runout);
    let r = u128::from(reach);
    let m = u128::from(offset);
    let a = u128::from(flare.along);
    let b = u128::from(flare.across);
    let t = u128::from(flare.straight);
    let numerator = l * (a * r + b * t).saturating_sub(a * m);
    let divisor = b * l + a * r;
    (numerator, divisor.max(1))
}

/// A length in 64 bits. The lengths of a job are below 200,001.
pub fn whole(length: u128) -> u64 {
    u64::try_from(length).unwrap_or(u64::MAX)
}

#[cfg(test)]
mod tests {
    use super::*;
    use crate::random::Random;

    fn flare(along: u64, across: u64, straight: u64) -> Flare {
        Flare {
            along,
            across,
            straight,
        }
    }

    // Document 004 rounds to 0.1 m; document 01 rounds up to the millimetre.

    #[test]
    fn worked_example_1() {
        // 44.2 m with the flare 15:1, 67.3 m parallel to the road.
        assert_eq!(length(101_000, 9_000, 3_000, flare(15, 1, 13_340)), 44_227);
        assert_eq!(length(101_000, 9_000, 3_000, flare(15, 0, 13_340)), 67_334);
    }

    #[test]
    fn worked_example_2() {
        // 67.3 m.
        assert_eq!(length(88_000, 8_500, 2_000, flare(1, 0, 0)), 67_295);
    }

    #[test]
    fn worked_example_3() {
        // 21.4 m. The data say L1 = 7.6 m; the printed fraction has a 6 in its
        // place, but its numerator 3.16 and the result are those of 7.6.
        assert_eq!(length(46_000, 4_600, 1_800, flare(21, 1, 7_600)), 21_420);
    }

    #[test]
    fn headwalls_before_the_flare_begins() {
        // The first worked example: 67,333 and a third without flare.
        let at = |straight| length(101_000, 9_000, 3_000, flare(15, 1, straight));
        assert_eq!(at(60_000), 64_195, "with flare");
        assert_eq!(
            at(67_333),
            67_334,
            "with flare: the straight part is a third too short"
        );
        assert_eq!(at(67_334), 67_334, "in the straight part");
        assert_eq!(
            at(80_000),
            67_334,
            "in the straight part; with flare 72,755"
        );
        assert_eq!(at(100_000), 67_334);
        let with_flare = |straight| formula(101_000, 9_000, 3_000, flare(15, 1, straight));
        assert_eq!(with_flare(80_000), 72_755);
        // The third: 28,000 exactly without flare.
        let at = |straight| length(46_000, 4_600, 1_800, flare(21, 1, straight));
        assert_eq!(at(27_999), 28_000);
        assert_eq!(at(28_000), 28_000);
        assert_eq!(at(28_001), 28_000);
        assert_eq!(at(27_000), 27_678);
    }

    #[test]
    fn the_two_lengths_meet_at_the_straight_part() {
        // The formula with flare lies between T and the length without flare.
        // So the rule gives the lesser of both lengths, and it makes no
        // difference whether it asks before or behind the rounding, for "at
        // most" or for "below", of the one length or of the other.
        let mut random = Random::new(7, "straight");
        for _ in 0..20_000 {
            let runout = random.between(1, 200_000);
            let offset = random.below(40_000);
            let reach = offset + random.between(1, 30_000);
            let along = random.between(1, 100);
            let mut shape = flare(along, random.below(11), random.below(100_001));
            let without = formula(runout, reach, offset, shape.without());
            if random.percent(50) {
                shape.straight = without.saturating_sub(random.below(3)) + random.below(2);
            }
            let with = formula(runout, reach, offset, shape);
            assert_eq!(length(runout, reach, offset, shape), with.min(without));
            let straight = shape.straight;
            assert!(with >= without.min(straight) && with <= without.max(straight));
            let (numerator, divisor) = fraction(runout, reach, offset, shape.without());
            let unrounded = numerator <= divisor * u128::from(straight);
            assert_eq!(unrounded, without <= straight);
            if without == straight {
                assert_eq!(with, straight);
            }
        }
    }

    /// Of all multiples the least that is not smaller, for every panel length.
    #[test]
    fn the_least_multiple_not_smaller() {
        for panel in 1..=60 {
            for length in 1..=200 {
                let multiples = (0..=200).map(|count| count * panel);
                let least = multiples.filter(|multiple| *multiple >= length).min();
                assert_eq!(Some(raised(length, panel)), least);
            }
        }
    }

    #[test]
    fn whole_lengths_stay() {
        // 100 × (10 − 5) / 10 = 50 exactly, then one part more.
        assert_eq!(length(100, 10, 5, flare(1, 0, 0)), 50);
        assert_eq!(length(101, 10, 5, flare(1, 0, 0)), 51);
        assert_eq!(length(1, 30_000, 29_999, flare(1, 0, 0)), 1);
    }

    #[test]
    fn between_its_two_lengths() {
        // A length is the least whole one at or above its fraction, and never
        // above the runout length.
        let mut random = Random::new(7, "lengths");
        for _ in 0..20_000 {
            let runout = random.between(1, 200_000);
            let offset = random.below(40_000);
            let reach = offset + random.between(1, 30_000);
            let along = random.between(1, 100);
            let shape = flare(along, random.below(11), random.below(100_001));
            for shape in [shape, shape.without()] {
                let x = u128::from(formula(runout, reach, offset, shape));
                let (numerator, divisor) = fraction(runout, reach, offset, shape);
                assert!(x * divisor >= numerator);
                assert!((x - 1) * divisor < numerator);
            }
            let length = length(runout, reach, offset, shape);
            assert!(1 <= length && length <= runout);
        }
    }

    #[test]
    fn any_numbers_return() {
        let most = u64::from(u32::MAX);
        let _ = length(most, most, 0, flare(most, most, most));
        let _ = length(most, 0, most, flare(0, 0, 0));
    }
}
