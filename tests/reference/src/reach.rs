//! How far one withdrawal reaches: where a job and the same job without one of its
//! hazards may require different levels.

use crate::envelope;
use crate::job::{Hazard, Job};
use crate::level::{Run, Set, set};
use crate::stretch::Stretch;

/// The hazard's envelope, raised and cut, lengthened by G at both ends: at every
/// millimetre outside it nothing alters. None for a hazard without an envelope:
/// then nothing alters at all. There are no stations below 0.
pub fn reach(job: &Job, hazard: &Hazard) -> Option<Stretch> {
    let envelope = envelope::envelope(job, 0, hazard).ok()??;
    Some(lengthened(envelope.stretch, job.continuity))
}

/// The stretch with so many millimetres more at both ends.
pub fn lengthened(stretch: Stretch, by: u64) -> Stretch {
    Stretch::new(stretch.start.saturating_sub(by), stretch.end + by)
}

/// The same on one side: none on the side that the hazard does not stand on.
pub fn reach_on(job: &Job, hazard: &Hazard, side: u64) -> Option<Stretch> {
    match hazard.side == side {
        true => reach(job, hazard),
        false => None,
    }
}

/// The job without the hazard of this index.
pub fn without(job: &Job, index: usize) -> Job {
    let mut fewer = job.clone();
    fewer.hazards.remove(index);
    fewer
}

/// The millimetres at which two run lists show different levels. Neither changes
/// between two neighbouring ends of their runs.
pub fn altered(before: &[Run], after: &[Run]) -> Set {
    let runs = before.iter().chain(after);
    let mut ends: Vec<u64> = runs
        .flat_map(|run| [run.stretch.start, run.stretch.end])
        .collect();
    ends.sort();
    ends.dedup();
    let pairs = ends.windows(2);
    let stretches = pairs.map(|pair| Stretch::new(pair[0], pair[1]));
    let differing = |s: &Stretch| shown(before, s.start) != shown(after, s.start);
    set(stretches.filter(differing).collect())
}

/// The level of the run that has the station, else 0.
fn shown(runs: &[Run], station: u64) -> u64 {
    let ended = runs.partition_point(|run| run.stretch.end <= station);
    let run = runs.get(ended).filter(|run| run.stretch.has(station));
    run.map_or(0, |run| run.level)
}

/// The millimetres of the set that are not in the stretch.
pub fn outside(of: &[Stretch], stretch: Option<Stretch>) -> Set {
    let Some(inside) = stretch else {
        return of.to_vec();
    };
    let mut parts = Vec::new();
    for part in of {
        parts.push(Stretch::new(part.start, part.end.min(inside.start)));
        parts.push(Stretch::new(part.start.max(inside.end), part.end));
    }
    parts.retain(|part| part.length() > 0);
    set(parts)
}

#[cfg(test)]
mod tests {
    use super::*;
    use crate::random::Random;

    const ROAD: u64 = 40;

    fn random_runs(random: &mut Random) -> Vec<Run> {
        let mut runs = Vec::new();
        let mut start = random.below(6);
        while start < ROAD - 8 {
            let end = start + random.between(1, 7);
            let level = random.between(1, 3);
            let stretch = Stretch::new(start, end);
            crate::level::lengthen_or_push(&mut runs, Run { stretch, level });
            start = end + random.below(4);
        }
        runs
    }

    /// Millimetre by millimetre.
    #[test]
    fn altered_and_outside_as_millimetre_by_millimetre() {
        let mut random = Random::new(3, "altered");
        let level = |runs: &[Run], t| {
            let run = runs.iter().find(|run| run.stretch.has(t));
            run.map_or(0, |run| run.level)
        };
        for _ in 0..2_000 {
            let (before, after) = (random_runs(&mut random), random_runs(&mut random));
            let altered = altered(&before, &after);
            let start = random.below(ROAD);
            let inside = Stretch::new(start, start + random.below(ROAD));
            let outside_it = outside(&altered, Some(inside));
            assert_eq!(outside(&altered, None), altered);
            for t in 0..ROAD + 5 {
                let differs = level(&before, t) != level(&after, t);
                assert_eq!(crate::level::has(&altered, t), differs);
                let is_outside = differs && !inside.has(t);
                assert_eq!(crate::level::has(&outside_it, t), is_outside);
            }
        }
    }

    #[test]
    fn no_stations_below_0() {
        let stretch = Stretch::new(10, 20);
        assert_eq!(lengthened(stretch, 9), Stretch::new(1, 29));
        assert_eq!(lengthened(stretch, 10), Stretch::new(0, 30));
        assert_eq!(lengthened(stretch, 11), Stretch::new(0, 31));
        assert_eq!(lengthened(stretch, 0), stretch);
    }
}
