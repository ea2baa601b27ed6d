//! The families of the reach of one hazard, and the stations at which its own
//! schedules are held against it.

use reference::Stretch;
use reference::open::Name;

use crate::Random;
use crate::calls::ReachReply;
use crate::compare::Checker;
use crate::families::Outcome;
use crate::reach::{self, Reach, job_of_one_less};
use crate::{one_hazard, open};

/// The reach that a reply says, on each side, right first: none on the other side,
/// and none where the stretch has no millimetre.
pub fn said(reply: &ReachReply) -> Reach {
    reach::both_sides(|side| {
        let stretch = Stretch::new(reply.from, reply.to.max(reply.from));
        (side == reply.side && stretch.length() > 0).then_some(stretch)
    })
}

/// Stations outside the stretch that is said: its two neighbours, the ends of what
/// there is, and some between. They follow from the reply, so that a case repeats
/// itself.
pub fn beyond(reply: &ReachReply) -> Vec<u64> {
    let ReachReply { from, to, .. } = *reply;
    let mut random = Random::new(from ^ to.rotate_left(32), "beyond the reach");
    let mut list = vec![to, to.saturating_add(1), u64::MAX];
    for _ in 0..3 {
        let bits = random.below(40);
        list.push(to.saturating_add(random.below(1 << bits)));
        list.push(from.wrapping_sub(1).wrapping_sub(random.below(1 << bits)));
    }
    list.extend([0, from.wrapping_sub(1), from.wrapping_sub(2)]);
    list.retain(|station| *station < from || *station >= to);
    list
}

/// Stations in the stretch at which a level may alter: its ends, those of the
/// envelope, and those of the runs with the hazard and without it.
pub fn inside(reply: &ReachReply, before: &[u8], after: &[u8]) -> Vec<u64> {
    let ReachReply { from, to, .. } = *reply;
    let mut list = vec![from, to.wrapping_sub(1), reply.start];
    list.push(reply.end.wrapping_sub(1));
    for schedule in [before, after] {
        for run in reach::runs(schedule).unwrap_or_default() {
            list.extend([run.stretch.start, run.stretch.end - 1]);
        }
    }
    list.retain(|station| (from..to).contains(station));
    list.sort();
    list.dedup();
    list.truncate(8);
    list
}

/// Accepted jobs, each hazard of them and indices of none.
pub fn reaches(checker: &mut Checker, random: &mut Random) -> Outcome {
    one_hazard::each_job(checker, random, 300, |checker, _, draft, indices| {
        let job = draft.bytes();
        for hazard in indices {
            checker.reach(&job, *hazard)?;
        }
        Ok(())
    })?;
    reach::each_hazard(random, |job, hazard| checker.reach(job, hazard).map(|_| ()))
}

pub fn refused(checker: &mut Checker, random: &mut Random) -> Outcome {
    one_hazard::each_refused_job(checker, random, |checker, random, draft, job, _| {
        checker.reach(job, one_hazard::index(random, draft))?;
        Ok(())
    })
}

/// After lists of calls, each name that stands and some that do not, those next to
/// one that stands among them; again after a return; then while all are withdrawn,
/// one after the other.
pub fn open_reaches(checker: &mut Checker, random: &mut Random) -> Outcome {
    for draft in reach::rows(random).into_iter().take(8) {
        let mut open = open::standing_and_kept(checker, random, &draft)?;
        each_name(checker, random, &open)?;
        open.return_to(checker, random.below(8))?;
        each_name(checker, random, &open)?;
    }
    for index in 0..40 {
        let draft = match index % 2 {
            0 => open::source(random),
            _ => job_of_one_less(random),
        };
        let mut open = open::after_calls(checker, random, &draft)?;
        each_name(checker, random, &open)?;
        open.add_all(checker, random, &draft)?;
        each_name(checker, random, &open)?;
        let names: Vec<Name> = open.standing.keys().copied().collect();
        for name in names {
            open.withdraw(checker, name)?;
            checker.open_reach(&open.memory, name)?;
        }
    }
    Ok(())
}

/// The names that stand; names next to them and of one byte, places in the order
/// of names, and any.
fn each_name(checker: &mut Checker, random: &mut Random, open: &open::Open) -> Outcome {
    let standing: Vec<Name> = open.standing.keys().copied().collect();
    let count = standing.len() as Name;
    let mut names = vec![0, count.wrapping_sub(1), count, open::any_name(random)];
    if let Some(name) = standing.last() {
        names.extend([name ^ 1, name ^ 256, name & 255, name.swap_bytes()]);
    }
    names.extend(standing);
    for name in names {
        checker.open_reach(&open.memory, name)?;
    }
    Ok(())
}

#[cfg(test)]
mod tests {
    use super::*;
    use crate::calls::reach_reply;
    use reference::reach as of_hazard;
    use reference::{level, planned};

    /// A slip in the ends of a stretch.
    type Short = fn(&mut ReachReply);

    /// How many of the stations beyond alter with the middle hazard of a row, if the
    /// stretch is said like this.
    fn seen_beyond(short: Short) -> usize {
        let mut random = Random::new(1, "rows");
        let mut seen = 0;
        for draft in reach::rows(&mut random) {
            let (job, hazard) = (draft.bytes(), 1);
            let fewer = reach::without(&job, hazard).expect("it has three hazards");
            let mut said = reach_reply(of_hazard(&job, hazard));
            short(&mut said);
            let shown = |job: &[u8], station| level(job, said.side, station);
            let alters = |station: &&u64| shown(&job, **station) != shown(&fewer.job, **station);
            seen += beyond(&said).iter().filter(alters).count();
            let schedules = [&job, &fewer.job].map(|job| planned(job, said.side));
            let [Ok(before), Ok(after)] = schedules else {
                panic!("the job is accepted");
            };
            let altered = inside(&said, &before, &after);
            assert!(altered.iter().any(|station| alters(&station)));
        }
        seen
    }

    /// The last millimetre that alters is the one G − 1 beyond the envelope, so two
    /// millimetres less than G are seen and one is not.
    #[test]
    fn what_a_stretch_too_short_leaves_out_is_seen() {
        assert_eq!(seen_beyond(|_| ()), 0);
        assert_eq!(seen_beyond(|said| said.to -= 1), 0);
        assert_eq!(seen_beyond(|said| said.from += 1), 0);
        let shorter: [Short; 4] = [
            |said| said.to -= 2,
            |said| said.from += 2,
            |said| said.to = said.end,
            |said| said.from = said.start,
        ];
        for short in shorter {
            assert!(seen_beyond(short) > 0);
        }
    }
}
