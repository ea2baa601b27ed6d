//! How far one withdrawal reaches (document 02, request 14), asked of the
//! reference; and whether the families that ask it of the engine find what they
//! have to.

use cases::compare::Checker;
use cases::draft::{Draft, KIND, LO};
use cases::reach::{self, Sheets, both_sides, bytes_of};
use cases::wrong_reach::{self, BOUNDS, Bound, reaching_further};
use cases::{Calls, Memory, Random, SEED, calls, families, open};
use reference::calls::LONG_ENOUGH;
use reference::envelope::{self, Envelope};
use reference::job::{Hazard, Job};
use reference::level::{Run, Set, has};
use reference::reach::{altered, lengthened, outside, reach_on, without};
use reference::{Stretch, job, memory, planned};

const ROUNDS: u64 = 4;

/// A job with one hazard and without it, and the runs of each side.
struct Less {
    job: Job,
    hazard: Hazard,
    fewer: Job,
    before: [Vec<Run>; 2],
    after: [Vec<Run>; 2],
}

impl Less {
    fn new(job: &Job, index: usize) -> Less {
        let fewer = without(job, index);
        let runs = |job: &Job| {
            let bytes = bytes_of(job);
            both_sides(|side| reach::runs(&planned(&bytes, side).expect("accepted")).unwrap())
        };
        Less {
            hazard: job.hazards[index],
            before: runs(job),
            after: runs(&fewer),
            job: job.clone(),
            fewer,
        }
    }

    fn altered(&self, side: usize) -> Set {
        altered(&self.before[side], &self.after[side])
    }

    fn envelope(&self) -> Option<Envelope> {
        envelope::envelope(&self.job, 0, &self.hazard).expect("accepted")
    }

    /// Whether something alters outside the bound.
    fn passes(&self, bound: Bound) -> bool {
        (0..2).any(|side| {
            let bound = bound(&self.job, &self.hazard, side as u64);
            !outside(&self.altered(side), bound).is_empty()
        })
    }

    /// Whether the farthest millimetre alters that a filled gap can have, below the
    /// envelope and above it: the one that is number G − 1 beyond.
    fn farthest(&self) -> [bool; 2] {
        let (Some(envelope), limit @ 2..) = (self.envelope(), self.job.continuity) else {
            return [false; 2];
        };
        let altered = self.altered(self.hazard.side as usize);
        let Stretch { start, end } = envelope.stretch;
        let below = start.checked_sub(limit - 1);
        let above = end + limit - 2;
        [
            below.is_some_and(|station| has(&altered, station)),
            has(&altered, above),
        ]
    }

    /// Whether another hazard covers this one's envelope at its level or higher.
    fn covered(&self) -> bool {
        let Some(envelope) = self.envelope() else {
            return false;
        };
        let left = envelope::envelopes(&self.fewer).expect("accepted");
        left.iter().any(|other| {
            let Stretch { start, end } = other.stretch;
            let inside = start <= envelope.stretch.start && envelope.stretch.end <= end;
            inside && other.side == envelope.side && other.level >= envelope.level
        })
    }
}

/// Every case of some rounds: the drafts of the family and the hazards of each.
fn all_cases(mut each: impl FnMut(&Draft, &Less)) {
    for seed in SEED..SEED + ROUNDS {
        let mut random = Random::new(seed, "jobs with one hazard less");
        for draft in reach::jobs_of_a_round(&mut random) {
            let job = job::read(&draft.bytes()).expect("accepted");
            for index in reach::some_hazards(&mut random, draft.hazards.len()) {
                each(&draft, &Less::new(&job, index as usize));
            }
        }
    }
}

#[test]
fn nothing_alters_beyond_the_reach() {
    let [mut cases, mut nowhere, mut same, mut in_part] = [0_u64; 4];
    all_cases(|_, less| {
        let side = less.hazard.side as usize;
        assert_eq!(less.before[1 - side], less.after[1 - side]);
        assert!(!less.passes(reach_on));
        let altered = less.altered(side);
        if less.envelope().is_none() || less.covered() {
            assert_eq!(less.before, less.after);
        }
        cases += 1;
        nowhere += u64::from(less.envelope().is_none());
        same += u64::from(less.covered());
        let beyond = less.envelope().map(|e| outside(&altered, Some(e.stretch)));
        in_part += u64::from(beyond.is_some_and(|beyond| !beyond.is_empty()));
    });
    println!("{cases} cases, {nowhere} without envelope, {same} covered, {in_part} beyond it");
    assert!(cases > 1_000 && nowhere > 50 && same > 200 && in_part > 200);
}

/// The bound is not idle: below the envelope and above it, on either side, in both
/// kinds, on one-way and two-way roads, near the datum and far from it, and with
/// envelopes that are cut, the millimetre G − 1 beyond the envelope alters. So two
/// millimetres less than G do not do; one less would, for a gap of G stays open.
#[test]
fn the_farthest_millimetres_alter() {
    let mut seen = [[[[[0_u64; 2]; 2]; 2]; 2]; 2];
    let [mut cut_before, mut cut_after] = [0_u64; 2];
    all_cases(|draft, less| {
        let farthest = less.farthest();
        for (end, alters) in farthest.into_iter().enumerate() {
            let side = less.hazard.side as usize;
            let kind = draft.header[KIND] as usize - 1;
            let two_way = usize::from(draft.header[LO] > 0);
            let far = usize::from(less.hazard.start > 1 << 32);
            seen[end][side][kind][two_way][far] += u64::from(alters);
        }
        if let Some(envelope) = less.envelope() {
            let [below, above] = farthest;
            cut_before += u64::from(above && envelope.overhang.before > 0);
            cut_after += u64::from(below && envelope.overhang.after > 0);
        }
        assert!(!less.passes(|job, hazard, side| {
            let envelope = envelope::envelope(job, 0, hazard).ok()??;
            let by = job.continuity.saturating_sub(1);
            (hazard.side == side).then(|| lengthened(envelope.stretch, by))
        }));
    });
    println!("{seen:?}, cut: {cut_before} before, {cut_after} after");
    let all = seen.iter().flatten().flatten().flatten().flatten();
    assert!(all.copied().all(|count| count > 0), "{seen:?}");
    assert!(cut_before > 0 && cut_after > 0, "{cut_before} {cut_after}");
}

/// Without G, without the raising and so on, the property does not hold.
#[test]
fn every_wrong_bound_is_passed() {
    let mut passed = vec![0_u64; BOUNDS.len()];
    all_cases(|_, less| {
        for (passed, (_, _, bound)) in passed.iter_mut().zip(BOUNDS) {
            *passed += u64::from(less.passes(*bound));
        }
    });
    for (passed, (name, _, _)) in passed.iter().zip(BOUNDS) {
        println!("{passed:>6}  {name}");
        assert!(*passed > 0, "{name}");
    }
}

/// After lists of calls, each withdrawal that is done: the same, and again the
/// farthest millimetres.
#[test]
fn a_withdrawal_from_an_open_job_reaches_no_further() {
    let mut checker = Checker::new(calls::right());
    checker.begin_family("a withdrawal");
    let [mut done, mut below, mut above, mut twins] = [0_u64; 4];
    for seed in SEED..SEED + ROUNDS {
        let mut random = Random::new(seed, "a withdrawal");
        for _ in 0..40 {
            let draft = reach::job_of_one_less(&mut random);
            let mut open = open::after_calls(&mut checker, &mut random, &draft).unwrap();
            open.add_all(&mut checker, &mut random, &draft).unwrap();
            let open = memory::read(&open.memory).expect("an open job");
            for (index, (name, hazard)) in open.standing.iter().enumerate() {
                let less = Less::new(&open.job(), index);
                assert_eq!(less.hazard, *hazard);
                let mut withdrawn = open.clone();
                assert_eq!(withdrawn.withdraw(*name), Ok(()));
                assert_eq!(withdrawn.job(), less.fewer);
                for side in 0..2 {
                    let schedule = |open: &reference::OpenJob| {
                        let mut out = vec![0; LONG_ENOUGH];
                        let planned = open.schedule(side, &mut out).expect("it is done");
                        reach::runs(&out[..planned.written as usize]).unwrap()
                    };
                    assert_eq!(schedule(&open), less.before[side as usize]);
                    assert_eq!(schedule(&withdrawn), less.after[side as usize]);
                }
                assert!(!less.passes(reach_on));
                let farthest = less.farthest();
                done += 1;
                below += u64::from(farthest[0]);
                above += u64::from(farthest[1]);
                twins += u64::from(withdrawn.standing.values().any(|other| other == hazard));
            }
        }
    }
    println!("{done} withdrawals, {below} and {above} to the farthest, {twins} with an equal one");
    assert!(done > 500 && below > 10 && above > 10 && twins > 50);
}

/// Two families alone find every engine that is wrong in this.
#[test]
fn the_families_of_one_hazard_less_find_their_wrong_engines() {
    let of_reach = families::ALL
        .iter()
        .filter(|family| family.name.ends_with("one hazard less"));
    assert_eq!(of_reach.clone().count(), 2);
    for (name, calls) in wrong_reach::all() {
        let mut checker = Checker::new(calls);
        let found = of_reach.clone().any(|family| {
            checker.begin_family(family.name);
            (family.run)(&mut checker, &mut Random::new(SEED, family.name)).is_err()
        });
        assert!(found, "{name}");
    }
}

/// What an engine's own schedules show against each other, without the reference's:
/// this finds every engine in which one hazard reaches further.
fn found_alone(calls: &Calls, (plan, schedule): (bool, bool)) -> bool {
    let mut random = Random::new(SEED, "found alone");
    (0..300).any(|_| {
        let draft = reach::job_of_one_less(&mut random);
        let mut what = Vec::new();
        for hazard in 0..draft.hazards.len() as u64 {
            let job = draft.bytes();
            let less = reach::without(&job, hazard).expect("accepted");
            if plan {
                let planned = |job: &[u8]| {
                    both_sides(|side| {
                        let mut out = vec![0; LONG_ENOUGH];
                        let lent = 0..LONG_ENOUGH;
                        let reply = (calls.plan)(&mut job.to_vec(), side, &mut out, lent);
                        out.truncate(reply.value as usize);
                        (reply.number == 0).then_some(out).ok_or(reply.reply())
                    })
                };
                let sheets = Sheets {
                    before: planned(&job),
                    after: planned(&less.job),
                };
                reach::note_reach(&mut what, &sheets, &less.reach);
            }
        }
        if schedule {
            let mut opened = Memory::new(&[0; memory::BYTES]);
            let header = draft.clone().with_hazards(&[]).bytes();
            reference::open(&mut opened.job, &header).expect("accepted");
            for (name, fields) in (0..).zip(&draft.hazards) {
                reference::add(&mut opened.job, name, open::hazard(*fields)).expect("accepted");
            }
            for name in 0..draft.hazards.len() as u16 {
                let reach = reach::of_withdrawal(&opened.job, name);
                let mut lent = opened.clone();
                let scheduled = |lent: &mut Memory| {
                    both_sides(|side| {
                        let mut out = vec![0; LONG_ENOUGH];
                        let part = 0..LONG_ENOUGH;
                        let reply = (calls.open_schedule)(lent, side, &mut out, part);
                        out.truncate(reply.value as usize);
                        (reply.number == 0).then_some(out).ok_or(reply.reply())
                    })
                };
                let before = scheduled(&mut lent);
                assert_eq!((calls.withdraw)(&mut lent, name).number, 0);
                let after = scheduled(&mut lent);
                reach::note_reach(&mut what, &Sheets { before, after }, &reach);
            }
        }
        !what.is_empty()
    })
}

#[test]
fn an_engine_s_own_schedules_show_that_a_hazard_reaches_further() {
    assert!(!found_alone(&calls::right(), (true, true)));
    for (name, calls) in reaching_further() {
        let in_open_job = name.starts_with("open job");
        assert!(found_alone(&calls, (!in_open_job, in_open_job)), "{name}");
    }
}
