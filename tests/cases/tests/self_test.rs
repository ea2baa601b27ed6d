//! The test is itself tested: one round reaches every row of the refusal table,
//! finds every wrong engine, and finds nothing where nothing is wrong.

use cases::draft::{Draft, KIND};
use cases::tally::NO_REFUSAL;
use cases::{Checker, Random, SEED, calls, families, jobs, round, round_from, wrong};
use reference::envelope::Envelope;
use reference::job::Job;
use reference::{envelope, job, planned};

/// The comparison may not find a difference where both are the same.
#[test]
fn the_reference_passes_and_every_row_is_seen() {
    let mut checker = Checker::new(calls::right());
    if let Err(difference) = round(&mut checker, SEED) {
        panic!("{difference}");
    }
    for number in 0..=17 {
        let seen = checker.tally.outcome(number) > 0;
        assert_eq!(seen, number != NO_REFUSAL, "refusal {number}");
    }
    assert_eq!(checker.tally.most_runs(), 511);
    assert!(checker.tally.cases() > 30_000);
    // Levels alter with a withdrawal, so that one beyond the reach could be seen.
    assert!(checker.tally.altered() > 1_000);
}

/// Each is found, and the case found shows the difference when tried alone.
#[test]
fn every_wrong_engine_is_found() {
    // As many as docs/PROOFS.md says.
    assert_eq!(wrong::all().len(), 939);
    // A slip is often found where the one before it was: that saves time.
    let mut first = 0;
    for (name, calls) in wrong::all() {
        let mut checker = Checker::new(calls);
        let Err(found) = round_from(&mut checker, SEED, first) else {
            panic!("not found: {name}");
        };
        let mut names = families::ALL.iter().map(|family| family.name);
        first = names.position(|name| name == found.family).unwrap_or(0);
        println!("{:>9}  {name} (in: {})", found.cases, found.family);
        let again = checker.case(&found.case);
        assert!(again.is_err(), "{name}: {}", found.case);
    }
}

#[test]
fn the_same_seed_gives_the_same_difference() {
    for (name, calls) in wrong::all().into_iter().take(6) {
        let mut checker = Checker::new(calls);
        let first = round(&mut checker, 77).unwrap_err().case.to_string();
        let second = round(&mut checker, 77).unwrap_err().case.to_string();
        assert_eq!(first, second, "{name}");
    }
}

#[test]
fn most_random_jobs_are_accepted() {
    let mut random = Random::new(SEED, "accepted");
    for make in [jobs::small, jobs::wide] {
        let drafts: Vec<Draft> = (0..2_000).map(|_| make(&mut random)).collect();
        for kind in [1, 2] {
            let of_kind = drafts.iter().filter(|draft| draft.header[KIND] == kind);
            let accepted = of_kind.filter(|draft| planned(&draft.bytes(), 0).is_ok());
            let accepted = accepted.count();
            assert!(accepted > 500, "{accepted} of kind {kind} in 2,000");
        }
    }
    for _ in 0..20 {
        let dense = jobs::dense(&mut random, 256).bytes();
        let sparse = jobs::sparse(&mut random, 256).bytes();
        let islands = jobs::islands(&mut random, 0, 255).bytes();
        for job in [dense, sparse, islands] {
            assert!(planned(&job, 0).is_ok());
        }
    }
}

/// The accepted ones among 2,000 jobs.
fn accepted_jobs(make: fn(&mut Random) -> Draft, random: &mut Random) -> Vec<Job> {
    let made = (0..2_000).filter_map(|_| job::read(&make(random).bytes()).ok());
    made.filter(|job| envelope::envelopes(job).is_ok())
        .collect()
}

/// With a flare, lengths without flare of T, next to T and on both sides of it,
/// and hazards of which one traffic alone ends in the straight part.
#[test]
fn random_jobs_meet_both_sides_of_the_straight_part() {
    for make in [jobs::small, jobs::wide] {
        let mut random = Random::new(SEED, "straight");
        let [mut below, mut at, mut next, mut above] = [0; 4];
        let [mut far_alone, mut adjacent_alone] = [0; 2];
        for job in accepted_jobs(make, &mut random) {
            if job.flare_across == 0 {
                continue;
            }
            for hazard in &job.hazards {
                let approaches = envelope::approaches(&job, hazard);
                let length = |approach| jobs::without_flare(&job, approach);
                let straight: Vec<bool> = approaches
                    .iter()
                    .map(|approach| length(approach) <= job.straight)
                    .collect();
                for approach in &approaches {
                    below += u64::from(length(approach) < job.straight);
                    at += u64::from(length(approach) == job.straight);
                    next += u64::from(length(approach) == job.straight + 1);
                    above += u64::from(length(approach) > job.straight + 1);
                }
                far_alone += u64::from(straight == [false, true]);
                adjacent_alone += u64::from(straight == [true, false]);
            }
        }
        println!("{below} below T, {at} at T, {next} next to T, {above} above T");
        println!("{far_alone} far traffic alone, {adjacent_alone} adjacent traffic alone");
        assert!([below, above].iter().all(|count| *count > 1_000));
        assert!([at, next].iter().all(|count| *count > 100));
        assert!([far_alone, adjacent_alone].iter().all(|count| *count > 50));
    }
}

/// Lengths that are a multiple of the panel length, a millimetre to either side
/// of one and between two; among them some that end in the straight part, some
/// of both traffics at one hazard.
#[test]
fn random_jobs_meet_whole_panels() {
    for make in [jobs::small, jobs::wide] {
        let mut random = Random::new(SEED, "panels");
        let [mut exact, mut below, mut above, mut between] = [0; 4];
        let [mut straight, mut both] = [0; 2];
        for job in accepted_jobs(make, &mut random) {
            if job.panel < 4 {
                continue;
            }
            for hazard in &job.hazards {
                let approaches = envelope::approaches(&job, hazard);
                for approach in &approaches {
                    match envelope::before_raising(&job, approach) % job.panel {
                        0 => exact += 1,
                        1 => above += 1,
                        over if over + 1 == job.panel => below += 1,
                        _ => between += 1,
                    }
                    let without = jobs::without_flare(&job, approach);
                    straight += u64::from(job.flare_across > 0 && without <= job.straight);
                }
                both += u64::from(approaches.len() == 2);
            }
        }
        println!("{exact} multiples, {below} below, {above} above, {between} between");
        println!("{straight} in the straight part, {both} of both traffics");
        assert!([exact, below, above].iter().all(|count| *count > 100));
        assert!([between, straight, both].iter().all(|count| *count > 500));
    }
}

/// Envelopes that end at A and B, pass them by a millimetre and by more, begin
/// below station 0, and pass both ends; sides whose greatest overhang is not that
/// of the first or the last hazard.
#[test]
fn random_jobs_meet_the_road_s_ends() {
    for make in [jobs::small, jobs::wide] {
        let mut random = Random::new(SEED, "road's ends");
        let [mut at, mut by_1, mut before, mut after] = [0; 4];
        let [mut below_0, mut both, mut in_the_middle] = [0; 3];
        for job in accepted_jobs(make, &mut random) {
            let envelopes = envelope::envelopes(&job).expect("the job is accepted");
            for Envelope {
                overhang, stretch, ..
            } in &envelopes
            {
                let ends = [overhang.before, overhang.after];
                at += u64::from(overhang.before == 0 && stretch.start == job.road_begin);
                at += u64::from(overhang.after == 0 && stretch.end == job.road_end);
                by_1 += u64::from(ends.contains(&1));
                before += u64::from(overhang.before > 1);
                after += u64::from(overhang.after > 1);
                below_0 += u64::from(overhang.before > job.road_begin);
                both += u64::from(ends.iter().all(|overhang| *overhang > 0));
            }
            for side in 0..2 {
                let of_side = envelopes.iter().filter(|envelope| envelope.side == side);
                let list: Vec<u64> = of_side.map(|envelope| envelope.overhang.before).collect();
                if let [first, .., last] = list[..] {
                    let most = list.iter().max();
                    in_the_middle += u64::from(most > Some(&first.max(last)));
                }
            }
        }
        println!("{at} at an end, {by_1} past it by 1, {before} before A, {after} behind B");
        println!("{below_0} below 0, {both} past both ends, {in_the_middle} in the middle");
        assert!([at, by_1, before, after].iter().all(|count| *count > 200));
        assert!(
            [below_0, both, in_the_middle]
                .iter()
                .all(|count| *count > 20)
        );
    }
}
