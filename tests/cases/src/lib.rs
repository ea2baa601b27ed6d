//! Cases and comparison: an engine's calls held against the reference, byte by
//! byte. The engine itself is not linked here, so that the test can be tested
//! without it.

pub mod calls;
pub mod chainage;
pub mod compare;
pub mod damaged;
pub mod families;
pub mod faults;
pub mod hex;
pub mod jobs;
pub mod layouts;
pub mod one_hazard;
pub mod open;
pub mod reach;
pub mod reached;
pub mod tally;
pub mod wrong;
pub mod wrong_chainage;
pub mod wrong_corners;
pub mod wrong_layout;
pub mod wrong_level;
pub mod wrong_memory;
pub mod wrong_names;
pub mod wrong_numbers;
pub mod wrong_offset;
pub mod wrong_open;
pub mod wrong_overhang;
pub mod wrong_reach;
pub mod wrong_reached;
pub mod wrong_states;

pub use calls::{
    Calls, Contract, CornersReply, LayoutReply, Memory, OffsetReply, PlanReply, ReachReply, Record,
    Reply,
};
pub use compare::{Case, Checker, Difference, Step};
pub use reference::draft;
pub use reference::random::Random;
pub use tally::Tally;

/// Rounds of one default run.
pub const ROUNDS: u64 = 20;

/// The seed of a default run.
pub const SEED: u64 = 1;

/// Every family once, with cases of this seed.
pub fn round(checker: &mut Checker, seed: u64) -> Result<(), Box<Difference>> {
    round_from(checker, seed, 0)
}

/// The same from this family on, and then those before it.
pub fn round_from(checker: &mut Checker, seed: u64, first: usize) -> Result<(), Box<Difference>> {
    checker.begin_round(seed);
    let (before, from) = families::ALL.split_at(first);
    for family in from.iter().chain(before) {
        checker.begin_family(family.name);
        let mut random = Random::new(seed, family.name);
        (family.run)(checker, &mut random)?;
    }
    Ok(())
}

/// The rounds of one run; the seeds of its rounds follow each other.
pub fn run(checker: &mut Checker, seed: u64, rounds: u64) -> Result<(), Box<Difference>> {
    for index in 0..rounds {
        round(checker, seed.wrapping_add(index))?;
    }
    Ok(())
}
