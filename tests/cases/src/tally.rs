//! What a run has seen: cases by family, and outcomes, to show that the cases
//! reach every row of the refusal table.

use std::fmt;

/// A number of the table that no call returns.
pub const NO_REFUSAL: usize = 6;

#[derive(Default)]
pub struct Tally {
    families: Vec<(&'static str, u64)>,
    current: usize,
    /// Cases by refusal number; at 0 those without a refusal.
    outcomes: [u64; 18],
    most_runs: u64,
    /// Stations at which a withdrawal altered the level, inside the hazard's reach.
    altered: u64,
}

impl Tally {
    pub fn begin_family(&mut self, name: &'static str) {
        let known = self.families.iter().position(|(family, _)| *family == name);
        self.current = known.unwrap_or_else(|| {
            self.families.push((name, 0));
            self.families.len() - 1
        });
    }

    pub fn count(&mut self, number: u64) {
        if let Some((_, cases)) = self.families.get_mut(self.current) {
            *cases += 1;
        }
        if let Some(cases) = self.outcomes.get_mut(number as usize) {
            *cases += 1;
        }
    }

    pub fn saw_runs(&mut self, runs: u64) {
        self.most_runs = self.most_runs.max(runs);
    }

    pub fn saw_altered(&mut self, stations: u64) {
        self.altered += stations;
    }

    pub fn family(&self) -> &'static str {
        self.families
            .get(self.current)
            .map_or("none", |(name, _)| name)
    }

    pub fn cases(&self) -> u64 {
        self.families.iter().map(|(_, cases)| cases).sum()
    }

    pub fn outcome(&self, number: usize) -> u64 {
        self.outcomes[number]
    }

    pub fn most_runs(&self) -> u64 {
        self.most_runs
    }

    pub fn altered(&self) -> u64 {
        self.altered
    }
}

impl fmt::Display for Tally {
    fn fmt(&self, f: &mut fmt::Formatter) -> fmt::Result {
        for (name, cases) in &self.families {
            writeln!(f, "{cases:>9}  {name}")?;
        }
        writeln!(f, "{:>9}  cases in all", self.cases())?;
        write!(f, "outcomes: {} without a refusal", self.outcomes[0])?;
        for (number, cases) in self.outcomes.iter().enumerate().skip(1) {
            if number != NO_REFUSAL {
                write!(f, ", {cases} refused {number}")?;
            }
        }
        writeln!(f, "; most runs in a schedule: {}", self.most_runs)?;
        let altered = self.altered;
        writeln!(f, "{altered} stations altered inside a hazard's reach")
    }
}
