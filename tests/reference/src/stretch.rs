//! Stretches of millimetres.

/// The millimetres from `start` to `end` - 1, written [start, end) in the paper.
#[derive(Clone, Copy, Debug, PartialEq, Eq, PartialOrd, Ord)]
pub struct Stretch {
    pub start: u64,
    pub end: u64,
}

impl Stretch {
    pub fn new(start: u64, end: u64) -> Stretch {
        Stretch { start, end }
    }

    pub fn length(&self) -> u64 {
        self.end.saturating_sub(self.start)
    }

    pub fn has(&self, station: u64) -> bool {
        self.start <= station && station < self.end
    }

    /// How many millimetres both stretches have.
    pub fn shared(&self, other: &Stretch) -> u64 {
        let start = self.start.max(other.start);
        let end = self.end.min(other.end);
        Stretch::new(start, end).length()
    }
}
