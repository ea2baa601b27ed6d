//! Jobs as lists of numbers, before they are bytes: a helper for tests. The
//! reading of document 01 does not use it.

use crate::job::Hazard;
use crate::number;

/// Places in the header, from 0 (the paper counts from 1).
pub const KIND: usize = 0;
pub const A: usize = 1;
pub const B: usize = 2;
pub const LF: usize = 3;
pub const LO: usize = 4;
pub const C: usize = 5;
pub const W: usize = 6;
pub const M: usize = 7;
pub const D: usize = 8;
pub const FLARE_A: usize = 9;
pub const FLARE_B: usize = 10;
pub const T: usize = 11;
pub const G: usize = 12;
/// In kind 2 alone.
pub const PANEL: usize = 13;

/// The header numbers of kind 2, without the hazard count.
pub type Header = [u64; 14];

/// How many header numbers stand before the hazards, the hazard count with them.
pub fn header_length(kind: u64) -> usize {
    match kind {
        2 => PANEL + 2,
        _ => PANEL + 1,
    }
}

/// Places in a hazard.
pub const SIDE: usize = 0;
pub const S: usize = 1;
pub const E: usize = 2;
pub const N: usize = 3;
pub const F: usize = 4;
pub const LEVEL: usize = 5;

/// Numbers of a hazard.
pub const FIELDS: usize = 6;

/// The hazard with these fields.
pub fn hazard([side, start, end, near, far, level]: [u64; FIELDS]) -> Hazard {
    Hazard {
        side,
        start,
        end,
        near,
        far,
        level,
    }
}

/// The job on paper without its hazard.
pub const PRINTED: Draft = Draft {
    header: [
        1, 0, 1_000_000, 101_000, 0, 9_000, 0, 3_000, 1_000, 15, 1, 13_340, 0, 1,
    ],
    hazards: Vec::new(),
};

/// The hazard of the job on paper.
pub const PRINTED_HAZARD: [u64; FIELDS] = [0, 200_000, 210_000, 5_000, 9_000, 3];

/// The job on paper with its hazard.
pub fn printed() -> Draft {
    PRINTED.with_hazards(&[PRINTED_HAZARD])
}

/// The numbers of a job; the hazard count is that of the list. The panel length
/// stands in the bytes of kind 2 alone.
#[derive(Clone, Debug)]
pub struct Draft {
    pub header: Header,
    pub hazards: Vec<[u64; FIELDS]>,
}

impl Draft {
    pub fn with(mut self, place: usize, value: u64) -> Draft {
        self.header[place] = value;
        self
    }

    /// Changes a field of the first hazard.
    pub fn with_hazard(mut self, field: usize, value: u64) -> Draft {
        self.hazards[0][field] = value;
        self
    }

    pub fn with_hazards(mut self, hazards: &[[u64; FIELDS]]) -> Draft {
        self.hazards = hazards.to_vec();
        self
    }

    /// The same job in whole panels of this length.
    pub fn in_panels(self, length: u64) -> Draft {
        self.with(KIND, 2).with(PANEL, length)
    }

    /// The same job so much further from the datum.
    pub fn moved(mut self, by: u64) -> Draft {
        self.header[A] += by;
        self.header[B] += by;
        for hazard in &mut self.hazards {
            hazard[S] += by;
            hazard[E] += by;
        }
        self
    }

    pub fn numbers(&self) -> Vec<u64> {
        let before_count = header_length(self.header[KIND]) - 1;
        let mut numbers = self.header[..before_count].to_vec();
        numbers.push(self.hazards.len() as u64);
        numbers.extend(self.hazards.iter().flatten());
        numbers
    }

    pub fn bytes(&self) -> Vec<u8> {
        number_bytes(&self.numbers())
    }
}

pub fn number_bytes(numbers: &[u64]) -> Vec<u8> {
    let mut bytes = Vec::new();
    for value in numbers {
        number::write(*value, &mut bytes);
    }
    bytes
}

/// The range of the number at a place of a job, which may hang on numbers before
/// it.
pub fn range(numbers: &[u64], place: usize) -> (u64, u64) {
    let header = header_length(numbers[KIND]);
    if place + 1 == header {
        return (0, 256);
    }
    if place < header {
        return header_range(numbers, place);
    }
    match (place - header) % FIELDS {
        SIDE => (0, 1),
        S => (numbers[A], numbers[B] - 1),
        E => (numbers[place - 1] + 1, numbers[B]),
        N => (0, 60_000),
        F => (numbers[place - 1], 60_000),
        _ => (1, 6),
    }
}

/// The range of a number of the header that is not the hazard count.
pub fn header_range(numbers: &[u64], place: usize) -> (u64, u64) {
    const LAST: u64 = 1_000_000_000_000;
    const LONGEST: u64 = 2_000_000_000;
    match place {
        KIND => (1, 2),
        A => (0, LAST - 1),
        B => {
            let begin = numbers[A];
            // The memory of an open job may have any number as its A.
            let last = begin.saturating_add(LONGEST).min(LAST);
            (begin.saturating_add(1), last)
        }
        LF => (1, 200_000),
        LO => (0, 200_000),
        C => (1, 30_000),
        W | M => (0, 20_000),
        D => (1, 5_000),
        FLARE_A => (1, 100),
        FLARE_B => (0, 10),
        T => (0, 100_000),
        G => (0, 200_000),
        _ => (1, 10_000),
    }
}
