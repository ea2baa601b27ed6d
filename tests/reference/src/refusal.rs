//! The refusal table of document 01, and the numbers that document 02 adds; it
//! takes 6 away.

use crate::open::Name;

/// What a refused call returns: the number of the refusal and its value.
#[derive(Clone, Copy, Debug, PartialEq, Eq)]
pub struct Refusal {
    pub number: u64,
    pub value: u64,
}

impl Refusal {
    /// 1: the job bytes end before or inside the number that begins here.
    pub fn job_ends(begin: usize) -> Refusal {
        refusal(1, begin as u64)
    }

    /// 2: the number that begins here is not in the number form.
    pub fn number_form(begin: usize) -> Refusal {
        refusal(2, begin as u64)
    }

    /// 3: a header number, 1 to 15, is outside its range; with 0, the memory of
    /// an open job breaks the rules.
    pub fn header_range(header_number: u64) -> Refusal {
        refusal(3, header_number)
    }

    /// 4: a field of this hazard is outside its range. In an open job the index
    /// is replaced by the name, also for 5.
    pub fn hazard_range(hazard_index: usize) -> Refusal {
        refusal(4, hazard_index as u64)
    }

    /// 5: this hazard is reached and stands too near to the barrier.
    pub fn too_near(hazard_index: usize) -> Refusal {
        refusal(5, hazard_index as u64)
    }

    /// 7: bytes are left over, from here on.
    pub fn left_over(begin: usize) -> Refusal {
        refusal(7, begin as u64)
    }

    /// 8: side above 1, level not 1 to 6, p > q, a p without its q, or a sheet
    /// corner out of range.
    pub fn argument() -> Refusal {
        refusal(8, 0)
    }

    /// 9: the output is shorter than the bytes needed.
    pub fn output_short(needed: usize) -> Refusal {
        refusal(9, needed as u64)
    }

    /// 10: the schedule is not the writing of a run list.
    pub fn no_schedule() -> Refusal {
        refusal(10, 0)
    }

    /// 11: more than 64 ranges.
    pub fn too_many_ranges() -> Refusal {
        refusal(11, 0)
    }

    /// 12: the name stands already (add) or does not stand (withdraw).
    pub fn name(name: Name) -> Refusal {
        refusal(12, name.into())
    }

    /// 13: a state number above 7, or in a return one under which nothing is
    /// kept.
    pub fn state() -> Refusal {
        refusal(13, 0)
    }

    /// 14: no such hazard, or one that adjacent traffic does not reach.
    pub fn no_such_hazard() -> Refusal {
        refusal(14, 0)
    }

    /// 15: an add where 256 hazards stand.
    pub fn no_room() -> Refusal {
        refusal(15, 0)
    }

    /// 16: no panel length, more than four, or one out of range.
    pub fn panel_lengths() -> Refusal {
        refusal(16, 0)
    }

    /// 17: a limit of 0 tries or of more than 65,536.
    pub fn tries() -> Refusal {
        refusal(17, 0)
    }
}

fn refusal(number: u64, value: u64) -> Refusal {
    Refusal { number, value }
}
