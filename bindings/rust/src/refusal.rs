//! Calls that are refused, in words.

use std::error::Error;
use std::fmt;

use crate::constants::*;
use crate::{c, Planned, Reach};

/// A call, with what it was asked for where the words of a refusal need it.
#[derive(Clone, Copy, Debug, PartialEq, Eq)]
pub enum Call {
    Plan { side: Side },
    Level { side: Side },
    Corners { hazard: u64 },
    Offset { hazard: u64 },
    Quantity,
    Quantities,
    Lookup { side: Side },
    Layout,
    Open,
    Add,
    Withdraw,
    OpenSchedule { side: Side },
    Keep { state: u64 },
    Return { state: u64 },
    Reach { hazard: u64 },
    OpenReach,
}

impl Call {
    /// The calls that read a whole job from bytes; `Open` reads a header.
    fn reads_job(self) -> bool {
        matches!(
            self,
            Call::Plan { .. }
                | Call::Level { .. }
                | Call::Corners { .. }
                | Call::Offset { .. }
                | Call::Reach { .. }
        )
    }

    fn reads_bytes(self) -> bool {
        self.reads_job() || self == Call::Open
    }

    fn reads_schedule(self) -> bool {
        matches!(
            self,
            Call::Quantity | Call::Quantities | Call::Lookup { .. }
        )
    }

    /// The calls that test the memory of an open job first.
    fn tests_memory(self) -> bool {
        matches!(
            self,
            Call::Add
                | Call::Withdraw
                | Call::OpenSchedule { .. }
                | Call::Keep { .. }
                | Call::Return { .. }
                | Call::OpenReach
        )
    }

    /// What the reply says, if the call was done; else the refusal.
    pub(crate) fn done<T>(self, number: u64, value: u64, answer: T) -> Result<T, Refusal> {
        match number {
            DONE => Ok(answer),
            _ => Err(Refusal {
                call: self,
                number,
                value,
            }),
        }
    }

    pub(crate) fn answer(self, reply: c::Reply) -> Result<u64, Refusal> {
        self.done(reply.number, reply.value, reply.value)
    }

    pub(crate) fn planned(self, reply: c::PlanReply) -> Result<Planned, Refusal> {
        let planned = Planned {
            written: reply.value as usize,
            before: reply.before,
            after: reply.after,
        };
        self.done(reply.number, reply.value, planned)
    }

    pub(crate) fn reach(self, reply: c::ReachReply) -> Result<Reach, Refusal> {
        let reach = Reach {
            side: reply.side,
            envelope: reply.start..reply.end,
            before: reply.before,
            after: reply.after,
            stretch: reply.from..reply.to,
        };
        self.done(reply.number, reply.value, reach)
    }
}

/// A call that was refused: nothing was written and nothing is changed. The
/// number is one of the refusal table's, and what the value means depends on it
/// and on the call: a byte, a header number, a hazard's index or its name.
///
/// `{}` prints the two numbers and the reason, `{:#}` what can be done as well:
///
/// ```text
/// refused 12 with 7, the name 7 stands already
/// refused 12 with 7, the name 7 stands already; take another name, or withdraw
/// the hazard that stands under this one
/// ```
#[derive(Clone, Copy, PartialEq, Eq)]
pub struct Refusal {
    pub call: Call,
    pub number: u64,
    pub value: u64,
}

impl Error for Refusal {}

/// In words too: it is what a `main` prints that hands a refusal on.
impl fmt::Debug for Refusal {
    fn fmt(&self, f: &mut fmt::Formatter<'_>) -> fmt::Result {
        write!(f, "{:?} {self:#}", self.call)
    }
}

impl fmt::Display for Refusal {
    fn fmt(&self, f: &mut fmt::Formatter<'_>) -> fmt::Result {
        let Refusal { number, value, .. } = self;
        write!(f, "refused {number} with {value}, {}", self.reason())?;
        if f.alternate() {
            write!(f, "; {}", self.remedy())?;
        }
        Ok(())
    }
}

/// The words are those of barrier_help.h, for each call, number and value.
impl Refusal {
    /// Why the call was refused.
    pub fn reason(&self) -> String {
        let value = self.value;
        match self.number {
            DONE => "done".into(),
            _ if !self.is_given() => "a number that barrier.h does not have for this call".into(),
            JOB_ENDED => format!("the job ends before or inside the number at byte {value}"),
            NUMBER_MALFORMED => format!("no number in the right form begins at byte {value}"),
            // The value 0 is no header number: it comes of an open job's memory.
            HEADER_RANGE if value == 0 => "the memory is not an open job".into(),
            HEADER_RANGE => {
                let (name, _) = header_field(value);
                format!("header number {value}, {name}, is outside its range")
            }
            HAZARD_RANGE => format!("a field of {} is outside its range", self.hazard()),
            HAZARD_NEAR => format!("{} leaves the barrier no room to deflect", self.hazard()),
            JOB_LEFT_OVER => format!("bytes are left over from byte {value} on"),
            ARGUMENT => self.wrong_argument().into(),
            OUTPUT_SHORT => format!("the schedule takes {value} bytes"),
            NO_SCHEDULE => "these bytes are not a schedule".into(),
            TOO_MANY_RANGES => format!("more than {RANGES_MAX} ranges"),
            NAME => match self.call {
                Call::Add => format!("the name {value} stands already"),
                _ => format!("the name {value} does not stand"),
            },
            STATE => match self.call {
                Call::Keep { .. } => "the state number is above 7".into(),
                _ => "the state number is above 7, or nothing is kept under it".into(),
            },
            NO_APPROACH => match self.call {
                Call::Reach { .. } => "there is no such hazard in the job",
                _ => "no such hazard, or adjacent traffic does not reach it",
            }
            .into(),
            FULL => format!("{HAZARDS_MAX} hazards stand already"),
            LENGTHS => "no panel length, too many, or one outside its range".into(),
            _ => format!("a limit of no tries, or of more than {TRIES_MAX}"),
        }
    }

    /// What the user, or the program, can do about it.
    pub fn remedy(&self) -> String {
        match self.number {
            DONE => "nothing has to be done".into(),
            _ if !self.is_given() => "look whether call and reply belong together, and program \
                                      and archive are of one version"
                .into(),
            JOB_ENDED => "hand over all of the job's bytes, with as many hazards as its hazard \
                          count says"
                .into(),
            NUMBER_MALFORMED => format!(
                "write each number in its shortest form; none that a job may have is above \
                 {STATION_MAX}"
            ),
            HEADER_RANGE => self.header_remedy(),
            HAZARD_RANGE => "side 0 or 1; stations that rise and lie on the road; offsets, near \
                             then far, that do not fall and are at most 60000 millimetres; level \
                             1 to 6"
                .into(),
            HAZARD_NEAR => "its near offset n is below barrier offset M and deflection allowance \
                            D together: measure n again, or plan with a smaller M or a barrier \
                            that deflects less"
                .into(),
            JOB_LEFT_OVER => "the hazard count is below the hazards that follow, or the length \
                              given is not the job's"
                .into(),
            ARGUMENT => self.argument_remedy(),
            OUTPUT_SHORT => {
                format!("lend as many bytes; BARRIER_SCHEDULE_MAX, {SCHEDULE_MAX}, always suffice")
            }
            NO_SCHEDULE => "hand over a schedule as it was written, with the length that was \
                            replied; this is not a side without barriers"
                .into(),
            TOO_MANY_RANGES => {
                format!("ask in several calls, of at most {RANGES_MAX} ranges each")
            }
            NAME => match self.call {
                Call::Add => "take another name, or withdraw the hazard that stands under this one",
                _ => "it was never added, or is withdrawn already: look at the name",
            }
            .into(),
            STATE => match self.call {
                Call::Keep { .. } => "keep under a number from 0 to 7",
                _ => "return to a number from 0 to 7 that was kept since the job was opened",
            }
            .into(),
            NO_APPROACH => match self.call {
                Call::Reach { .. } => "hazards count from 0 in the job's order",
                _ => {
                    "hazards count from 0 in the job's order; one whose near offset n is not \
                     below the clear-zone width C has no such approach"
                }
            }
            .into(),
            FULL => "withdraw a hazard first".into(),
            LENGTHS => {
                format!("give one to four panel lengths, each 1 to {STOCK_PANEL_MAX} millimetres")
            }
            _ => format!("give a limit from 1 to {TRIES_MAX}; {TRIES_MAX} tries every layout"),
        }
    }

    /// Whether the call can be refused so: the table of barrier.h, by call.
    fn is_given(&self) -> bool {
        let call = self.call;
        match self.number {
            JOB_ENDED | NUMBER_MALFORMED | JOB_LEFT_OVER => call.reads_bytes(),
            HEADER_RANGE if self.value == 0 => call.tests_memory(),
            HEADER_RANGE => self.value <= 15 && call.reads_bytes(),
            HAZARD_RANGE | HAZARD_NEAR => call.reads_job() || call == Call::Add,
            ARGUMENT => {
                call.reads_schedule()
                    || matches!(
                        call,
                        Call::Plan { .. }
                            | Call::Level { .. }
                            | Call::Corners { .. }
                            | Call::OpenSchedule { .. }
                    )
            }
            OUTPUT_SHORT => matches!(call, Call::Plan { .. } | Call::OpenSchedule { .. }),
            NO_SCHEDULE => call.reads_schedule(),
            TOO_MANY_RANGES => call == Call::Quantities,
            NAME => matches!(call, Call::Add | Call::Withdraw | Call::OpenReach),
            STATE => matches!(call, Call::Keep { .. } | Call::Return { .. }),
            NO_APPROACH => matches!(
                call,
                Call::Corners { .. } | Call::Offset { .. } | Call::Reach { .. }
            ),
            FULL => call == Call::Add,
            LENGTHS | LIMIT => call == Call::Layout,
            _ => false,
        }
    }

    /// A hazard that is added has a name, and one in a job's bytes an index.
    fn hazard(&self) -> String {
        let value = self.value;
        match self.call {
            Call::Add => format!("the hazard to be named {value}"),
            _ => format!("hazard {value}"),
        }
    }

    fn header_remedy(&self) -> String {
        let (_, range) = header_field(self.value);
        match (self.value, self.call) {
            (0, _) => {
                "open the job with barrier_open first, and let nothing else write to its memory"
                    .into()
            }
            (14, Call::Open) => "to open a job its hazard count (kind 1) has to be 0, hazards are \
                                 added afterwards; a panel length (kind 2) has to be 1 to 10000"
                .into(),
            (15, Call::Open) => {
                "to open a job its hazard count has to be 0: hazards are added afterwards".into()
            }
            _ => format!("it has to be {range}"),
        }
    }

    fn wrong_argument(&self) -> &'static str {
        match self.call {
            Call::Quantity => "the level is not 1 to 6, or p is above q",
            Call::Quantities => {
                "the level is not 1 to 6, p is above q in a range, or the last p has no q"
            }
            Call::Corners { .. } => "a number of the sheet corner is above 1000000000000",
            _ => "the side is neither 0 (right) nor 1 (left)",
        }
    }

    fn argument_remedy(&self) -> String {
        match self.call {
            Call::Quantity | Call::Quantities => {
                "ask for a level from 1 to 6, over ranges [p, q) with p not above q".into()
            }
            Call::Corners { .. } => format!(
                "give a sheet corner whose station and offset are 0 to {STATION_MAX} millimetres"
            ),
            _ => "ask for BARRIER_RIGHT or BARRIER_LEFT".into(),
        }
    }
}

/// What a header number is called, with its letter, and its range: millimetres,
/// where it is a length.
fn header_field(number: u64) -> (&'static str, &'static str) {
    match number {
        1 => ("kind", "1 to 2"),
        2 => ("road begin A", "0 to 999999999999"),
        3 => (
            "road end B",
            "A + 1 to 1000000000000, and at most A + 2000000000",
        ),
        4 => ("runout length LF of forward traffic", "1 to 200000"),
        5 => ("runout length LO of opposite traffic", "0 to 200000"),
        6 => ("clear-zone width C", "1 to 30000"),
        7 => ("travelled-way edge to centreline W", "0 to 20000"),
        8 => ("barrier offset M", "0 to 20000"),
        9 => ("deflection allowance D", "1 to 5000"),
        10 => ("flare a along", "1 to 100"),
        11 => ("flare b across", "0 to 10"),
        12 => ("straight barrier T before the flare", "0 to 100000"),
        13 => ("continuity limit G", "0 to 200000"),
        14 => (
            "hazard count h (kind 1) or panel length (kind 2)",
            "0 to 256 (kind 1) or 1 to 10000 (kind 2)",
        ),
        15 => ("hazard count h", "0 to 256"),
        _ => ("no such header number", "nothing"),
    }
}
