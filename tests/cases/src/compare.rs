//! The comparison of one call with the reference: the reply, and every byte of
//! lent memory afterwards.

use std::fmt;
use std::ops::Range;

use reference::Corner;
use reference::calls::LONG_ENOUGH;
use reference::job::{self, Hazard};
use reference::memory::BYTES;
use reference::open::Name;

use crate::calls::{
    self, Calls, Contract, CornersReply, GUARD, LayoutReply, Memory, OffsetReply, PlanReply,
    ReachReply, Record, Reply,
};
use crate::hex;
use crate::reach::{self, Sheets};
use crate::reached;
use crate::tally::Tally;

/// The inputs of one call. `fill` chooses the bytes that the output contains
/// before the call.
#[derive(Clone, Debug)]
pub enum Case {
    Plan {
        job: Vec<u8>,
        side: u64,
        out_length: usize,
        fill: u64,
    },
    Level {
        job: Vec<u8>,
        side: u64,
        station: u64,
    },
    Corners {
        job: Vec<u8>,
        hazard: u64,
        sheet_station: u64,
        sheet_offset: u64,
    },
    Offset {
        job: Vec<u8>,
        hazard: u64,
        longest: u64,
    },
    Layout {
        lengths: Vec<u64>,
        run: u64,
        limit: u64,
    },
    /// The reach of one hazard; and an accepted job with it and without it.
    Reach { job: Vec<u8>, hazard: u64 },
    /// An accepted job with the hazard of this index and without it.
    OneLess { job: Vec<u8>, hazard: u64 },
    Quantity {
        schedule: Vec<u8>,
        level: u64,
        p: u64,
        q: u64,
    },
    Quantities {
        schedule: Vec<u8>,
        level: u64,
        ranges: Vec<u64>,
    },
    Lookup {
        right: Vec<u8>,
        left: Vec<u8>,
        side: u64,
        station: u64,
    },
    /// One call on an open job, and what its memory has before.
    OpenJob {
        memory: Box<[u8; BYTES]>,
        step: Step,
    },
    /// The reach of the hazard of this name; and the schedules of the open job
    /// with it and without it.
    OpenReach {
        memory: Box<[u8; BYTES]>,
        name: Name,
    },
    /// The schedules of an open job before a withdrawal and after it.
    OpenOneLess {
        memory: Box<[u8; BYTES]>,
        name: Name,
    },
}

/// One call on an open job.
#[derive(Clone, Debug)]
pub enum Step {
    Open {
        bytes: Vec<u8>,
    },
    Add {
        name: Name,
        hazard: Hazard,
    },
    Withdraw {
        name: Name,
    },
    Keep {
        state: u64,
    },
    Return {
        state: u64,
    },
    Schedule {
        side: u64,
        out_length: usize,
        fill: u64,
    },
}

/// A case as the options that make the test try it alone.
impl fmt::Display for Case {
    fn fmt(&self, f: &mut fmt::Formatter) -> fmt::Result {
        match self {
            Case::Plan {
                job,
                side,
                out_length,
                fill,
            } => write!(f, "--plan {} {side} {out_length} {fill}", hex::write(job)),
            Case::Level { job, side, station } => {
                write!(f, "--level {} {side} {station}", hex::write(job))
            }
            Case::Corners {
                job,
                hazard,
                sheet_station,
                sheet_offset,
            } => {
                let job = hex::write(job);
                write!(f, "--corners {job} {hazard} {sheet_station} {sheet_offset}")
            }
            Case::Offset {
                job,
                hazard,
                longest,
            } => write!(f, "--offset {} {hazard} {longest}", hex::write(job)),
            Case::Layout {
                lengths,
                run,
                limit,
            } => write!(f, "--layout {} {run} {limit}", hex::write_numbers(lengths)),
            Case::Reach { job, hazard } => write!(f, "--reach {} {hazard}", hex::write(job)),
            Case::OneLess { job, hazard } => {
                write!(f, "--one-less {} {hazard}", hex::write(job))
            }
            Case::Quantity {
                schedule,
                level,
                p,
                q,
            } => write!(f, "--quantity {} {level} {p} {q}", hex::write(schedule)),
            Case::Quantities {
                schedule,
                level,
                ranges,
            } => {
                let (schedule, ranges) = (hex::write(schedule), hex::write_numbers(ranges));
                write!(f, "--quantities {schedule} {level} {ranges}")
            }
            Case::Lookup {
                right,
                left,
                side,
                station,
            } => {
                let (right, left) = (hex::write(right), hex::write(left));
                write!(f, "--lookup {right} {left} {side} {station}")
            }
            Case::OpenJob { memory, step } => {
                let memory = hex::write_memory(&memory[..]);
                match step {
                    Step::Open { bytes } => write!(f, "--open {memory} {}", hex::write(bytes)),
                    Step::Add { name, hazard } => {
                        let fields = hex::write_numbers(&job::fields(hazard));
                        write!(f, "--add {memory} {name} {fields}")
                    }
                    Step::Withdraw { name } => write!(f, "--withdraw {memory} {name}"),
                    Step::Keep { state } => write!(f, "--keep {memory} {state}"),
                    Step::Return { state } => write!(f, "--return {memory} {state}"),
                    Step::Schedule {
                        side,
                        out_length,
                        fill,
                    } => write!(f, "--schedule {memory} {side} {out_length} {fill}"),
                }
            }
            Case::OpenReach { memory, name } => {
                let memory = hex::write_memory(&memory[..]);
                write!(f, "--open-reach {memory} {name}")
            }
            Case::OpenOneLess { memory, name } => {
                let memory = hex::write_memory(&memory[..]);
                write!(f, "--open-one-less {memory} {name}")
            }
        }
    }
}

/// A case in which the calls and the reference differ.
#[derive(Debug)]
pub struct Difference {
    /// The seed of the round.
    pub seed: u64,
    pub family: &'static str,
    /// How many cases were made, this one included.
    pub cases: u64,
    pub case: Case,
    pub what: String,
    pub reference: String,
    pub engine: String,
}

impl fmt::Display for Difference {
    fn fmt(&self, f: &mut fmt::Formatter) -> fmt::Result {
        let (cases, family, seed) = (self.cases, self.family, self.seed);
        writeln!(f, "case {cases}, family '{family}', seed {seed}")?;
        writeln!(f, "  {}", self.case)?;
        writeln!(f, "  differs: {}", self.what)?;
        writeln!(f, "  reference: {}", self.reference)?;
        write!(f, "  engine:    {}", self.engine)
    }
}

/// Makes each call twice, once of the engine and once of the reference.
pub struct Checker {
    calls: Calls,
    pub tally: Tally,
    /// The seed of the round, for the report of a difference.
    seed: u64,
    /// Changes from case to case, so that no written byte can equal the byte
    /// that was there before in all of them.
    fill: u64,
    /// Prints each case before it is made, to find one that does not return.
    pub trace: bool,
}

impl Checker {
    pub fn new(calls: Calls) -> Checker {
        Checker {
            calls,
            tally: Tally::default(),
            seed: 0,
            fill: 0,
            trace: false,
        }
    }

    fn trace(&self, case: impl Fn() -> Case) {
        if self.trace {
            eprintln!("{}", case());
        }
    }

    /// The bytes of the outputs, too, follow from the seed of the round.
    pub fn begin_round(&mut self, seed: u64) {
        self.seed = seed;
        self.fill = seed << 32;
    }

    pub fn begin_family(&mut self, name: &'static str) {
        self.tally.begin_family(name);
    }

    /// Tries plan with one length of output.
    pub fn plan(
        &mut self,
        job: &[u8],
        side: u64,
        out_length: usize,
    ) -> Result<PlanReply, Box<Difference>> {
        self.fill += 1;
        self.plan_filled(job, side, out_length, self.fill)
    }

    pub fn plan_filled(
        &mut self,
        job: &[u8],
        side: u64,
        out_length: usize,
        fill: u64,
    ) -> Result<PlanReply, Box<Difference>> {
        let case = || Case::Plan {
            job: job.to_vec(),
            side,
            out_length,
            fill,
        };
        self.trace(case);
        let lent = GUARD..GUARD + out_length;
        let mut lent_job = job.to_vec();
        let mut room = filled_room(out_length, fill);
        let mut expected_room = room.clone();
        let output = &mut expected_room[lent.clone()];
        let expected = calls::plan_reply(reference::plan(job, side, output));
        let got = (self.calls.plan)(&mut lent_job, side, &mut room, lent.clone());
        self.tally.count(expected.number);

        let mut what = Vec::new();
        note_reply(&mut what, expected != got);
        note_input(&mut what, "job", job, &lent_job);
        note_room(&mut what, &expected_room, &room, &lent);
        if what.is_empty() {
            return Ok(expected);
        }
        let reference = reply_and_output(expected, &expected_room[lent.clone()]);
        let engine = reply_and_output(got, &room[lent]);
        Err(self.difference(case(), what, reference, engine))
    }

    /// Tries the level at stations of one side. It is held against the engine's
    /// own plan and lookup, too.
    pub fn levels(
        &mut self,
        job: &[u8],
        side: u64,
        stations: &[u64],
    ) -> Result<(), Box<Difference>> {
        let own = self.own_plan(job, side);
        for station in stations {
            self.level(job, side, *station, &own)?;
        }
        Ok(())
    }

    /// The schedule that the engine itself plans, or its refusal.
    fn own_plan(&self, job: &[u8], side: u64) -> Result<Vec<u8>, Reply> {
        let lent = GUARD..GUARD + LONG_ENOUGH;
        let mut room = filled_room(LONG_ENOUGH, self.fill);
        let reply = (self.calls.plan)(&mut job.to_vec(), side, &mut room, lent);
        written(reply, room)
    }

    /// The level that the engine's lookup shows in a schedule of its own.
    fn own_level(&self, schedule: &[u8], side: u64, station: u64) -> Reply {
        let (mut right, mut left) = (schedule.to_vec(), schedule.to_vec());
        let record = (self.calls.lookup)(&mut right, &mut left, side, station);
        let last = match record.found {
            1 => schedule.get(record.end.wrapping_sub(1) as usize),
            _ => None,
        };
        Reply {
            number: record.number,
            value: last.copied().unwrap_or(0).into(),
        }
    }

    fn level(
        &mut self,
        job: &[u8],
        side: u64,
        station: u64,
        own: &Result<Vec<u8>, Reply>,
    ) -> Result<(), Box<Difference>> {
        let case = || Case::Level {
            job: job.to_vec(),
            side,
            station,
        };
        self.trace(case);
        let mut lent = job.to_vec();
        let expected = calls::reply(reference::level(job, side, station));
        let got = (self.calls.level)(&mut lent, side, station);
        let shown = match own {
            Ok(schedule) => self.own_level(schedule, side, station),
            Err(refusal) => *refusal,
        };
        self.tally.count(expected.number);

        let mut what = Vec::new();
        note_reply(&mut what, expected != got);
        note_input(&mut what, "job", job, &lent);
        if shown != got {
            what.push(format!("from its own plan's {}", reply_text(shown)));
        }
        if what.is_empty() {
            return Ok(());
        }
        Err(self.difference(case(), what, reply_text(expected), reply_text(got)))
    }

    /// Tries the corners of one hazard, counted from a sheet corner.
    pub fn corners(
        &mut self,
        job: &[u8],
        hazard: u64,
        (sheet_station, sheet_offset): (u64, u64),
    ) -> Result<CornersReply, Box<Difference>> {
        let case = || Case::Corners {
            job: job.to_vec(),
            hazard,
            sheet_station,
            sheet_offset,
        };
        self.trace(case);
        let mut lent = job.to_vec();
        let expected = reference::corners(job, hazard, sheet_station, sheet_offset);
        let expected = calls::corners_reply(expected);
        let got = (self.calls.corners)(&mut lent, hazard, sheet_station, sheet_offset);
        self.tally.count(expected.number);

        let mut what = Vec::new();
        note_reply(&mut what, expected != got);
        note_input(&mut what, "job", job, &lent);
        if what.is_empty() {
            return Ok(got);
        }
        Err(self.difference(case(), what, corners_text(expected), corners_text(got)))
    }

    /// Tries the smallest offset for one hazard and a wanted longest approach.
    pub fn offset(
        &mut self,
        job: &[u8],
        hazard: u64,
        longest: u64,
    ) -> Result<OffsetReply, Box<Difference>> {
        let case = || Case::Offset {
            job: job.to_vec(),
            hazard,
            longest,
        };
        self.trace(case);
        let mut lent = job.to_vec();
        let expected = calls::offset_reply(reference::offset(job, hazard, longest));
        let got = (self.calls.offset)(&mut lent, hazard, longest);
        self.tally.count(expected.number);

        let mut what = Vec::new();
        note_reply(&mut what, expected != got);
        note_input(&mut what, "job", job, &lent);
        if what.is_empty() {
            return Ok(got);
        }
        Err(self.difference(case(), what, offset_text(expected), offset_text(got)))
    }

    /// Tries the reach of one hazard. What the engine says of it is held against
    /// its own schedules of the job with the hazard and without it, too.
    pub fn reach(&mut self, job: &[u8], hazard: u64) -> Result<ReachReply, Box<Difference>> {
        let case = || Case::Reach {
            job: job.to_vec(),
            hazard,
        };
        self.trace(case);
        self.fill += 1;
        let mut lent = job.to_vec();
        let expected = calls::reach_reply(reference::reach(job, hazard));
        let got = (self.calls.reach)(&mut lent, hazard);
        self.tally.count(expected.number);

        let mut what = Vec::new();
        note_reply(&mut what, expected != got);
        note_input(&mut what, "job", job, &lent);
        if let Some(fewer) = reach::without(job, hazard) {
            // Once more than is needed: an engine that remembers what it was asked
            // before answers the second time for this job alone.
            let _ = reach::both_sides(|side| self.own_plan(job, side));
            let sheets = Sheets {
                before: reach::both_sides(|side| self.own_plan(job, side)),
                after: reach::both_sides(|side| self.own_plan(&fewer.job, side)),
            };
            self.note_own_reach(&mut what, &got, &sheets);
        }
        if what.is_empty() {
            return Ok(got);
        }
        Err(self.difference(case(), what, reach_text(expected), reach_text(got)))
    }

    /// The same of a hazard that stands in an open job, whose memory is not
    /// changed.
    pub fn open_reach(
        &mut self,
        memory: &[u8; BYTES],
        name: Name,
    ) -> Result<ReachReply, Box<Difference>> {
        let case = || Case::OpenReach {
            memory: Box::new(*memory),
            name,
        };
        self.trace(case);
        self.fill += 1;
        let untouched = Memory::new(memory);
        let mut lent = untouched.clone();
        let expected = calls::reach_reply(reference::open_reach(memory, name));
        let got = (self.calls.open_reach)(&mut lent, name);
        self.tally.count(expected.number);

        let mut what = Vec::new();
        note_reply(&mut what, expected != got);
        note_memory(&mut what, &untouched, &lent);
        if expected.number == 0 {
            // In a copy first, as in `reach`.
            (self.calls.withdraw)(&mut untouched.clone(), name);
            let mut lent = untouched;
            let before = reach::both_sides(|side| self.own_open_schedule(&mut lent, side));
            (self.calls.withdraw)(&mut lent, name);
            let after = reach::both_sides(|side| self.own_open_schedule(&mut lent, side));
            self.note_own_reach(&mut what, &got, &Sheets { before, after });
        }
        if what.is_empty() {
            return Ok(got);
        }
        Err(self.difference(case(), what, reach_text(expected), reach_text(got)))
    }

    /// What the engine's own schedules show against the reach that it says, by
    /// its own lookup and by the reading of the schedules.
    fn note_own_reach(&mut self, what: &mut Vec<String>, said: &ReachReply, sheets: &Sheets) {
        reach::note_reach(what, sheets, &reached::said(said));
        let side = said.side.min(1);
        let [Ok(before), Ok(after)] = [&sheets.before, &sheets.after].map(|s| &s[side as usize])
        else {
            return;
        };
        let level = |schedule: &[u8], station| self.own_level(schedule, side, station);
        let alters = |station: &u64| level(before, *station) != level(after, *station);
        if let Some(station) = reached::beyond(said).iter().find(|station| alters(station)) {
            what.push(format!("its own lookup at {station}, beyond the reach"));
        }
        let inside = reached::inside(said, before, after);
        let altered = inside.iter().filter(|station| alters(station)).count();
        self.tally.saw_altered(altered as u64);
    }

    /// Tries the layouts of one run.
    pub fn layout(
        &mut self,
        lengths: &[u64],
        run: u64,
        limit: u64,
    ) -> Result<LayoutReply, Box<Difference>> {
        let case = || Case::Layout {
            lengths: lengths.to_vec(),
            run,
            limit,
        };
        self.trace(case);
        let mut lent = lengths.to_vec();
        let expected = calls::layout_reply(reference::layout(lengths, run, limit));
        let got = (self.calls.layout)(&mut lent, run, limit);
        self.tally.count(expected.number);

        let mut what = Vec::new();
        note_reply(&mut what, expected != got);
        note_numbers(&mut what, "lengths", lengths, &lent);
        if what.is_empty() {
            return Ok(got);
        }
        Err(self.difference(case(), what, layout_text(expected), layout_text(got)))
    }

    /// Tries an accepted job with one of its hazards and without it: what plan
    /// gives for both sides is held against the reference, and the engine's own
    /// schedules against each other, as far as the hazard does not reach.
    pub fn one_less(&mut self, job: &[u8], hazard: u64) -> Result<(), Box<Difference>> {
        let case = || Case::OneLess {
            job: job.to_vec(),
            hazard,
        };
        self.trace(case);
        self.fill += 1;
        let fewer = reach::without(job, hazard).expect("an accepted job that has the hazard");
        let of_reference = |job: &[u8]| {
            reach::both_sides(|side| {
                reference::planned(job, side).map_err(|r| calls::reply(Err(r)))
            })
        };
        let of_engine = |job: &[u8]| reach::both_sides(|side| self.own_plan(job, side));
        let expected = Sheets {
            before: of_reference(job),
            after: of_reference(&fewer.job),
        };
        let got = Sheets {
            before: of_engine(job),
            after: of_engine(&fewer.job),
        };
        self.tally.count(0);

        let mut what = Vec::new();
        reach::note_reference(&mut what, &expected, &got);
        reach::note_reach(&mut what, &got, &fewer.reach);
        if what.is_empty() {
            return Ok(());
        }
        Err(self.difference(case(), what, expected.to_string(), got.to_string()))
    }

    /// Tries a withdrawal from an open job, and its schedules before and after, as
    /// `one_less` does. After one that is refused nothing alters.
    pub fn open_one_less(
        &mut self,
        memory: &[u8; BYTES],
        name: Name,
    ) -> Result<Reply, Box<Difference>> {
        let case = || Case::OpenOneLess {
            memory: Box::new(*memory),
            name,
        };
        self.trace(case);
        self.fill += 1;
        let reach = reach::of_withdrawal(memory, name);
        let mut expected_lent = Memory::new(memory);
        let mut lent = expected_lent.clone();
        let of_reference = |lent: &Memory| {
            reach::both_sides(|side| {
                let mut room = vec![0; LONG_ENOUGH];
                let planned = reference::open_schedule(&lent.job, side, &mut room);
                let planned = planned.map_err(|r| calls::reply(Err(r)))?;
                room.truncate(planned.written as usize);
                Ok(room)
            })
        };
        let before = of_reference(&expected_lent);
        let expected = calls::reply(reference::withdraw(&mut expected_lent.job, name));
        let expected_sheets = Sheets {
            before,
            after: of_reference(&expected_lent),
        };
        let before = reach::both_sides(|side| self.own_open_schedule(&mut lent, side));
        let got = (self.calls.withdraw)(&mut lent, name);
        let after = reach::both_sides(|side| self.own_open_schedule(&mut lent, side));
        let got_sheets = Sheets { before, after };
        self.tally.count(expected.number);

        let mut what = Vec::new();
        note_reply(&mut what, expected != got);
        note_memory(&mut what, &expected_lent, &lent);
        reach::note_reference(&mut what, &expected_sheets, &got_sheets);
        reach::note_reach(&mut what, &got_sheets, &reach);
        if what.is_empty() {
            return Ok(got);
        }
        let reference = format!("{}, {expected_sheets}", reply_text(expected));
        let engine = format!("{}, {got_sheets}", reply_text(got));
        Err(self.difference(case(), what, reference, engine))
    }

    /// The schedule that the engine itself gives of an open job, or its refusal.
    fn own_open_schedule(&self, memory: &mut Memory, side: u64) -> Result<Vec<u8>, Reply> {
        let lent = GUARD..GUARD + LONG_ENOUGH;
        let mut room = filled_room(LONG_ENOUGH, self.fill);
        let reply = (self.calls.open_schedule)(memory, side, &mut room, lent);
        written(reply, room)
    }

    pub fn quantity(
        &mut self,
        schedule: &[u8],
        level: u64,
        p: u64,
        q: u64,
    ) -> Result<Reply, Box<Difference>> {
        let case = || Case::Quantity {
            schedule: schedule.to_vec(),
            level,
            p,
            q,
        };
        self.trace(case);
        let mut lent = schedule.to_vec();
        let expected = calls::reply(reference::quantity(schedule, level, p, q));
        let got = (self.calls.quantity)(&mut lent, level, p, q);
        self.tally.count(expected.number);

        let mut what = Vec::new();
        note_reply(&mut what, expected != got);
        note_input(&mut what, "schedule", schedule, &lent);
        if what.is_empty() {
            return Ok(got);
        }
        Err(self.difference(case(), what, reply_text(expected), reply_text(got)))
    }

    pub fn quantities(
        &mut self,
        schedule: &[u8],
        level: u64,
        ranges: &[u64],
    ) -> Result<Contract, Box<Difference>> {
        let case = || Case::Quantities {
            schedule: schedule.to_vec(),
            level,
            ranges: ranges.to_vec(),
        };
        self.trace(case);
        let mut lent = schedule.to_vec();
        let mut lent_ranges = ranges.to_vec();
        let expected = calls::contract(reference::quantities(schedule, level, ranges));
        let got = (self.calls.quantities)(&mut lent, level, &mut lent_ranges);
        self.tally.count(expected.number);

        let mut what = Vec::new();
        note_reply(&mut what, expected != got);
        note_input(&mut what, "schedule", schedule, &lent);
        note_numbers(&mut what, "ranges", ranges, &lent_ranges);
        if what.is_empty() {
            return Ok(got);
        }
        Err(self.difference(case(), what, contract_text(expected), contract_text(got)))
    }

    pub fn lookup(
        &mut self,
        right: &[u8],
        left: &[u8],
        side: u64,
        station: u64,
    ) -> Result<Record, Box<Difference>> {
        let case = || Case::Lookup {
            right: right.to_vec(),
            left: left.to_vec(),
            side,
            station,
        };
        self.trace(case);
        let mut lent_right = right.to_vec();
        let mut lent_left = left.to_vec();
        let expected = calls::record(reference::lookup(right, left, side, station));
        let got = (self.calls.lookup)(&mut lent_right, &mut lent_left, side, station);
        self.tally.count(expected.number);

        let mut what = Vec::new();
        note_reply(&mut what, expected != got);
        note_input(&mut what, "right schedule", right, &lent_right);
        note_input(&mut what, "left schedule", left, &lent_left);
        if what.is_empty() {
            return Ok(got);
        }
        Err(self.difference(case(), what, record_text(expected), record_text(got)))
    }

    /// Tries one call on an open job. The memory becomes what the call makes of
    /// it; all of it is compared.
    pub fn step(&mut self, memory: &mut [u8; BYTES], step: Step) -> Result<Reply, Box<Difference>> {
        let before = *memory;
        let case = || Case::OpenJob {
            memory: Box::new(before),
            step: step.clone(),
        };
        self.trace(case);
        let mut lent = Memory::new(memory);
        let mut expected_lent = lent.clone();
        let mut what = Vec::new();
        // The calls that change the open job reply without overhangs.
        let (expected, got, output): (PlanReply, PlanReply, _) = match &step {
            Step::Open { bytes } => {
                let mut lent_bytes = bytes.clone();
                let expected = calls::reply(reference::open(&mut expected_lent.job, bytes));
                let got = (self.calls.open)(&mut lent, &mut lent_bytes);
                note_input(&mut what, "job", bytes, &lent_bytes);
                (expected.into(), got.into(), None)
            }
            Step::Add { name, hazard } => {
                let expected = reference::add(&mut expected_lent.job, *name, *hazard);
                let got = (self.calls.add)(&mut lent, *name, *hazard);
                (calls::reply(expected).into(), got.into(), None)
            }
            Step::Withdraw { name } => {
                let expected = reference::withdraw(&mut expected_lent.job, *name);
                let got = (self.calls.withdraw)(&mut lent, *name);
                (calls::reply(expected).into(), got.into(), None)
            }
            Step::Keep { state } => {
                let expected = reference::keep(&mut expected_lent.job, *state);
                let got = (self.calls.keep)(&mut lent, *state);
                (calls::reply(expected).into(), got.into(), None)
            }
            Step::Return { state } => {
                let expected = reference::return_to(&mut expected_lent.job, *state);
                let got = (self.calls.return_to)(&mut lent, *state);
                (calls::reply(expected).into(), got.into(), None)
            }
            Step::Schedule {
                side,
                out_length,
                fill,
            } => {
                let part = GUARD..GUARD + out_length;
                let mut room = filled_room(*out_length, *fill);
                let mut expected_room = room.clone();
                let output = &mut expected_room[part.clone()];
                let expected = reference::open_schedule(&expected_lent.job, *side, output);
                let got = (self.calls.open_schedule)(&mut lent, *side, &mut room, part.clone());
                note_room(&mut what, &expected_room, &room, &part);
                let outputs = (expected_room[part.clone()].to_vec(), room[part].to_vec());
                (calls::plan_reply(expected), got, Some(outputs))
            }
        };
        self.tally.count(expected.number);

        note_reply(&mut what, expected != got);
        note_memory(&mut what, &expected_lent, &lent);
        if what.is_empty() {
            *memory = expected_lent.job;
            return Ok(expected.reply());
        }
        let (reference, engine) = output.unzip();
        let reference = reply_and_memory(expected, &expected_lent, reference);
        let engine = reply_and_memory(got, &lent, engine);
        Err(self.difference(case(), what, reference, engine))
    }

    /// Tries the schedule of an open job with one length of output.
    pub fn open_schedule(
        &mut self,
        memory: &[u8; BYTES],
        side: u64,
        out_length: usize,
    ) -> Result<Reply, Box<Difference>> {
        self.fill += 1;
        let step = Step::Schedule {
            side,
            out_length,
            fill: self.fill,
        };
        self.step(&mut memory.clone(), step)
    }

    /// Tries one case alone.
    pub fn case(&mut self, case: &Case) -> Result<(), Box<Difference>> {
        match case {
            Case::Plan {
                job,
                side,
                out_length,
                fill,
            } => self.plan_filled(job, *side, *out_length, *fill).map(|_| ()),
            Case::Level { job, side, station } => self.levels(job, *side, &[*station]),
            Case::Corners {
                job,
                hazard,
                sheet_station,
                sheet_offset,
            } => {
                let sheet = (*sheet_station, *sheet_offset);
                self.corners(job, *hazard, sheet).map(|_| ())
            }
            Case::Offset {
                job,
                hazard,
                longest,
            } => self.offset(job, *hazard, *longest).map(|_| ()),
            Case::Layout {
                lengths,
                run,
                limit,
            } => self.layout(lengths, *run, *limit).map(|_| ()),
            Case::Quantity {
                schedule,
                level,
                p,
                q,
            } => self.quantity(schedule, *level, *p, *q).map(|_| ()),
            Case::Quantities {
                schedule,
                level,
                ranges,
            } => self.quantities(schedule, *level, ranges).map(|_| ()),
            Case::Lookup {
                right,
                left,
                side,
                station,
            } => self.lookup(right, left, *side, *station).map(|_| ()),
            Case::Reach { job, hazard } => self.reach(job, *hazard).map(|_| ()),
            Case::OneLess { job, hazard } => self.one_less(job, *hazard),
            Case::OpenJob { memory, step } => {
                self.step(&mut memory.clone(), step.clone()).map(|_| ())
            }
            Case::OpenReach { memory, name } => self.open_reach(memory, *name).map(|_| ()),
            Case::OpenOneLess { memory, name } => self.open_one_less(memory, *name).map(|_| ()),
        }
    }

    fn difference(
        &self,
        case: Case,
        what: Vec<String>,
        reference: String,
        engine: String,
    ) -> Box<Difference> {
        Box::new(Difference {
            seed: self.seed,
            family: self.tally.family(),
            cases: self.tally.cases(),
            case,
            what: what.join(", "),
            reference,
            engine,
        })
    }
}

/// The bytes that a call says it has written to the output of a room.
fn written(reply: PlanReply, room: Vec<u8>) -> Result<Vec<u8>, Reply> {
    match reply.number {
        0 => Ok(room
            .into_iter()
            .skip(GUARD)
            .take(reply.value as usize)
            .collect()),
        _ => Err(reply.reply()),
    }
}

/// An output between its guard bytes, filled with bytes of no meaning.
fn filled_room(out_length: usize, fill: u64) -> Vec<u8> {
    let start = fill.wrapping_mul(0x9E37_79B9_7F4A_7C15) >> 32;
    let length = out_length + 2 * GUARD;
    (0..length as u64)
        .map(|index| (start.wrapping_add(index * 101) ^ (start >> 8)) as u8)
        .collect()
}

fn note_reply(what: &mut Vec<String>, differs: bool) {
    if differs {
        what.push("the reply".to_string());
    }
}

fn note_input(what: &mut Vec<String>, name: &str, before: &[u8], after: &[u8]) {
    if before != after {
        what.push(format!("the {name}'s bytes were changed"));
    }
}

fn note_numbers(what: &mut Vec<String>, name: &str, before: &[u64], after: &[u64]) {
    if before != after {
        what.push(format!("the {name} were changed"));
    }
}

fn note_room(what: &mut Vec<String>, expected: &[u8], got: &[u8], lent: &Range<usize>) {
    let differing = expected.iter().zip(got).position(|(e, g)| e != g);
    if let Some(at) = differing {
        what.push(if lent.contains(&at) {
            format!("output byte {}", at - lent.start)
        } else {
            format!(
                "guard byte {} from the output's start",
                at as i64 - lent.start as i64
            )
        });
    }
}

fn note_memory(what: &mut Vec<String>, expected: &Memory, got: &Memory) {
    if expected == got {
        return;
    }
    let differing = expected.job.iter().zip(&got.job).position(|(e, g)| e != g);
    if let Some(at) = differing {
        what.push(format!("byte {at} of the open job"));
    } else {
        what.push("a guard byte of the open job".to_string());
    }
}

pub fn reply_text(reply: Reply) -> String {
    format!("number {} value {}", reply.number, reply.value)
}

fn reply_and_output(reply: PlanReply, output: &[u8]) -> String {
    let PlanReply { before, after, .. } = reply;
    let (reply, output) = (reply_text(reply.reply()), hex::write(output));
    format!("{reply} before {before} after {after}, output {output}")
}

fn reply_and_memory(reply: PlanReply, memory: &Memory, output: Option<Vec<u8>>) -> String {
    let memory = hex::write_memory(&memory.job);
    match output {
        Some(output) => format!("{}, open job {memory}", reply_and_output(reply, &output)),
        None => format!("{}, open job {memory}", reply_text(reply.reply())),
    }
}

/// The floats with their bits, for some are written alike.
fn corners_text(reply: CornersReply) -> String {
    let CornersReply {
        number,
        value,
        corners,
    } = reply;
    let float = |float: f64| format!("{float} ({:016X})", float.to_bits());
    let corner = |corner: Corner| format!("{}, {}", float(corner.station), float(corner.offset));
    let [upstream, flare, hazard] = corners.map(corner);
    format!("number {number} value {value} upstream {upstream} flare {flare} hazard {hazard}")
}

fn offset_text(reply: OffsetReply) -> String {
    let OffsetReply {
        number,
        value,
        found,
    } = reply;
    format!("number {number} value {value} found {found}")
}

fn reach_text(reply: ReachReply) -> String {
    let ReachReply {
        number,
        value,
        side,
        start,
        end,
        before,
        after,
        from,
        to,
    } = reply;
    let envelope = format!("side {side} start {start} end {end} before {before} after {after}");
    format!("number {number} value {value} {envelope} from {from} to {to}")
}

fn layout_text(reply: LayoutReply) -> String {
    let LayoutReply {
        number,
        value,
        found,
        overrun,
        counts,
        tries,
        floor,
    } = reply;
    let counts = hex::write_numbers(&counts);
    let found = format!("found {found} overrun {overrun} counts {counts}");
    format!("number {number} value {value} {found} tries {tries} floor {floor}")
}

fn contract_text(contract: Contract) -> String {
    let Contract {
        number,
        value,
        records,
        quantities,
    } = contract;
    let quantities = hex::write_numbers(&quantities);
    format!("number {number} value {value} records {records} quantities {quantities}")
}

fn record_text(record: Record) -> String {
    format!(
        "number {} found {} start {} end {}",
        record.number, record.found, record.start, record.end
    )
}
