//! Readings of numbers, roads and jobs with something exchanged: the parts of
//! wrong engines.

use reference::calls::{level_of_job, plan_job, tested};
use reference::corners::{Point, SHEET_END};
use reference::job::{self, Job, NATIONAL, ReadNumber, Reader, RoadLimits};
use reference::number::{self, Fault, Number};
use reference::{OpenJob, Refusal, corners, memory, offset, reached};

use crate::calls::{Calls, corners_reply, offset_reply, plan_reply, reach_reply, reply, right};

/// How a number is read.
#[derive(Clone, Copy)]
pub struct Form {
    pub most_bytes: usize,
    /// A greater value is a fault of form.
    pub greatest: u64,
    /// Whether a number of so many bytes has to be in shortest form.
    pub shortest: fn(usize) -> bool,
    /// What the value is taken as.
    pub taken_as: fn(u64) -> u64,
}

pub const RIGHT_FORM: Form = Form {
    most_bytes: number::MOST_BYTES,
    greatest: u64::MAX,
    shortest: |_| true,
    taken_as: |value| value,
};

/// Reads a number in another form.
pub fn read_in(form: &Form, bytes: &[u8], begin: usize) -> Result<Number, Fault> {
    let mut value = 0;
    for index in 0..form.most_bytes {
        let at = begin + index;
        let byte = *bytes.get(at).ok_or(Fault::Ends)?;
        value |= u64::from(byte & 0x7F) << (7 * index);
        if byte > 0x7F {
            continue;
        }
        let bytes_taken = index + 1;
        let needless = number::groups(value) < bytes_taken;
        if value > form.greatest || (needless && (form.shortest)(bytes_taken)) {
            return Err(Fault::Form);
        }
        return Ok(Number {
            value: (form.taken_as)(value),
            next: at + 1,
        });
    }
    Err(Fault::Form)
}

/// Numbers that are not in shortest form are read, too.
pub fn not_shortest(bytes: &[u8], begin: usize) -> Result<Number, Fault> {
    let form = Form {
        shortest: |_| false,
        ..RIGHT_FORM
    };
    read_in(&form, bytes, begin)
}

/// A job that is read, or the refusal.
pub type Read = Result<Job, Refusal>;

/// How a job's bytes are read.
#[derive(Clone, Copy)]
pub struct JobReading {
    pub number: ReadNumber,
    pub limits: RoadLimits,
    /// What is made of the job that is read, or of the refusal.
    pub after: fn(&[u8], Read) -> Read,
}

pub const RIGHT_READING: JobReading = JobReading {
    number: number::read,
    limits: NATIONAL,
    after: |_, job| job,
};

impl JobReading {
    fn reader(self, bytes: &[u8]) -> Reader<'_> {
        Reader {
            number: self.number,
            limits: self.limits,
            ..Reader::new(bytes)
        }
    }

    pub fn job(self, bytes: &[u8]) -> Read {
        (self.after)(bytes, job::read_all(&mut self.reader(bytes)))
    }

    pub fn open(self, bytes: &[u8]) -> Result<OpenJob, Refusal> {
        let open = OpenJob::read(&mut self.reader(bytes));
        let header = open.clone().map(|open| open.header);
        let header = (self.after)(bytes, header)?;
        Ok(OpenJob { header, ..open? })
    }
}

/// Every call that takes a job's bytes, by this reading of them.
pub fn by_reading(reading: JobReading) -> Calls {
    Calls {
        plan: Box::new(move |bytes, side, room, lent| {
            let job = of_side(side).and_then(|()| reading.job(bytes));
            plan_reply(job.and_then(|job| plan_job(&job, side, &mut room[lent])))
        }),
        level: Box::new(move |bytes, side, station| {
            let job = of_side(side).and_then(|()| reading.job(bytes));
            reply(job.and_then(|job| level_of_job(&job, side, station)))
        }),
        corners: Box::new(move |bytes, hazard, station, offset| {
            let sheet = Point {
                station: station.into(),
                offset: offset.into(),
            };
            let on_sheet = match station.max(offset) > SHEET_END {
                true => Err(Refusal::argument()),
                false => Ok(()),
            };
            let job = on_sheet.and_then(|()| reading.job(bytes)).and_then(tested);
            corners_reply(job.and_then(|job| corners::of_accepted(&job, hazard, sheet)))
        }),
        offset: Box::new(move |bytes, hazard, longest| {
            let job = reading.job(bytes).and_then(tested);
            offset_reply(job.and_then(|job| offset::of_accepted(&job, hazard, longest)))
        }),
        reach: Box::new(move |bytes, hazard| {
            let job = reading.job(bytes).and_then(tested);
            reach_reply(job.and_then(|job| reached::of_accepted(&job, hazard)))
        }),
        open: Box::new(move |memory, bytes| {
            let opened = reading.open(bytes);
            reply(opened.map(|open| {
                memory::write(&open, &mut memory.job);
                0
            }))
        }),
        ..right()
    }
}

fn of_side(side: u64) -> Result<(), Refusal> {
    match side > 1 {
        true => Err(Refusal::argument()),
        false => Ok(()),
    }
}

#[cfg(test)]
mod tests {
    use super::*;
    use crate::compare::Checker;

    /// A wrong engine has to be wrong in its slip alone: with no slip at all the
    /// parts are those of the reference.
    #[test]
    fn no_difference_without_a_slip() {
        let mut checker = Checker::new(by_reading(JobReading {
            number: |bytes, begin| read_in(&RIGHT_FORM, bytes, begin),
            ..RIGHT_READING
        }));
        if let Err(difference) = crate::run(&mut checker, 6, 1) {
            panic!("{difference}");
        }
    }
}
