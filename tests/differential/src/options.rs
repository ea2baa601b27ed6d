//! The options of the command line.

use std::time::SystemTime;

use cases::{Case, ROUNDS, SEED, Step, draft, hex};
use reference::job::Hazard;

pub const HELP: &str = "\
options:
  --seed S       the seed of the first round (default 1; with --seconds a fresh one)
  --rounds N     that many rounds (default 20)
  --seconds N    rounds with fresh seeds for N seconds
  --trace        prints each case before it is made
one case alone, bytes in hex, no bytes as -:
  --plan JOB SIDE OUTPUT_LENGTH FILL
  --level JOB SIDE STATION
  --corners JOB HAZARD SHEET_STATION SHEET_OFFSET
  --offset JOB HAZARD LONGEST
  --layout LENGTH,LENGTH RUN LIMIT (no lengths as -)
  --reach JOB HAZARD
  --one-less JOB HAZARD (an accepted job that has the hazard)
  --quantity SCHEDULE LEVEL P Q
  --quantities SCHEDULE LEVEL P,Q,P,Q (no ranges as -)
  --lookup RIGHT LEFT SIDE STATION
on an open job, its memory in hex, bytes of 0 at the end left out:
  --open MEMORY JOB
  --add MEMORY NAME SIDE,START,END,NEAR,FAR,LEVEL
  --withdraw MEMORY NAME
  --keep MEMORY STATE
  --return MEMORY STATE
  --schedule MEMORY SIDE OUTPUT_LENGTH FILL
  --open-reach MEMORY NAME
  --open-one-less MEMORY NAME
";

#[derive(Clone, Copy)]
pub enum Amount {
    Rounds(u64),
    Seconds(u64),
}

pub struct Options {
    pub seed: u64,
    pub amount: Amount,
    pub trace: bool,
    pub case: Option<Case>,
}

pub fn read(arguments: &[String]) -> Option<Options> {
    let mut seed = None;
    let mut amount = Amount::Rounds(ROUNDS);
    let mut trace = false;
    let mut case = None;
    let mut rest = arguments.iter().map(String::as_str);
    while let Some(option) = rest.next() {
        match option {
            "--seed" => seed = Some(number(rest.next())?),
            "--rounds" => amount = Amount::Rounds(number(rest.next())?),
            "--seconds" => amount = Amount::Seconds(number(rest.next())?),
            "--trace" => trace = true,
            _ => {
                let values: Vec<&str> = rest.by_ref().take(values(option)?).collect();
                case = Some(read_case(option, &values)?);
            }
        }
    }
    Some(Options {
        seed: seed.unwrap_or_else(|| default_seed(amount)),
        amount,
        trace,
        case,
    })
}

fn default_seed(amount: Amount) -> u64 {
    match amount {
        Amount::Rounds(_) => SEED,
        Amount::Seconds(_) => fresh_seed(),
    }
}

/// Seconds since 1970, a million seeds apart, so that two runs share none.
fn fresh_seed() -> u64 {
    let now = SystemTime::now().duration_since(SystemTime::UNIX_EPOCH);
    now.map_or(SEED, |time| time.as_secs() * 1_000_000)
}

fn number(text: Option<&str>) -> Option<u64> {
    text?.parse().ok()
}

/// How many values follow an option that is one case.
fn values(option: &str) -> Option<usize> {
    match option {
        "--plan" | "--corners" | "--quantity" | "--lookup" | "--schedule" => Some(4),
        "--level" | "--offset" | "--layout" | "--quantities" | "--add" => Some(3),
        "--open" | "--withdraw" | "--keep" | "--return" => Some(2),
        "--reach" | "--open-reach" | "--one-less" | "--open-one-less" => Some(2),
        _ => None,
    }
}

fn read_case(option: &str, values: &[&str]) -> Option<Case> {
    let value = |at: usize| number(values.get(at).copied());
    let bytes = |at: usize| hex::read(values.get(at)?);
    let numbers = |at: usize| hex::read_numbers(values.get(at)?);
    let on_open_job = |step: Step| {
        let memory = Box::new(hex::read_memory(values.first()?)?);
        Some(Case::OpenJob { memory, step })
    };
    Some(match option {
        "--plan" => Case::Plan {
            job: bytes(0)?,
            side: value(1)?,
            out_length: value(2)? as usize,
            fill: value(3)?,
        },
        "--level" => Case::Level {
            job: bytes(0)?,
            side: value(1)?,
            station: value(2)?,
        },
        "--corners" => Case::Corners {
            job: bytes(0)?,
            hazard: value(1)?,
            sheet_station: value(2)?,
            sheet_offset: value(3)?,
        },
        "--offset" => Case::Offset {
            job: bytes(0)?,
            hazard: value(1)?,
            longest: value(2)?,
        },
        "--layout" => Case::Layout {
            lengths: numbers(0)?,
            run: value(1)?,
            limit: value(2)?,
        },
        "--reach" => Case::Reach {
            job: bytes(0)?,
            hazard: value(1)?,
        },
        "--one-less" => Case::OneLess {
            job: bytes(0)?,
            hazard: value(1)?,
        },
        "--open-reach" => Case::OpenReach {
            memory: Box::new(hex::read_memory(values.first()?)?),
            name: value(1)?.try_into().ok()?,
        },
        "--open-one-less" => Case::OpenOneLess {
            memory: Box::new(hex::read_memory(values.first()?)?),
            name: value(1)?.try_into().ok()?,
        },
        "--quantity" => Case::Quantity {
            schedule: bytes(0)?,
            level: value(1)?,
            p: value(2)?,
            q: value(3)?,
        },
        "--quantities" => Case::Quantities {
            schedule: bytes(0)?,
            level: value(1)?,
            ranges: numbers(2)?,
        },
        "--lookup" => Case::Lookup {
            right: bytes(0)?,
            left: bytes(1)?,
            side: value(2)?,
            station: value(3)?,
        },
        "--open" => on_open_job(Step::Open { bytes: bytes(1)? })?,
        "--add" => on_open_job(Step::Add {
            name: value(1)?.try_into().ok()?,
            hazard: hazard(&numbers(2)?)?,
        })?,
        "--withdraw" => on_open_job(Step::Withdraw {
            name: value(1)?.try_into().ok()?,
        })?,
        "--keep" => on_open_job(Step::Keep { state: value(1)? })?,
        "--return" => on_open_job(Step::Return { state: value(1)? })?,
        _ => on_open_job(Step::Schedule {
            side: value(1)?,
            out_length: value(2)? as usize,
            fill: value(3)?,
        })?,
    })
}

fn hazard(fields: &[u64]) -> Option<Hazard> {
    Some(draft::hazard(fields.try_into().ok()?))
}
