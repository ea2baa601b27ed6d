//! A controller's day: a job is opened, hazards come as the rod reaches them, two
//! are refused, a variant is tried and taken back, and the office gets its
//! schedule, quantities, panels, corner points and an offset that keeps a gate
//! clear. It ends with 1 where a call is refused that should not be, and prints
//! day.out.
//!
//! Refusals and faults are errors as others are: `?` hands them on.

use std::error::Error;
use std::io::{self, Write};
use std::process::ExitCode;

use barrier_engine::{
    corners, decode_schedule, layout, level, metres, millimetres_of_text, offset, quantities,
    quantity, version, Corner, Hazard, Header, Layout, OpenJob, Reach, Rounding, Run, LEFT, NC_1,
    NC_2, NC_3, NC_4, NC_6, RIGHT, TRIES_MAX, VERSION,
};
use example::printed;

type Done = Result<(), Box<dyn Error>>;

/// The sample job's kilometre, two-way; approaches in whole panels of 4 m,
/// gaps below 30 m closed.
const HEADER: Header = Header {
    runout_opposite: 101_000,
    centreline: 3_500,
    continuity: 30_000,
    panel: Some(4_000),
    ..printed::HEADER
};

const SIDES: [(&str, u64); 2] = [("right", RIGHT), ("left", LEFT)];

/// The contract's lots end where these stations are.
const LOT_STATIONS: [u64; 5] = [0, 180_000, 400_000, 700_000, 1_000_000];

/// The panel lengths that the yard stocks; with the shortest first fewer panels
/// are taken.
const YARD: [u64; 2] = [2_500, 4_000];

/// The names under which hazards stand are the numbers of their drawings.
const HEADWALL: u16 = 7;
const CULVERT: u16 = 1020;
const PIER: u16 = 1021;
const TREE: u16 = 1044;

/// The state number under which the morning's work is kept.
const MORNING: u64 = 0;

/// A hazard from the rod's metres: never smaller than it was measured.
fn measured(side: u64, stations: [&str; 2], offsets: [&str; 2], level: u64) -> Option<Hazard> {
    Some(Hazard {
        side,
        start: millimetres_of_text(stations[0], Rounding::Down)?,
        end: millimetres_of_text(stations[1], Rounding::Up)?,
        near_offset: millimetres_of_text(offsets[0], Rounding::Down)?,
        far_offset: millimetres_of_text(offsets[1], Rounding::Up)?,
        level,
    })
}

/// Adds what was measured. A refusal is for the crew to read, and the job stays
/// as it was: the day goes on.
fn add(
    out: &mut impl Write,
    job: &mut OpenJob,
    name: u16,
    what: &str,
    hazard: Option<Hazard>,
) -> Done {
    let hazard = hazard.ok_or("the rod's metres cannot be read")?;
    write!(out, "  {what}, drawing {name}: ")?;
    match job.add(name, hazard) {
        Ok(()) => writeln!(out, "added, {} to {} mm", hazard.start, hazard.end)?,
        Err(refusal) => {
            writeln!(out, "{refusal}")?;
            writeln!(out, "    {}", refusal.remedy())?;
        }
    }
    Ok(())
}

fn print_schedule(out: &mut impl Write, job: &OpenJob) -> Done {
    for (name, side) in SIDES {
        let planned = job.plan_side(side)?;
        for Run { start, end, level } in decode_schedule(&planned.schedule)? {
            let (from, to, length) = (metres(start), metres(end), metres(end - start));
            write!(out, "    {name:5} {from:>8} to {to:>8} m")?;
            writeln!(out, "  NC-{level}  {length:>8} m")?;
        }
        // What stands in the neighbouring contract is in no run.
        for (overhang, place) in [(planned.before, "before"), (planned.after, "after")] {
            if overhang > 0 {
                write!(out, "    {name:5} {} m {place} the road", metres(overhang))?;
                writeln!(out, ", in the neighbouring contract")?;
            }
        }
    }
    Ok(())
}

fn morning(out: &mut impl Write, job: &mut OpenJob) -> Done {
    writeln!(out, "Morning: the rod moves along the road")?;
    let headwall = measured(RIGHT, ["200", "210.0"], ["5.0", "9.0"], NC_3);
    add(out, job, HEADWALL, "headwall", headwall)?;
    let culvert = measured(RIGHT, ["260.1234", "263.8766"], ["5.2", "7.75"], NC_2);
    add(out, job, CULVERT, "culvert", culvert)?;
    let pier = measured(LEFT, ["640", "642.5"], ["4.5", "6.5"], NC_4);
    add(out, job, PIER, "pier", pier)?;
    // The rod slipped: barrier offset and deflection are 4 m together.
    let slipped = measured(LEFT, ["985", "985.6"], ["3.9996", "4.6"], NC_1);
    add(out, job, TREE, "tree", slipped)?;
    let tree = measured(LEFT, ["985", "985.6"], ["4.2", "4.8"], NC_1);
    add(out, job, TREE, "tree, measured again", tree)?;
    add(out, job, HEADWALL, "headwall, a second time", headwall)?;
    print_schedule(out, job)
}

/// Which sheets the office has to issue again: those that have any of the stretch.
fn print_reach(out: &mut impl Write, name: u16, reach: &Reach) -> Done {
    if !reach.is_reached() {
        writeln!(
            out,
            "  without drawing {name} nothing changes: nobody reaches it"
        )?;
        return Ok(());
    }
    let side = if reach.side == RIGHT { "right" } else { "left" };
    let (start, end) = (metres(reach.stretch.start), metres(reach.stretch.end));
    writeln!(
        out,
        "  without drawing {name} only the {side} side may change, {start} to {end} m"
    )?;
    Ok(())
}

fn variant(out: &mut impl Write, job: &mut OpenJob) -> Done {
    writeln!(
        out,
        "Noon: what if the culvert were piped and the tree felled?"
    )?;
    job.keep(MORNING)?;
    for name in [CULVERT, TREE] {
        print_reach(out, name, &job.reach(name)?)?;
        job.withdraw(name)?;
    }
    print_schedule(out, job)?;
    job.return_to(MORNING)?;
    let names: Vec<String> = job.standing().map(|(name, _)| name.to_string()).collect();
    writeln!(out, "  taken back; standing: {}", names.join(", "))?;
    Ok(())
}

fn underfoot(out: &mut impl Write, job: &OpenJob, stations: &[&str]) -> Done {
    writeln!(out, "Afternoon: the level under the inspector's feet")?;
    let bytes = job.job().encode();
    for text in stations {
        // The millimetre in which the inspector stands.
        let station = millimetres_of_text(text, Rounding::Down).ok_or("no such station")?;
        write!(out, "  {text:>8} m:")?;
        for (name, side) in SIDES {
            let comma = if side == RIGHT { "," } else { "\n" };
            match level(&bytes, side, station)? {
                0 => write!(out, " {name} none{comma}")?,
                level => write!(out, " {name} NC-{level}{comma}")?,
            }
        }
    }
    Ok(())
}

fn print_quantities(out: &mut impl Write, job: &OpenJob) -> Done {
    writeln!(out, "The contract's lots, in millimetres")?;
    let lots: Vec<(u64, u64)> = LOT_STATIONS
        .windows(2)
        .map(|lot| (lot[0], lot[1]))
        .collect();
    for (name, side) in SIDES {
        let schedule = job.plan_side(side)?.schedule;
        for level in NC_1..=NC_6 {
            let road = quantity(&schedule, level, HEADER.begin, HEADER.end)?;
            if road == 0 {
                continue;
            }
            let found = quantities(&schedule, level, &lots)?.quantities;
            write!(out, "  {name:5} NC-{level}")?;
            for millimetres in &found {
                write!(out, " {millimetres:7}")?;
            }
            let together: u64 = found.iter().sum();
            writeln!(out, "  together {together}, road {road}")?;
        }
    }
    Ok(())
}

fn panels(out: &mut impl Write, job: &OpenJob) -> Done {
    let runs = decode_schedule(&job.plan_side(RIGHT)?.schedule)?;
    let first = runs.first().ok_or("no run on the right")?;
    let run = first.end - first.start;
    writeln!(out, "Panels of {} and {} mm for {run} mm", YARD[0], YARD[1])?;
    for limit in [15, TRIES_MAX] {
        let Layout {
            covering,
            tries,
            floor,
        } = layout(&YARD, run, limit)?;
        write!(out, "  at most {limit} tries: ")?;
        match covering {
            Some(laid) => {
                let [short, long, ..] = laid.counts;
                write!(out, "{short} and {long}, {} mm over", laid.overrun)?;
            }
            None => write!(out, "no layout covers it")?,
        }
        writeln!(out, "; {tries} tries, floor {floor}")?;
    }
    Ok(())
}

fn corner_points(out: &mut impl Write, job: &OpenJob) -> Done {
    write!(
        out,
        "Corner points for the drawing, from sheet corner (0, 0)"
    )?;
    writeln!(out, ", in millimetres")?;
    let bytes = job.job().encode();
    // The job has the hazards in the order of their names.
    for (index, (name, _)) in job.standing().enumerate() {
        let found = corners(&bytes, index as u64, 0, 0)?;
        write!(out, "  drawing {name}:")?;
        for Corner { station, offset } in [found.upstream, found.flare, found.hazard] {
            write!(out, " ({station:.0}, {offset:.0})")?;
        }
        writeln!(out)?;
    }
    Ok(())
}

fn gate(out: &mut impl Write, job: &OpenJob) -> Done {
    let longest = 40_000;
    writeln!(out, "A gate {longest} mm before the headwall")?;
    write!(out, "  smallest barrier offset that keeps it clear: ")?;
    match offset(&job.job().encode(), 0, longest)? {
        Some(offset) => writeln!(out, "{offset} mm")?,
        None => writeln!(out, "none")?,
    }
    Ok(())
}

fn day(out: &mut impl Write) -> Done {
    let linked = version();
    if !linked.fits() {
        return Err(format!("engine {linked} is linked, and {VERSION} is needed").into());
    }
    let mut job = OpenJob::new(&HEADER.encode())?;
    let (begin, end) = (metres(HEADER.begin), metres(HEADER.end));
    writeln!(out, "Opened: {begin} to {end} m")?;
    morning(out, &mut job)?;
    variant(out, &mut job)?;
    let stations = ["151.999", "152", "209.999", "300", "642.5", "1000"];
    underfoot(out, &job, &stations)?;
    writeln!(out, "Evening: the schedule")?;
    print_schedule(out, &job)?;
    print_quantities(out, &job)?;
    panels(out, &job)?;
    corner_points(out, &job)?;
    gate(out, &job)
}

fn main() -> ExitCode {
    let mut out = io::stdout().lock();
    let shown = day(&mut out).and_then(|()| Ok(out.flush()?));
    match shown {
        Ok(()) => ExitCode::SUCCESS,
        Err(error) => {
            // Where this cannot be written either, the status says it. With #, a
            // refusal says what can be done about it.
            let _ = writeln!(io::stderr(), "day: {error:#}");
            ExitCode::FAILURE
        }
    }
}
