//! The calls in turn: plans the sample job of barrier.h, looks up the
//! barrier at some stations, asks for the level at two of them without the
//! schedule, prices it by lots, asks for the corners of its approach and for
//! offsets that keep a gate clear, plans a job whose approach runs into the
//! neighbouring contract and shows two refusals. It ends with 1 where a call
//! does not do what it should: a schedule that cannot be read must not be
//! priced as one without barriers.
//!
//! It prints the same text as examples/example.c.

use std::io::{self, Write};
use std::ops::Range;
use std::process::ExitCode;

use barrier_engine::{Corner, Corners, PlannedSide, Refusal, LEFT, NC_3, RIGHT, SCHEDULE_MAX};
use example::printed;
use example::show::{self, in_words, Stop};

const ROAD_END: u64 = printed::HEADER.end;

/// The price of one millimetre of barrier in cents: 120.00 a metre.
const CENTS_A_MILLIMETRE: u64 = 12;

fn print_bytes(out: &mut impl Write, name: &str, bytes: &[u8]) -> io::Result<()> {
    let hex: String = bytes.iter().map(|byte| format!(" {byte:02X}")).collect();
    writeln!(out, "  {name}:{hex}")
}

/// The answer of a call that must not be refused.
fn done<T>(out: &mut impl Write, what: &str, answer: Result<T, Refusal>) -> Result<T, Stop> {
    show::done(out, what, answer, in_words)
}

/// What stands on the right side at a station.
fn print_station(out: &mut impl Write, right: &[u8], station: u64) -> Result<(), Stop> {
    // A refusal is not the same as "no barrier": these bytes could not be read.
    let answer = barrier_engine::lookup(right, &[], RIGHT, station);
    match done(out, "lookup", answer)? {
        Some(record) => print_record(out, right, station, record)?,
        None => writeln!(out, "  station {station}: no barrier")?,
    }
    Ok(())
}

fn print_record(
    out: &mut impl Write,
    right: &[u8],
    station: u64,
    record: Range<usize>,
) -> Result<(), Stop> {
    let Range { start, end } = record;
    let [distance, length, level] = barrier_engine::decode_record(&right[start..end])?;
    write!(out, "  station {station}: bytes [{start}, {end}): ")?;
    writeln!(out, "{distance} mm free, then {length} mm at NC-{level}")?;
    Ok(())
}

fn print_stations(out: &mut impl Write, right: &[u8]) -> Result<(), Stop> {
    writeln!(out, "Records on the right side")?;
    for station in [155_772, 155_773, 209_999, 210_000] {
        print_station(out, right, station)?;
    }
    Ok(())
}

/// The level at a station, from the job only.
fn print_level(out: &mut impl Write, job: &[u8], station: u64) -> Result<(), Stop> {
    let answer = barrier_engine::level(job, RIGHT, station);
    match done(out, "level", answer)? {
        0 => writeln!(out, "  station {station}: no barrier")?,
        level => writeln!(out, "  station {station}: NC-{level}")?,
    }
    Ok(())
}

/// What an inspector asks, who has the job but no schedule.
fn print_levels(out: &mut impl Write, job: &[u8]) -> Result<(), Stop> {
    writeln!(out, "Levels on the right side, without its schedule")?;
    print_level(out, job, 155_772)?;
    print_level(out, job, 155_773)
}

fn print_price(out: &mut impl Write, what: &str, millimetres: u64) -> io::Result<()> {
    let cents = millimetres * CENTS_A_MILLIMETRE;
    let (whole, rest) = (cents / 100, cents % 100);
    writeln!(out, "  {what:<19} {millimetres:6} mm {whole:6}.{rest:02}")
}

/// One range, [p, q), and its millimetres of NC-3.
fn print_range(out: &mut impl Write, (p, q): (u64, u64), millimetres: u64) -> io::Result<()> {
    print_price(out, &format!("[{p}, {q})"), millimetres)
}

/// Two lots that share a boundary, in one call, and their sum. A range does not
/// have its end station, so nothing is counted in both lots. Where the call is
/// refused there are no millimetres to add, so there is no sum.
fn print_lots(out: &mut impl Write, right: &[u8], boundary: u64) -> Result<(), Stop> {
    let lots = [(0, boundary), (boundary, ROAD_END)];
    let answer = barrier_engine::quantities(right, NC_3, &lots);
    let quantities = done(out, "lots", answer)?.quantities;
    for (lot, millimetres) in lots.into_iter().zip(&quantities) {
        print_range(out, lot, *millimetres)?;
    }
    print_price(out, "both lots", quantities.iter().sum())?;
    Ok(())
}

/// The road in one lot.
fn print_road(out: &mut impl Write, right: &[u8]) -> Result<(), Stop> {
    let answer = barrier_engine::quantity(right, NC_3, 0, ROAD_END);
    let millimetres = done(out, "road", answer)?;
    print_range(out, (0, ROAD_END), millimetres)?;
    Ok(())
}

fn print_prices(out: &mut impl Write, right: &[u8]) -> Result<(), Stop> {
    writeln!(out, "NC-3 by lots, the boundary inside the run")?;
    print_lots(out, right, 180_000)?;
    print_road(out, right)?;
    writeln!(out, "NC-3 by lots, the boundary where the run begins")?;
    print_lots(out, right, 155_773)?;
    print_road(out, right)
}

/// Whole millimetres: nothing after the point is left out.
fn print_corner(out: &mut impl Write, name: &str, corner: Corner) -> io::Result<()> {
    let Corner { station, offset } = corner;
    writeln!(out, "    {name:<8} ({station:.0}, {offset:.0})")
}

/// The headwall's approach, to be drawn on that sheet.
fn print_sheet(out: &mut impl Write, job: &[u8], station: u64, offset: u64) -> Result<(), Stop> {
    let answer = barrier_engine::corners(job, 0, station, offset);
    let corners = done(out, "corners", answer)?;
    let Corners {
        upstream,
        flare,
        hazard,
    } = corners;
    writeln!(out, "  from sheet corner ({station}, {offset})")?;
    print_corner(out, "upstream", upstream)?;
    print_corner(out, "flare", flare)?;
    print_corner(out, "hazard", hazard)?;
    Ok(())
}

fn print_corners(out: &mut impl Write, job: &[u8]) -> Result<(), Stop> {
    writeln!(out, "Corners of the approach")?;
    print_sheet(out, job, 0, 0)?;
    print_sheet(out, job, 160_000, 4_000)
}

/// The offset that keeps the approach that short.
fn print_offset(out: &mut impl Write, job: &[u8], longest: u64) -> Result<(), Stop> {
    let answer = barrier_engine::offset(job, 0, longest);
    let found = done(out, "offset", answer)?;
    write!(out, "  approach of at most {longest} mm: ")?;
    match found {
        Some(offset) => writeln!(out, "offset {offset}")?,
        None => writeln!(out, "none")?,
    }
    Ok(())
}

/// Gates at several distances upstream of the headwall.
fn print_offsets(out: &mut impl Write, job: &[u8]) -> Result<(), Stop> {
    writeln!(out, "Barrier offsets that keep a gate clear")?;
    for longest in [70_000, 44_227, 40_000, 37_807, 37_806] {
        print_offset(out, job, longest)?;
    }
    Ok(())
}

/// The sample job without flare, and the headwall from 67,333 on, one
/// millimetre nearer to the road's begin than its approach is long. The
/// schedule begins with the road. What hangs over stands in the neighbouring
/// contract and is in no quantity of this one, so that office has to be told.
fn print_overhang(out: &mut impl Write) -> Result<(), Stop> {
    let mut job = printed::job();
    job.header.flare_across = 0;
    job.hazards[0].start = 67_333;
    let answer = barrier_engine::plan_side(&job.encode(), RIGHT);
    let PlannedSide {
        schedule,
        before,
        after,
    } = done(out, "plan", answer)?;
    writeln!(out, "An approach that runs into the neighbouring contract")?;
    print_bytes(out, "right schedule", &schedule)?;
    write!(
        out,
        "  overhang on the right: {before} mm before the road, "
    )?;
    writeln!(out, "{after} mm after it")?;
    Ok(())
}

/// The same job with the headwall one millimetre too near, and a short output.
fn print_refusals(out: &mut impl Write, job: &[u8]) -> Result<(), Stop> {
    let mut near_job = printed::job();
    near_job.hazards[0].near_offset = 3_999;
    let mut room = [0; SCHEDULE_MAX];
    writeln!(out, "Refusals")?;
    let answer = barrier_engine::plan(&near_job.encode(), RIGHT, &mut room);
    show::refused(out, "near offset 3999", answer, in_words)?;
    let answer = barrier_engine::plan(job, RIGHT, &mut room[..7]);
    show::refused(out, "room for 7 bytes", answer, in_words)
}

/// Everything in turn.
fn print_all(out: &mut impl Write) -> Result<(), Stop> {
    let job = printed::job().encode();
    let right = done(out, "plan", barrier_engine::plan_side(&job, RIGHT))?.schedule;
    let left = done(out, "plan", barrier_engine::plan_side(&job, LEFT))?.schedule;

    writeln!(out, "The sample job")?;
    print_bytes(out, "job", &job)?;
    print_bytes(out, "right schedule", &right)?;
    print_bytes(out, "left schedule", &left)?;
    print_stations(out, &right)?;
    print_levels(out, &job)?;
    print_prices(out, &right)?;
    print_corners(out, &job)?;
    print_offsets(out, &job)?;
    print_overhang(out)?;
    print_refusals(out, &job)
}

fn main() -> ExitCode {
    show::program("example", print_all)
}
