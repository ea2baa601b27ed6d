//! Roads driven on the left, and carriageways towards falling stations.

use crate::{Corner, Hazard, Run, Side, LEFT, RIGHT};

/// The other side, for a road whose traffic drives on the left: of a hazard
/// before it is handed over, of the side that is asked for, and of what is said
/// of the answer. What is no side stays as it is.
pub fn swap_side(side: Side) -> Side {
    match side {
        RIGHT => LEFT,
        LEFT => RIGHT,
        other => other,
    }
}

/// Turning, for a one-way carriageway [begin, end) whose traffic travels towards
/// falling stations: barrier.h, "Sides and traffic". Hand over each hazard
/// turned, ask for the other side at the turned station, and turn back what is
/// replied: each of these undoes itself. On a two-way road turn nothing.
///
/// What lies on the road stays on it, and what lies outside stays outside, where
/// the engine refuses it: no number is tested here.
pub fn turn_hazard(begin: u64, end: u64, hazard: Hazard) -> Hazard {
    Hazard {
        side: swap_side(hazard.side),
        start: turned(begin, end, hazard.end),
        end: turned(begin, end, hazard.start),
        ..hazard
    }
}

/// The other way along the road, as a point of it.
fn turned(begin: u64, end: u64, point: u64) -> u64 {
    begin.wrapping_add(end).wrapping_sub(point)
}

/// A run; the runs of a schedule then fall, so take them from the last on.
pub fn turn_run(begin: u64, end: u64, run: Run) -> Run {
    Run {
        start: turned(begin, end, run.end),
        end: turned(begin, end, run.start),
        ..run
    }
}

/// A station that is asked for, the millimetre from it to the next.
pub fn turn_station(begin: u64, end: u64, station: u64) -> u64 {
    turned(begin, end, station).wrapping_sub(1)
}

/// A corner, counted from the sheet corner (0, 0): a point, not a millimetre.
pub fn turn_corner(begin: u64, end: u64, corner: Corner) -> Corner {
    Corner {
        station: begin.wrapping_add(end) as f64 - corner.station,
        ..corner
    }
}

/// The overhangs `before` and `after` of a side change places.
pub fn turn_overhangs(before: u64, after: u64) -> (u64, u64) {
    (after, before)
}
