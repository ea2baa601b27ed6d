//! Metres and kilometres to the engine's millimetres, and back.

use crate::STATION_MAX;

/// Metres, as a controller or a design package has them, to millimetres: the
/// nearest whole one, halves away from zero. So a length may be half a millimetre
/// off; the engine rounds nothing that it is given. A float holds most decimals
/// only nearly, so that a half may go either way: where that matters, take text.
///
/// `None` where there is no such station: below 0 or above `STATION_MAX` when
/// rounded, or not a number.
pub fn millimetres(metres: f64) -> Option<u64> {
    let rounded = (metres * 1000.0).round();
    let inside = rounded >= 0.0 && rounded <= STATION_MAX as f64;
    inside.then_some(rounded as u64)
}

/// What becomes of a part below a millimetre. A hazard that is planned is never
/// smaller than the one that was measured if its first station and near offset
/// go down, and its end station and far offset up.
#[derive(Clone, Copy, Debug, PartialEq, Eq)]
pub enum Rounding {
    Down,
    /// A half goes up.
    Nearest,
    Up,
}

/// Metres in decimal text to millimetres, exactly: "155.7725" is 155773 to the
/// nearest, and "155.7724999" is 155772. The text is digits, with a point among
/// them or at either end if wanted, and nothing else: no sign, comma, space,
/// exponent or unit. `None` for other text, and above `STATION_MAX`.
pub fn millimetres_of_text(metres: &str, rounding: Rounding) -> Option<u64> {
    let (whole, decimals) = metres.split_once('.').unwrap_or((metres, ""));
    let mut digits = whole.bytes().chain(decimals.bytes());
    if metres.is_empty() || metres == "." || !digits.all(|digit| digit.is_ascii_digit()) {
        return None;
    }
    let thousandths = decimals.bytes().chain([b'0'; 3]).take(3);
    let mut count: u64 = 0;
    for digit in whole.bytes().chain(thousandths) {
        count = count.checked_mul(10)?.checked_add((digit - b'0').into())?;
    }
    let mut rest = decimals.bytes().skip(3);
    let raised = match rounding {
        Rounding::Down => false,
        Rounding::Nearest => rest.next().is_some_and(|digit| digit >= b'5'),
        Rounding::Up => rest.any(|digit| digit > b'0'),
    };
    let count = count.checked_add(raised.into())?;
    (count <= STATION_MAX).then_some(count)
}

/// Millimetres as a text of metres, always with three decimals: 155773 is
/// "155.773".
pub fn metres(millimetres: u64) -> String {
    format!("{}.{:03}", millimetres / 1000, millimetres % 1000)
}

/// A station as roads are signed, kilometres + metres: 1250000 is "1+250.000".
pub fn kilometres(millimetres: u64) -> String {
    let metres = millimetres / 1000;
    format!(
        "{}+{:03}.{:03}",
        metres / 1000,
        metres % 1000,
        millimetres % 1000
    )
}

/// Such a station to millimetres: digits, a plus, three digits and, if wanted, a
/// point and three digits more. `None` for other text, and above `STATION_MAX`.
pub fn mm_of_kilometres(station: &str) -> Option<u64> {
    let (kilometres, metres) = station.split_once('+')?;
    let (metres, millimetres) = metres.split_once('.').unwrap_or((metres, "000"));
    let digits = |text: &str| text.bytes().all(|digit| digit.is_ascii_digit());
    let shaped = !kilometres.is_empty() && metres.len() == 3 && millimetres.len() == 3;
    if !shaped || !digits(kilometres) || !digits(metres) || !digits(millimetres) {
        return None;
    }
    let count: u64 = [kilometres, metres, millimetres].concat().parse().ok()?;
    (count <= STATION_MAX).then_some(count)
}
