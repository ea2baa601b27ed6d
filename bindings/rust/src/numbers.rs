//! The number form, in which jobs and schedules are written.

use std::error::Error;
use std::fmt;

/// A number takes at most six bytes, of seven bits each.
const NUMBER_BYTES: usize = 6;

/// Writes a number after the bytes, in the number form. One above 4398046511103
/// gets more bytes than the form has, and the engine then refuses it with 2.
pub fn put_number(bytes: &mut Vec<u8>, mut number: u64) {
    while number > 0x7F {
        bytes.push(0x80 | (number & 0x7F) as u8);
        number >>= 7;
    }
    bytes.push(number as u8);
}

pub(crate) fn put_numbers(bytes: &mut Vec<u8>, numbers: &[u64]) {
    for number in numbers {
        put_number(bytes, *number);
    }
}

/// Bytes that are not what they were read as, or runs that make no schedule:
/// where the fault is, and what it is. The engine did not say this: these are
/// the words of the reading and writing in this crate.
#[derive(Clone, Copy, PartialEq, Eq)]
pub struct Fault {
    pub place: Place,
    pub what: &'static str,
}

/// A byte of what was read, or a run of what is to be written, from 0.
#[derive(Clone, Copy, Debug, PartialEq, Eq)]
pub enum Place {
    Byte(usize),
    Run(usize),
}

impl Error for Fault {}

/// In words too, as a refusal.
impl fmt::Debug for Fault {
    fn fmt(&self, f: &mut fmt::Formatter<'_>) -> fmt::Result {
        write!(f, "{self}")
    }
}

impl fmt::Display for Fault {
    fn fmt(&self, f: &mut fmt::Formatter<'_>) -> fmt::Result {
        match self.place {
            Place::Byte(at) => write!(f, "byte {at}: {}", self.what),
            Place::Run(index) => write!(f, "run {index}: {}", self.what),
        }
    }
}

pub(crate) fn fault_at_byte<T>(at: usize, what: &'static str) -> Result<T, Fault> {
    let place = Place::Byte(at);
    Err(Fault { place, what })
}

/// Numbers read one after the other.
pub(crate) struct Reader<'a> {
    pub bytes: &'a [u8],
    pub at: usize,
}

impl Reader<'_> {
    /// The next number, by the engine's rules: whole, and in shortest form.
    pub fn number(&mut self) -> Result<u64, Fault> {
        let begin = self.at;
        let mut number = 0;
        for group in 0..NUMBER_BYTES {
            let Some(&byte) = self.bytes.get(begin + group) else {
                return fault_at_byte(begin, "the bytes end before or inside this number");
            };
            number |= u64::from(byte & 0x7F) << (7 * group);
            if byte & 0x80 == 0 {
                // A last group of 0 could be left out.
                if byte == 0 && group > 0 {
                    return fault_at_byte(begin, "this number is not in shortest form");
                }
                self.at = begin + group + 1;
                return Ok(number);
            }
        }
        fault_at_byte(begin, "this number takes more than six bytes")
    }

    pub fn numbers<const COUNT: usize>(&mut self) -> Result<[u64; COUNT], Fault> {
        let mut numbers = [0; COUNT];
        for number in &mut numbers {
            *number = self.number()?;
        }
        Ok(numbers)
    }

    /// A count that is not above `most`: nothing is made room for before that.
    pub fn count(&mut self, most: usize, what: &'static str) -> Result<usize, Fault> {
        let begin = self.at;
        match self.number()? {
            count if count <= most as u64 => Ok(count as usize),
            _ => fault_at_byte(begin, what),
        }
    }

    pub fn end(&self) -> Result<(), Fault> {
        if self.at == self.bytes.len() {
            Ok(())
        } else {
            fault_at_byte(self.at, "bytes are left over from here on")
        }
    }
}
