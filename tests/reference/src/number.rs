//! The number form: groups of seven bits, lowest first, one group a byte, the
//! top bit set on all but the last byte, shortest form only.

/// A number takes at most this many bytes; whatever value they hold is read.
pub const MOST_BYTES: usize = 6;

const TOP_BIT: u8 = 0x80;
const GROUP: u8 = 0x7F;

/// A number that was read, and the index of the byte behind it.
#[derive(Clone, Copy, Debug, PartialEq, Eq)]
pub struct Number {
    pub value: u64,
    pub next: usize,
}

/// Why no number could be read.
#[derive(Clone, Copy, Debug, PartialEq, Eq)]
pub enum Fault {
    /// The bytes end before or inside the number.
    Ends,
    /// The sixth byte has the top bit set, or the number is not in shortest
    /// form.
    Form,
}

/// How many groups the bits of a value need; 0 takes one.
pub fn groups(value: u64) -> usize {
    let mut count = 1;
    let mut rest = value >> 7;
    while rest > 0 {
        count += 1;
        rest >>= 7;
    }
    count
}

/// Reads the number that begins at `begin`.
pub fn read(bytes: &[u8], begin: usize) -> Result<Number, Fault> {
    let mut value = 0u64;
    for index in 0..MOST_BYTES {
        let at = begin.saturating_add(index);
        let byte = *bytes.get(at).ok_or(Fault::Ends)?;
        value |= u64::from(byte & GROUP) << (7 * index);
        if byte & TOP_BIT == 0 {
            return finish(value, index + 1, at + 1);
        }
    }
    // A number has at most six bytes, so a sixth byte with the top bit set is a
    // fault of form, whatever follows it or does not.
    Err(Fault::Form)
}

fn finish(value: u64, taken: usize, next: usize) -> Result<Number, Fault> {
    match groups(value) == taken {
        true => Ok(Number { value, next }),
        false => Err(Fault::Form),
    }
}

/// Writes a value behind `bytes`, in as many groups as its bits need.
pub fn write(value: u64, bytes: &mut Vec<u8>) {
    let mut rest = value;
    for _ in 1..groups(value) {
        bytes.push((rest & u64::from(GROUP)) as u8 | TOP_BIT);
        rest >>= 7;
    }
    bytes.push(rest as u8);
}

#[cfg(test)]
mod tests {
    use super::*;

    fn written(value: u64) -> Vec<u8> {
        let mut bytes = Vec::new();
        write(value, &mut bytes);
        bytes
    }

    #[test]
    fn group_ends() {
        let ends: [(u64, &[u8]); 13] = [
            (0, &[0x00]),
            (127, &[0x7F]),
            (128, &[0x80, 0x01]),
            (16_383, &[0xFF, 0x7F]),
            (16_384, &[0x80, 0x80, 0x01]),
            (2_097_152, &[0x80, 0x80, 0x80, 0x01]),
            (268_435_455, &[0xFF, 0xFF, 0xFF, 0x7F]),
            (268_435_456, &[0x80, 0x80, 0x80, 0x80, 0x01]),
            (4_294_967_295, &[0xFF, 0xFF, 0xFF, 0xFF, 0x0F]),
            (4_294_967_296, &[0x80, 0x80, 0x80, 0x80, 0x10]),
            (34_359_738_367, &[0xFF, 0xFF, 0xFF, 0xFF, 0x7F]),
            (34_359_738_368, &[0x80, 0x80, 0x80, 0x80, 0x80, 0x01]),
            (4_398_046_511_103, &[0xFF, 0xFF, 0xFF, 0xFF, 0xFF, 0x7F]),
        ];
        for (value, bytes) in ends {
            assert_eq!(written(value), bytes);
            let next = bytes.len();
            assert_eq!(read(bytes, 0), Ok(Number { value, next }));
        }
    }

    #[test]
    fn bytes_that_end() {
        assert_eq!(read(&[], 0), Err(Fault::Ends));
        assert_eq!(read(&[0x05], 1), Err(Fault::Ends));
        assert_eq!(read(&[0x80], 0), Err(Fault::Ends));
        for length in 1..MOST_BYTES {
            assert_eq!(read(&vec![0xFF; length], 0), Err(Fault::Ends));
        }
        assert_eq!(read(&[0x05], usize::MAX), Err(Fault::Ends));
    }

    #[test]
    fn wrong_form() {
        let wrong: [&[u8]; 7] = [
            &[0x80, 0x00],
            &[0x85, 0x80, 0x00],
            &[0x80, 0x80, 0x80, 0x80, 0x00],
            &[0xFF, 0xFF, 0xFF, 0xFF, 0xFF, 0x00],
            &[0x80, 0x80, 0x80, 0x80, 0x80, 0x80],
            &[0xFF, 0xFF, 0xFF, 0xFF, 0xFF, 0xFF],
            &[0x80, 0x80, 0x80, 0x80, 0x80, 0x80, 0x01],
        ];
        for bytes in wrong {
            assert_eq!(read(bytes, 0), Err(Fault::Form), "{bytes:02X?}");
        }
    }
}
