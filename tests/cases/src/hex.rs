//! Bytes and lists of numbers as text. None at all are written as `-`.

use reference::memory::BYTES;

pub fn write(bytes: &[u8]) -> String {
    if bytes.is_empty() {
        return "-".to_string();
    }
    bytes.iter().map(|byte| format!("{byte:02X}")).collect()
}

pub fn read(text: &str) -> Option<Vec<u8>> {
    if text == "-" {
        return Some(Vec::new());
    }
    if !text.is_ascii() || text.len() % 2 == 1 {
        return None;
    }
    let pairs = (0..text.len()).step_by(2);
    pairs
        .map(|at| u8::from_str_radix(&text[at..at + 2], 16).ok())
        .collect()
}

/// The memory of an open job; bytes of 0 at its end are left out.
pub fn write_memory(memory: &[u8]) -> String {
    let end = memory.iter().rposition(|byte| *byte != 0);
    write(&memory[..end.map_or(0, |last| last + 1)])
}

pub fn read_memory(text: &str) -> Option<[u8; BYTES]> {
    let mut memory = [0; BYTES];
    let bytes = read(text)?;
    memory.get_mut(..bytes.len())?.copy_from_slice(&bytes);
    Some(memory)
}

/// Numbers in decimal, a comma between them.
pub fn write_numbers(numbers: &[u64]) -> String {
    if numbers.is_empty() {
        return "-".to_string();
    }
    let texts: Vec<String> = numbers.iter().map(u64::to_string).collect();
    texts.join(",")
}

pub fn read_numbers(text: &str) -> Option<Vec<u64>> {
    if text == "-" {
        return Some(Vec::new());
    }
    text.split(',').map(|number| number.parse().ok()).collect()
}
