//! The controller's day prints what is stored, and ends with 1 where its output
//! cannot be written.

use std::fs::File;
use std::process::Command;

fn day() -> Command {
    Command::new(env!("CARGO_BIN_EXE_day"))
}

#[test]
fn the_day_is_as_stored() {
    let ended = day().output().expect("the day begins");
    let printed = String::from_utf8(ended.stdout).expect("text");
    assert_eq!(printed, include_str!("../day.out"));
    assert!(ended.stderr.is_empty());
    assert_eq!(ended.status.code(), Some(0));
}

#[test]
fn an_output_that_is_full_is_said() {
    let full = File::create("/dev/full").expect("a full output");
    let ended = day().stdout(full).output().expect("the day begins");
    let said = String::from_utf8(ended.stderr).expect("text");
    assert!(said.starts_with("day: "), "{said}");
    assert_eq!(ended.status.code(), Some(1));
}
