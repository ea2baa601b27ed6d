//! The text that the program `barrier` prints.

use std::fmt::Write;

use crate::calls;
use crate::level::Run;
use crate::refusal::Refusal;

/// The program passes on no more than this many bytes.
pub const PASSED_ON: usize = 8_192;

/// What the program prints for these bytes of standard input.
pub fn text(input: &[u8]) -> String {
    let job = &input[..input.len().min(PASSED_ON)];
    match both_sides(job) {
        Ok((right, left)) => listing(&right, &left),
        Err(refusal) => format!("refused {} {}\n", refusal.number, refusal.value),
    }
}

fn both_sides(job: &[u8]) -> Result<(Vec<Run>, Vec<Run>), Refusal> {
    Ok((calls::runs(job, 0)?, calls::runs(job, 1)?))
}

/// The run lines, right side first, and the last line with the covered
/// millimetres.
fn listing(right: &[Run], left: &[Run]) -> String {
    let mut text = String::new();
    run_lines(&mut text, 'R', right);
    run_lines(&mut text, 'L', left);
    let _ = writeln!(text, "total {} {}", covered(right), covered(left));
    text
}

fn run_lines(text: &mut String, side: char, runs: &[Run]) {
    for run in runs {
        let Run { stretch, level } = run;
        let _ = writeln!(text, "{side} {} {} {level}", stretch.start, stretch.end);
    }
}

fn covered(runs: &[Run]) -> u64 {
    runs.iter().map(|run| run.stretch.length()).sum()
}
