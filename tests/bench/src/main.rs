//! The engine's time beside the reference's, on the same jobs in one process,
//! as tables in Markdown; or one fixed case, called a given number of times.

mod jobs;
mod single;
mod tables;
mod time;

use std::process::ExitCode;

const HELP: &str = "\
without options: the tables
  --case NAME --times N --who engine|reference: exactly N calls of one case
";

fn main() -> ExitCode {
    let arguments: Vec<String> = std::env::args().skip(1).collect();
    if arguments.is_empty() {
        return tables::print();
    }
    let Some(single) = single::read(&arguments) else {
        eprintln!("{HELP}cases: {}", single::NAMES.join(" "));
        return ExitCode::from(2);
    };
    single.run();
    ExitCode::SUCCESS
}
