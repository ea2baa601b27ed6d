//! The program `barrier`, run on inputs, held against the reference's text.
//! Its one argument is the path of the program. Ends with 0 if all agree.

use std::fs::File;
use std::io::Write;
use std::process::{Child, Command, ExitCode, Output, Stdio};
use std::thread::sleep;
use std::time::{Duration, Instant};

use cases::draft::{
    A, B, C, D, Draft, G, LEVEL, LO, M, PRINTED, PRINTED_HAZARD, S, SIDE, T, W, number_bytes,
    printed,
};
use cases::{Random, jobs};
use reference::job::LAST_STATION;

/// No input takes the program longer than this.
const PATIENCE: Duration = Duration::from_secs(20);

/// No accepted job has more bytes.
const LONGEST: usize = 5_162;

struct Input {
    name: &'static str,
    bytes: Vec<u8>,
    /// Given to the program a few bytes at a time.
    slowly: bool,
}

fn main() -> ExitCode {
    let Some(program) = std::env::args().nth(1) else {
        eprintln!("the path of the program barrier is wanted");
        return ExitCode::from(2);
    };
    let inputs = inputs();
    for input in &inputs {
        let output = run(Command::new(&program).stdout(Stdio::piped()), input);
        if !prints(input.name, &output, &input.bytes) {
            return ExitCode::FAILURE;
        }
    }
    println!("program: {} inputs print as they should", inputs.len());
    for (name, mut command) in unreadable(&program) {
        let child = command.stdout(Stdio::piped()).spawn();
        let output = end(name, child.expect("the program can be started"));
        if !prints(name, &output, &[]) {
            return ExitCode::FAILURE;
        }
    }
    println!("program: an input that cannot be read is an empty one");
    for (name, mut command) in unwritable(&program) {
        run(&mut command, &input(name, printed().bytes()));
    }
    println!("program: it ends where the output cannot be written");
    ExitCode::SUCCESS
}

/// Whether the program printed what the reference has for these bytes.
fn prints(name: &str, output: &Output, bytes: &[u8]) -> bool {
    let expected = reference::program::text(bytes);
    let as_expected = output.stdout == expected.as_bytes();
    if !as_expected {
        eprintln!("{name}: the program printed");
        eprintln!(
            "{}but should print",
            String::from_utf8_lossy(&output.stdout)
        );
        eprintln!("{expected}");
    }
    as_expected
}

fn run(command: &mut Command, input: &Input) -> Output {
    let child = command.stdin(Stdio::piped()).spawn();
    let mut child = child.expect("the program can be started");
    feed(&mut child, input);
    end(input.name, child)
}

/// Waits for the program's end. Its status is 0, whatever it was given, and
/// also where it cannot write, as docs/PROOFS.md says. A text that fills the pipe
/// would have to be read first; no schedule is that long.
fn end(name: &str, mut child: Child) -> Output {
    let begin = Instant::now();
    while child
        .try_wait()
        .expect("the program can be asked")
        .is_none()
    {
        if begin.elapsed() > PATIENCE {
            let _ = child.kill();
            panic!("{name}: the program does not end");
        }
        sleep(Duration::from_millis(1));
    }
    let output = child.wait_with_output().expect("the program has ended");
    assert!(output.status.success(), "{name}: {}", output.status);
    output
}

/// Standard input is there but gives no bytes, or is not there.
fn unreadable(program: &str) -> Vec<(&'static str, Command)> {
    let mut folder = Command::new(program);
    folder.stdin(File::open("/").expect("a folder can be opened"));
    vec![
        ("a folder", folder),
        ("a closed input", through_shell("exec \"$0\" <&-", program)),
    ]
}

fn unwritable(program: &str) -> Vec<(&'static str, Command)> {
    let mut full = Command::new(program);
    let device = File::options().write(true).open("/dev/full");
    full.stdout(device.expect("there is a full output"));
    vec![
        ("a full output", full),
        ("a closed output", through_shell("exec \"$0\" >&-", program)),
    ]
}

/// The shell can close what a program gets; a command here cannot.
fn through_shell(line: &str, program: &str) -> Command {
    let mut command = Command::new("sh");
    command.args(["-c", line, program]);
    command
}

/// The program may stop reading at its limit, so a failed write is no fault.
fn feed(child: &mut Child, input: &Input) {
    let mut pipe = child.stdin.take().expect("the input is a pipe");
    let piece = if input.slowly { 3 } else { usize::MAX };
    for part in input.bytes.chunks(piece.min(input.bytes.len().max(1))) {
        if pipe.write_all(part).is_err() {
            return;
        }
        if input.slowly {
            sleep(Duration::from_millis(2));
        }
    }
}

fn input(name: &'static str, bytes: Vec<u8>) -> Input {
    Input {
        name,
        bytes,
        slowly: false,
    }
}

/// An accepted job of 5,162 bytes, of which none is longer: every number takes as
/// many bytes as its range lets it.
fn longest() -> Draft {
    let begin = LAST_STATION - 2_000_000_000;
    let hazards: Vec<_> = (0..256)
        .map(|i| {
            let start = begin + 1_000_000 + i * 7_000_000;
            [i % 2, start, start + 10_000, 17_000, 19_000, i % 6 + 1]
        })
        .collect();
    let job = printed()
        .with(A, begin)
        .with(B, LAST_STATION)
        .with(LO, 90_000)
        .with(C, 20_000)
        .with(W, 16_384)
        .with(M, 16_384)
        .with(D, 128)
        .with(T, 16_384)
        .with(G, 50_000)
        .in_panels(4_000)
        .with_hazards(&hazards);
    assert_eq!(job.bytes().len(), LONGEST, "the longest job");
    let text = reference::program::text(&job.bytes());
    assert!(text.starts_with("R "), "the longest job is accepted");
    job
}

/// The job on paper with a field of its hazard changed.
fn hazard_with(field: usize, value: u64) -> Vec<u8> {
    printed().with_hazard(field, value).bytes()
}

fn inputs() -> Vec<Input> {
    let whole = printed().bytes();
    let mut malformed = whole.clone();
    malformed.splice(0..1, [0x81, 0x00]);
    let mut newline = whole.clone();
    newline.push(0x0A);
    let of_length = |length| {
        let mut bytes = whole.clone();
        bytes.resize(length, 0);
        bytes
    };
    let mut left = PRINTED_HAZARD;
    left[SIDE] = 1;
    left[LEVEL] = 5;
    let two_sided = printed()
        .with(LO, 90_000)
        .with_hazards(&[PRINTED_HAZARD, left]);
    let past_both_ends = two_sided.clone().with(A, 200_000).with(B, 210_000);
    let in_panels = printed().in_panels(4_000);
    let mut numbers = in_panels.numbers();
    numbers[14] = 257;
    let too_many = number_bytes(&numbers);
    numbers[0] = 3;
    let no_kind = number_bytes(&numbers);
    let longest = longest();
    let long_with = |length| {
        let mut bytes = longest.bytes();
        bytes.resize(length, 0);
        bytes
    };
    let mut last_level = longest.clone();
    last_level.hazards[255][LEVEL] = 7;
    let mut last_level = last_level.bytes();
    last_level.resize(9_000, 0);
    let mut random = Random::new(1, "program");
    let many = jobs::islands(&mut random, 0, 255).bytes();
    let mut list = vec![
        input("the job on paper", whole.clone()),
        input("nothing at all (1)", Vec::new()),
        input(
            "the last byte missing (1)",
            whole[..whole.len() - 1].to_vec(),
        ),
        input("a needless group (2)", malformed),
        input(
            "a road that begins too late (3)",
            printed().with(A, LAST_STATION).bytes(),
        ),
        input(
            "a road that is too long (3)",
            printed().with(B, 2_000_000_001).bytes(),
        ),
        input("the longest road", printed().with(B, 2_000_000_000).bytes()),
        input(
            "a value of six bytes as the level (4)",
            hazard_with(LEVEL, 1 << 35),
        ),
        input("a sixth byte with its top bit set (2)", vec![0x80; 6]),
        input(
            "stations over 32 bits",
            printed().moved((1 << 32) - 200_000).bytes(),
        ),
        input(
            "a road up to the last station",
            printed().moved(LAST_STATION - 1_000_000).bytes(),
        ),
        input("a level of 7 (4)", hazard_with(LEVEL, 7)),
        input("an offset too great (5)", printed().with(M, 4_001).bytes()),
        input("an approach before the road", hazard_with(S, 44_226)),
        input("approaches past both ends", past_both_ends.bytes()),
        input("a newline behind the job (7)", newline),
        input("one byte (1)", of_length(1)),
        input("8,192 bytes (7)", of_length(8_192)),
        input("8,193 bytes (7)", of_length(8_193)),
        input("far more than 8,192 bytes (7)", of_length(100_000)),
        input("the longest job", longest.bytes()),
        input("the longest job cut by a byte (1)", long_with(LONGEST - 1)),
        input("the longest job and a byte (7)", long_with(LONGEST + 1)),
        input("the longest job up to 8,193 bytes (7)", long_with(8_193)),
        input("a last level of 7 before 8,192 bytes (4)", last_level),
        input("two sides", two_sided.bytes()),
        input("no hazards", PRINTED.bytes()),
        input("511 runs", many.clone()),
        input("in whole panels", in_panels.bytes()),
        input(
            "two sides in whole panels",
            two_sided.in_panels(10_000).bytes(),
        ),
        input("no such kind (3)", no_kind),
        input(
            "a panel length too great (3)",
            printed().in_panels(10_001).bytes(),
        ),
        input("too many hazards in whole panels (3)", too_many),
        input(
            "a raised approach before the road",
            in_panels.with_hazard(S, 47_999).bytes(),
        ),
    ];
    for _ in 0..40 {
        list.push(input(
            "a small random job",
            jobs::small(&mut random).bytes(),
        ));
        list.push(input("a wide random job", jobs::wide(&mut random).bytes()));
        list.push(input(
            "a random job far from the datum",
            jobs::national(&mut random).bytes(),
        ));
    }
    list.push(Input {
        name: "511 runs through a slow pipe",
        bytes: many,
        slowly: true,
    });
    list
}
