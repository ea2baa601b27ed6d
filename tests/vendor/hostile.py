#!/usr/bin/env python3
"""Hostile input to every program in C that takes a job: some hundred texts, bytes and commands.

    hostile.py FOLDER

FOLDER has jobtext, listing and corners.  Whatever they are given, they end with
0, 1 or 2 and no signal; where they do not end with 0, nothing is printed and
standard error has their name and a short message without control characters;
the input is as it was.  Ends with 1 where that is not so.
"""
import random
import subprocess
import sys
import tempfile
from pathlib import Path

FOLDER = sys.argv[1] if len(sys.argv) > 1 else "target/examples"
COMMANDS = (["jobtext"], ["jobtext", "-r"], ["listing"], ["listing", "-p"],
            ["listing", "--csv", "hazards", "--stations", "km"], ["listing", "0", "0+500", "1000"],
            ["corners"], ["corners", "--stations", "km"])
faults = 0
seen = {}


def fault(what, command, given):
    global faults
    faults += 1
    print(f"hostile: {' '.join(command)[:80]}: {what} for {given[:80]!r} ({len(given)} bytes)", file=sys.stderr)


def fit_to_read(said):
    """Whether a message is for a person's terminal."""
    try:
        text = said.decode("utf-8")
    except UnicodeDecodeError:
        return False
    return len(text) < 1200 and all(c == "\n" or (c >= " " and not "\x7f" <= c < "\xa0") for c in text)


def test(command, given, path=None):
    """One command on one input; its status, and what it prints."""
    words = [f"{FOLDER}/{command[0]}", *([str(path)] if path else []), *command[1:]]
    try:
        said = subprocess.run(words, input=None if path else given, capture_output=True, timeout=60,
                              stdin=subprocess.DEVNULL if path else None)
    except subprocess.TimeoutExpired:
        fault("no end", command, given)
        return None, b""
    if said.returncode not in (0, 1, 2):
        fault(f"status {said.returncode}, {said.stderr[-300:]!r}", command, given)
    elif said.returncode != 0 and said.stdout != b"":
        fault(f"status {said.returncode} and printed", command, given)
    elif said.returncode != 0 and not said.stderr.startswith(command[0].encode() + b": "):
        fault(f"status {said.returncode} and said {said.stderr[:80]!r}", command, given)
    elif command[0] == "jobtext" and said.returncode == 1:
        fault("it judges", command, given)
    if not fit_to_read(said.stderr):
        fault(f"said {said.stderr[:80]!r}", command, given)
    seen[said.returncode] = seen.get(said.returncode, 0) + 1
    return said.returncode, said.stdout


def test_input(number, given, folder):
    """Half of the commands on an input from a pipe, one of them from a file too."""
    path = Path(folder) / "job"
    path.write_bytes(given)
    for turn in range(len(COMMANDS) // 2):
        command = COMMANDS[(number + 2 * turn) % len(COMMANDS)]
        piped = test(command, given)
        if turn == 0 and test(command, given, path) != piped:
            fault("another answer from a file", command, given)
    if path.read_bytes() != given:
        fault("the file is harmed", ["any"], given)
    # As text and by its bytes it is one job, but for roads that are driven otherwise.
    status, made = test(["jobtext"], given)
    if status == 0 and b"left" not in given.split(b"drives")[-1] and b"fall" not in given:
        direct, by_bytes = test(["listing", "-p"], given), test(["listing", "-p"], made)
        if made[:1] in (b"\1", b"\2") and direct != by_bytes:
            fault("another schedule by its bytes", ["listing", "-p"], given)


def texts():
    jobs = [path.read_bytes() for path in sorted(Path("examples/jobs").glob("*.job"))]
    words = [b"", b"#", b'"', b'""', b'"x"', b"\0", b"\xff", b"\r", b"\n", b"\t", b" ", b"-", b"+", b"1+250", b"1+250.000",
             b"9.000", b"9,000", b"Right", b"left", b"drives left\n", b"stations fall\n", b"hazard ", b"1" * 5000,
             b"18446744073709551615", b"18446744073709551616", b"\xef\xbb\xbf", b"\xe2\x80\xae", b"%s%n%d",
             b"\x1b[2J", b"../../etc/passwd", b"$(id)", b"kind 7\n", b"hazards 999999999999\n", b"'" * 9000]
    yield from (b"", b"\n", b"\0", b"\1", b"\2", b"\3", b"\x7f", b" ", b"\xef\xbb\xbf", b"\xff\xfe", b"\n" * 200000,
                b"\0" * 1048576, b"\0" * 1048577, b"a" * 1048576, b"a" * 1048577, b"#" * 1048577, b"\1" * 1048577,
                b"hazard " * 100000, b'"' * 100000, b"road 0 1\n" * 50000, jobs[0] * 20)
    header = b"".join(line + b"\n" for line in jobs[0].splitlines() if not line.startswith(b"hazard"))
    yield header + b"hazard 0 0 1 9 9 1\n" * 52000
    yield header + b"hazard right 200000 210000 5000 9000 3 #name\n" * 257
    yield header + b"stations fall\n" + b"hazard left 200000 210000 5000 9000 3 \"n\"\n" * 256
    for job in jobs[:6]:
        for encoding in ("utf-16", "utf-16-le", "utf-16-be", "utf-32"):
            yield job.decode().encode(encoding)
    for _ in range(120):
        job = bytearray(random.choice(jobs))
        for _ in range(random.randrange(1, 4)):
            at = random.randrange(len(job) + 1)
            job[at:at + random.randrange(12)] = random.choice(words)
        yield bytes(job)


def byte_jobs():
    made = []
    for path in sorted(Path("examples/jobs").glob("*.job")):
        made.append(subprocess.run([f"{FOLDER}/jobtext", str(path)], capture_output=True).stdout)
    for number in range(80):
        job = bytearray(random.choice(made))
        for _ in range(random.randrange(1, 4)):
            job[random.randrange(1, len(job))] = random.randrange(256)
        yield bytes(job[:random.randrange(1, len(job) + 1)] if number % 3 == 0 else job)
    for _ in range(20):
        yield bytes([random.randrange(1, 3)]) + bytes(random.randrange(256) for _ in range(random.randrange(300)))


def test_commands():
    """Words on the command line that are none."""
    job = Path("examples/jobs/printed.job").read_bytes()
    for words in (["-"], ["-", "-"], ["--"], ["---"], ["-p", "-p"], ["--help=1"], [""], ["", ""], ["x" * 5000], ["\n"],
                  ["\x1b[2J"], ["-\x1b[2J"], ["--stations", "\x1b"], ["--csv", "x" * 5000], ["0", "1" * 5000],
                  ["0", "99999999999999999999"], ["0", "1e3"], ["0", "nan"], ["0", "-0"], ["0+0"], ["0+000", "1+0000"],
                  ["%s%n"], ["--lots"], ["--lots", "--lots"], ["/dev/null"], ["/"], ["/dev/full"], ["é" * 100]):
        for tool in ("jobtext", "listing", "corners"):
            test([tool, *words], job)


def main():
    random.seed(20261116)
    count = 0
    with tempfile.TemporaryDirectory() as folder:
        for given in [*texts(), *byte_jobs()]:
            test_input(count, given, folder)
            count += 1
    test_commands()
    if min(seen.get(status, 0) for status in (0, 1, 2)) < 100:
        fault(f"too few of a status: {seen}", ["any"], b"")
    if faults == 0:
        print(f"hostile: {count} inputs to {len(COMMANDS)} commands in turn: statuses 0, 1 and 2 "
              f"{seen[0]}, {seen[1]} and {seen[2]} times, no signal, messages that can be read, no file harmed")
    return 1 if faults else 0


if __name__ == "__main__":
    sys.exit(main())
