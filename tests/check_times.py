#!/usr/bin/env python3
"""The check's time for a list of commits: python3 tests/check_times.py COMMIT...

Each commit is checked out apart and proved from nothing, one crate after the
other in the order of their dependencies (rt all verdict --jobs 1). A crate's
figure is the user time of its own check. Prints a markdown table, a row for
each commit, and each row on standard error as it comes. Figures of one table
can be compared where nothing ran beside it: the load when a commit's check
began stands in its row. A crate that is not proved ends the script.
"""

import os
import pathlib
import re
import subprocess
import sys
import tempfile


def output(*words, **options):
    return subprocess.run(words, check=True, capture_output=True, text=True, **options).stdout


def user_seconds(process):
    """What the commands that a process has run took."""
    fields = pathlib.Path(f"/proc/{process.pid}/stat").read_text().rpartition(")")[2].split()
    return int(fields[13]) / os.sysconf("SC_CLK_TCK")


def checked(tree):
    """Crate -> seconds. What is printed of a crate comes when its check has ended."""
    seconds, said, before = {}, "", 0.0
    with subprocess.Popen(
        ["rt", "all", "verdict", "--jobs", "1"],
        cwd=tree,
        stdout=subprocess.PIPE,
        stderr=subprocess.STDOUT,
        text=True,
    ) as run:
        for line in run.stdout:
            said += line
            crate = re.fullmatch(r"== (\w+)\n", line)
            if crate and crate[1] != "summary":
                now = user_seconds(run)
                seconds[crate[1]], before = now - before, now
    if run.returncode:
        sys.exit(f"not all is proved:\n{said[-2000:]}")
    return seconds


def row(cells):
    return "| " + " | ".join(cells) + " |"


def measure(commit, folder):
    """Load, and seconds by crate, of one commit."""
    tree = pathlib.Path(folder) / "tree"
    output("git", "worktree", "add", "--detach", str(tree), commit)
    try:
        load = os.getloadavg()[0]
        return load, checked(tree)
    finally:
        output("git", "worktree", "remove", "--force", str(tree))


def main():
    commits = sys.argv[1:]
    if not commits:
        sys.exit(__doc__)
    os.chdir(output("git", "rev-parse", "--show-toplevel").strip())
    measured = []
    with tempfile.TemporaryDirectory() as folder:
        for commit in commits:
            name = output("git", "log", "-1", "--format=%h", commit).strip()
            load, seconds = measure(commit, folder)
            measured.append((name, load, seconds))
            print(name, f"load {load:.2f}", seconds, file=sys.stderr, flush=True)
    crates = list(dict.fromkeys(crate for *_, seconds in reversed(measured) for crate in seconds))
    print(row(["commit", "load"] + crates + ["all"]))
    print("|---|---:|" + "---:|" * (len(crates) + 1))
    for name, load, seconds in measured:
        figures = [f"{seconds[crate]:.0f}" if crate in seconds else "" for crate in crates]
        print(row([f"`{name}`", f"{load:.1f}"] + figures + [f"{sum(seconds.values()):.0f}"]))
    print(f"\nUser time in seconds. {output('rt', 'version').strip()}")


if __name__ == "__main__":
    main()
