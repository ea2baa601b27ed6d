#!/usr/bin/env python3
"""rt ci, the last act of `make test`.

What it prints goes on as it comes, and its last line, how many passed and failed, stays the last. This fails where rt ci fails, where rt ci passes and tells of bad
must-fail edits (an edit that cannot be applied or compiled shows nothing, and rt ci alone lets it pass), and where rt ci does not say in its own words that all passed.
"""

import re
import subprocess
import sys

OK = re.compile(r"rt: ok;.* must-fail edits: ([0-9]+ refused[^;]*)")
BAD = re.compile(r"\b([1-9][0-9]*) bad\b")
PASSED = re.compile(r"[1-9][0-9]* passed, 0 failed\n?")


def main():
    print("rt ci", flush=True)
    last, said = "", []
    with subprocess.Popen(["rt", "ci"], stdout=subprocess.PIPE, stderr=subprocess.STDOUT, encoding="utf-8", errors="replace") as run:
        for line in run.stdout:
            print(last, end="", flush=True)
            last = line
            said += OK.findall(line)
    fault = None
    if not run.returncode:
        if len(said) != 1 or not PASSED.fullmatch(last):
            fault = "rt ci does not say that all passed"
        elif BAD.search(said[0]):
            fault = f"{BAD.search(said[0])[1]} must-fail edits are bad, as rt ci tells above: mend them"
    if fault:
        print(f"ci: {fault}")
    print(last, end="", flush=True)
    return run.returncode or int(bool(fault))


if __name__ == "__main__":
    sys.exit(main())
