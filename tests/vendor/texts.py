#!/usr/bin/env python3
"""The text form of a job through the programs in C: tests/vendor/texts.txt, word for word.

    texts.py FOLDER

FOLDER has jobtext, listing and corners.  Ends with 1 where one of them says
something else, prints something beside it, or ends with another status.
"""
import re
import subprocess
import sys
from pathlib import Path

HEADER = (b"road 0 1000000\nrunout-forward 101000\nrunout-opposite 0\nclear-zone 9000\n"
          b"centreline 0\nbarrier-offset 3000\ndeflection 1000\nflare 15 1\nstraight 13340\n"
          b"continuity 0\n")
ESCAPES = {b"n": b"\n", b"t": b"\t", b"r": b"\r", b"\\": b"\\"}


def unescaped(text: bytes) -> bytes:
    def one(match: "re.Match[bytes]") -> bytes:
        mark = match.group(1)
        return bytes([int(mark[1:], 16)]) if mark[:1] == b"x" else ESCAPES[mark]
    return re.sub(rb"\\(x[0-9a-f]{2}|[ntr\\])", one, text.replace(b"%H", HEADER))


def cases():
    """Each message, empty where the text is read, and the text."""
    for line in Path(__file__).with_name("texts.txt").read_bytes().splitlines():
        if not line.startswith(b"##"):
            message, text = line.split(b"\t")
            yield message.decode("utf-8"), unescaped(text)


def wrong(tool: str, said: subprocess.CompletedProcess, message: str) -> bool:
    """Whether a program does something else with a text than what is written."""
    if message == "":
        return tool == "jobtext" and (said.returncode != 0 or said.stderr != b"")
    wanted = f"{tool}: {message}\n".encode("utf-8")
    return said.returncode != 2 or said.stderr != wanted or said.stdout != b""


def main(folder: str) -> int:
    count = faults = 0
    for message, text in cases():
        count += 1
        for tool in ("jobtext", "listing", "corners"):
            said = subprocess.run([f"{folder}/{tool}"], input=text, capture_output=True, timeout=60)
            if wrong(tool, said, message):
                faults += 1
                print(f"texts: {tool} of {text[-60:]!r}: wanted {message!r}, "
                      f"said {said.returncode} {said.stderr[:200]!r}", file=sys.stderr)
    if faults == 0:
        print(f"texts: {count} texts read, or reported with line and column, word for word, by three programs")
    return 1 if faults else 0


if __name__ == "__main__":
    sys.exit(main(sys.argv[1]))
