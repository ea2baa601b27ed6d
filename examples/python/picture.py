#!/usr/bin/env python3
"""Draws a job as SVG: both sides of the road, with what the engine plans.

    picture.py [JOB] [-o OUT.svg] [--name NAME] [--lots STATION STATION ...]
               [--from STATION --to STATION] [--sheet METRES] [--dxf OUT.dxf]
               [--stations km] [--without HAZARD]

JOB is a file with a job's bytes or its text form (examples/README.md); - or
nothing is standard input.  Stations are metres in decimal text, like 1000.250,
or kilometres, like 1+000.250; a part below a millimetre goes to the nearest
one.  Lots go from one station to the next; lots that do not cover the road, or
go past it, are warned of on standard error.  --from and --to draw a part of a
long road, with its own tables.  --sheet draws the road in sheets of so many
metres, each an A3 page across: OUT-01.svg, OUT-02.svg and so on, and
OUT-02-2.svg where the tables of a sheet take another page.  --dxf writes the
hazards, runs and approaches as lines for a CAD program, and no picture unless
-o is given too.  --stations km writes stations as 1+000.250.  --without shades
the stretch outside which nothing alters when a hazard, by its index in the job
or by its name, is withdrawn, and says it on standard error, with the sheets to
be issued again where there are sheets; the hazard is still drawn.

Ends with 0; with 1 where the engine refuses the job, which is said on standard
error, and nothing is written; with 2 where the words are wrong, the job cannot
be read, the output not be written, or the package barrier_engine is not found.
"""
from __future__ import annotations

import argparse
import errno
import os
import stat
import sys
from dataclasses import replace
from typing import List, Optional, Tuple

import needs_package  # noqa: F401
from barrier_engine import (
    HAZARD_NUMBERS, Job, LibraryError, Malformed, Number, Refused, Rounding, TextJob,
    hazard_fault, millimetres, read_job, station_of_kilometres,
)
from barrier_engine.job_text import INPUT_MAX
from barrier_picture import (
    SHEETS_MAX, Scene, dxf, hazard_called, parts_of, picture, scene_of, sentences, sheets,
)

STATION_MAX = 1000000000000
USAGE, REFUSED = 2, 1


class OwnFile(Exception):
    """The output is the job's own file."""


def length(words: str) -> int:
    """Metres in decimal text to millimetres."""
    try:
        return millimetres(words, Rounding.NEAREST)
    except ValueError as error:
        raise argparse.ArgumentTypeError(str(error)) from None


def station(words: str) -> int:
    """A station in metres or kilometres.  What is drawn may begin below 0."""
    sign, rest = (-1, words[1:]) if words.startswith("-") else (1, words)
    found = station_of_kilometres(rest)
    return sign * (length(rest) if found is None else found)


def parser() -> argparse.ArgumentParser:
    found = argparse.ArgumentParser(
        prog="picture", description="Draws a job as SVG, and writes it as DXF.",
        epilog="Ends with 0, with 1 where the engine refuses the job, with 2 for everything else.")
    found.add_argument("job", nargs="?", default="-",
                       help="a job's bytes or text; - or nothing is standard input")
    found.add_argument("-o", "--out", help="the file to write; else standard output")
    found.add_argument("--name", help="the title; else the file's name")
    found.add_argument("--lots", nargs="+", type=station, default=[], metavar="STATION",
                       help="rising stations, between which the lots lie")
    found.add_argument("--from", dest="first", type=station, metavar="STATION",
                       help="first station drawn")
    found.add_argument("--to", dest="last", type=station, metavar="STATION",
                       help="end station drawn")
    found.add_argument("--sheet", type=length, metavar="METRES",
                       help="one A3 page for each so many metres; -o OUT.svg gives OUT-01.svg")
    found.add_argument("--dxf", metavar="FILE", help="hazards, runs and approaches for CAD")
    found.add_argument("--stations", choices=("metres", "km"), default="metres",
                       help="km: stations as 1+250.000")
    found.add_argument("--without", metavar="HAZARD",
                       help="an index or a name: shades what its withdrawal may alter")
    return found


def arguments(words: Optional[List[str]]) -> argparse.Namespace:
    asked = parser()
    found = asked.parse_args(words)
    if any(p > q for p, q in zip(found.lots, found.lots[1:])):
        asked.error("the lots' stations have to rise")
    if not all(0 <= lot <= STATION_MAX for lot in found.lots):
        asked.error("a lot's station is metres from 0 to 1000000000")
    if len(found.lots) == 1:
        asked.error("a lot has two stations")
    if (found.first is None) != (found.last is None):
        asked.error("--from and --to go together")
    if found.first is not None and found.first >= found.last:
        asked.error("--from has to be below --to")
    if found.first is not None and max(-found.first, found.last) > 2 * STATION_MAX:
        asked.error("--from and --to are metres to 2000000000")
    if found.dxf is not None and found.out is not None and (
            os.path.realpath(found.dxf) == os.path.realpath(found.out)):
        asked.error("-o and --dxf are two files")
    if found.sheet is not None and found.out is None:
        asked.error("--sheet wants -o OUT.svg: the sheets are OUT-01.svg and so on")
    if found.sheet is not None and found.sheet < 1000:
        asked.error("a sheet has at least 1 m of road")
    return found


def warnings(scene: Scene) -> List[str]:
    """What is wrong with the lots: most often their stations were millimetres."""
    if not scene.lot_stations:
        return []
    first, last = scene.lot_stations[0], scene.lot_stations[-1]
    begin, end = scene.header.begin, scene.header.end
    short = ["do not cover"] if first > begin or last < end else []
    long = ["go past"] if first < begin or last > end else []
    unit = "" if scene.in_kilometres else " (metres)"
    return [f"the lots, {scene.station(first)} to {scene.station(last)}, {how} the road, "
            f"{scene.station(begin)} to {scene.station(end)}{unit}" for how in short + long]


def say(words: str, begin: str = "picture:") -> None:
    """To standard error; where that is closed, nowhere."""
    if sys.stderr is not None:
        print(f"{begin} {words}", file=sys.stderr)


def read(path: str) -> bytes:
    """A file's bytes; of one that is too long, enough to show it."""
    if path == "-" and sys.stdin is None:
        raise OSError(errno.EBADF, os.strerror(errno.EBADF), "standard input")
    if path == "-":
        return sys.stdin.buffer.read(INPUT_MAX + 1)
    with open(path, "rb") as file:
        return file.read(INPUT_MAX + 1)


def write(job: str, path: Optional[str], text: str) -> None:
    """Writes a file, but never over the job's own, whatever link leads there."""
    if is_job(job, path):
        raise OwnFile(f"{path or 'standard output'} is the job itself and is not written over")
    if path is None and sys.stdout is None:
        raise OSError(errno.EBADF, os.strerror(errno.EBADF), "standard output")
    if path is None:
        sys.stdout.buffer.write(text.encode("utf-8"))
        sys.stdout.buffer.flush()
        return
    with open(path, "w", encoding="utf-8", newline="\n") as file:
        file.write(text)


def is_job(job: str, path: Optional[str]) -> bool:
    """Whether an output, None for standard output, is the file that the job is in."""
    try:
        mine = os.fstat(sys.stdin.fileno()) if job == "-" else os.stat(job)
        other = os.fstat(sys.stdout.fileno()) if path is None else os.stat(path)
        return stat.S_ISREG(mine.st_mode) and os.path.samestat(mine, other)
    except (OSError, ValueError, AttributeError):  # a closed stream is None
        return False


def say_hazard(refused: Refused, read: TextJob) -> None:
    """Refusals 4 and 5 have a hazard's index: which of its numbers it is, and what the
    text calls it."""
    try:
        job = Job.from_bytes(read.data)
    except Malformed:
        return
    index = refused.value
    if index >= len(job.hazards):
        return
    hazard = read.orientation.hazard(job.hazards[index])
    fault = hazard_fault(job.header.begin, job.header.end, hazard)
    if refused.number == Number.HAZARD_RANGE and fault is not None:
        name, may_be = HAZARD_NUMBERS[fault]
        say(f"{name} of hazard {index} may be {may_be}", "")
    if index < len(read.lines):
        called = f"is {read.names[index]}," if read.names[index] else "is in"
        say(f"hazard {index} {called} line {read.lines[index]}", "")


def say_refusal(refused: Refused, read: Optional[TextJob]) -> None:
    """What is wrong, and what can be done."""
    say(f"the job is refused {refused.number} with {refused.value}: {refused.reason}")
    say(refused.remedy, "")
    if read is not None and refused.number in (Number.HAZARD_RANGE, Number.HAZARD_NEAR):
        say_hazard(refused, read)


def outputs(asked: argparse.Namespace, scene: Scene, name: str) -> None:
    """Writes what was asked for."""
    if asked.dxf is not None:
        write(asked.job, asked.dxf, dxf(scene))
    if asked.sheet is not None:
        stem, ending = os.path.splitext(asked.out)
        for number, text in sheets(scene, name, asked.sheet):
            write(asked.job, f"{stem}-{number}{ending or '.svg'}", text)
    elif asked.out is not None or asked.dxf is None:
        write(asked.job, asked.out, picture(scene, name))


def draw(asked: argparse.Namespace, job: TextJob) -> int:
    window: Optional[Tuple[int, int]] = None if asked.first is None else (asked.first, asked.last)
    name = asked.name or ("A job" if asked.job == "-" else os.path.basename(asked.job))
    scene = scene_of(job, asked.lots, window, asked.stations == "km")
    if asked.without is not None:
        scene = replace(scene, without=hazard_called(scene.hazards, asked.without))
    parts = None if asked.sheet is None else parts_of(scene, asked.sheet)
    if parts is not None and len(parts) > SHEETS_MAX:
        say(f"that would be more than {SHEETS_MAX} sheets: ask for longer ones, or for a part of "
            "the road with --from and --to")
        return USAGE
    if parts is not None and not parts:
        say("no part of the road lies between --from and --to")
        return USAGE
    for warning in warnings(scene):
        say(f"warning: {warning}")
    outputs(asked, scene, name)
    for sentence in sentences(scene, parts):
        say(sentence[0].lower() + sentence[1:].rstrip("."))
    return 0


def main(words: Optional[List[str]] = None) -> int:
    asked = arguments(words)
    job: Optional[TextJob] = None
    try:
        job = read_job(read(asked.job))
        return draw(asked, job)
    except Refused as refused:
        say_refusal(refused, job)
        return REFUSED
    except (Malformed, LibraryError, OwnFile, ValueError) as error:
        say(str(error))
    except BrokenPipeError:
        sys.stderr.close()  # who read the output has gone
    except OSError as error:
        say(f"{error.filename or 'standard output'}: {error.strerror}")
    return USAGE


if __name__ == "__main__":
    if sys.stderr is not None:
        # A name in letters that the terminal does not have is shown all the same.
        sys.stderr.reconfigure(errors="backslashreplace")  # type: ignore[attr-defined]
    sys.exit(main())
