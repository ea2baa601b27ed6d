#!/usr/bin/env python3
"""A controller's day: a job is opened, hazards come as the rod reaches them, one
is refused, a variant is tried and taken back, and the office gets its schedule,
quantities, panels and corner points.

    pip install ./bindings/python
    python3 examples/python/day.py

The rod reads metres; the engine takes whole millimetres.  A hazard's first
station and near offset are rounded down, its end station and far offset up, so
that what is planned is never smaller than what was measured.
"""
from __future__ import annotations

import sys
from typing import List, Sequence, Tuple

import needs_package  # noqa: F401
import barrier_engine as engine
from barrier_engine import Hazard, Header, OpenJob, Reach, Refused, Rounding, Schedule, Side

# A two-way kilometre; approaches in whole panels of 4 m, gaps below 30 m closed.
HEADER = Header(
    begin=0, end=1000000, runout_forward=101000, runout_opposite=101000, clear_zone=9000,
    centreline=3500, barrier_offset=3000, deflection=1000, flare_along=15, flare_across=1,
    straight=13340, continuity=30000, panel=4000)

# The contract's lots end where these stations are.
LOT_STATIONS = (0, 180000, 400000, 700000, 1000000)

# The panel lengths that the yard stocks.  The shortest first: of layouts with the
# same overrun the first that is tried wins, and has fewer of the short ones.
YARD = (2500, 4000)

# The numbers under which hazards stand are those of their drawings.
HEADWALL, CULVERT, PIER, TREE = 7, 1020, 1021, 1044
MORNING = 0  # the state number under which the morning's work is kept


def measured(side: Side, first: str, end: str, near: str, far: str, level: int) -> Hazard:
    """A hazard from the rod's metres."""
    down, up = Rounding.DOWN, Rounding.UP
    return Hazard(
        side, engine.millimetres(first, down), engine.millimetres(end, up),
        engine.millimetres(near, down), engine.millimetres(far, up), level)


def show_schedule(job: OpenJob) -> None:
    for side in Side:
        schedule = job.schedule(side)
        for run in schedule.runs:
            print(f"    {side.name.lower():5} {engine.metres(run.start):>8} to "
                  f"{engine.metres(run.end):>8} m  NC-{run.level}  {engine.metres(run.length):>8} m")
        show_overhang(side, schedule)


def show_overhang(side: Side, schedule: Schedule) -> None:
    """What stands in the neighbouring contract is in no run: it is said apart."""
    for length, end in ((schedule.before, "beginning"), (schedule.after, "end")):
        if length > 0:
            print(f"    {side.name.lower():5} extends {engine.metres(length)} m past the {end} of "
                  "the road (neighbouring contract)")


def add(job: OpenJob, name: int, what: str, hazard: Hazard) -> None:
    """Adds a hazard; a refusal is for the crew to read, and the job stays as it was."""
    try:
        job.add(name, hazard)
    except Refused as refused:
        print(f"  {what}, drawing {name}: refused {refused.number}")
        print(f"    {refused.message}")
    else:
        print(f"  {what}, drawing {name}: added, {hazard.start} to {hazard.end} mm")


def morning(job: OpenJob) -> None:
    print("Morning: the rod moves along the road")
    add(job, HEADWALL, "headwall", measured(Side.RIGHT, "200", "210.0", "5.0", "9.0", 3))
    add(job, CULVERT, "culvert", measured(Side.RIGHT, "260.1234", "263.8766", "5.2", "7.75", 2))
    add(job, PIER, "pier", measured(Side.LEFT, "640", "642.5", "4.5", "6.5", 4))
    # The rod slipped: nearer than barrier offset and deflection, 4 m, allow.
    add(job, TREE, "tree", measured(Side.LEFT, "985", "985.6", "3.9996", "4.6", 1))
    add(job, TREE, "tree, measured again", measured(Side.LEFT, "985", "985.6", "4.2", "4.8", 1))
    add(job, HEADWALL, "headwall, a second time", job.hazards[HEADWALL])
    show_schedule(job)


def show_reach(name: int, found: Reach) -> None:
    """Which sheets the office has to issue again: those that have any of the stretch."""
    if found.stretch is None:
        print(f"  without drawing {name} nothing changes: nobody reaches it")
    else:
        start, end = (engine.metres(station) for station in found.stretch)
        print(f"  without drawing {name} only the {found.side.name.lower()} side may change, "
              f"{start} to {end} m")


def variant(job: OpenJob) -> None:
    print("Noon: what if the culvert were piped and the tree felled?")
    job.keep(MORNING)
    for name in (CULVERT, TREE):
        show_reach(name, job.reach(name))
        job.withdraw(name)
    show_schedule(job)
    job.return_to(MORNING)
    print(f"  taken back; standing: {', '.join(str(name) for name in job.hazards)}")


def underfoot(job: OpenJob, stations: Sequence[str]) -> None:
    print("Afternoon: the level under the inspector's feet")
    standing = job.job()
    for text in stations:
        station = engine.millimetres(text)
        here = [engine.level(standing, side, station) for side in Side]
        words = [f"NC-{level}" if level else "none" for level in here]
        print(f"  {text:>8} m: right {words[0]}, left {words[1]}")


def lots() -> List[Tuple[int, int]]:
    return list(zip(LOT_STATIONS, LOT_STATIONS[1:]))


def quantities(job: OpenJob) -> None:
    print("The contract's lots, in millimetres")
    for side in Side:
        schedule = job.schedule(side)
        for level in sorted({run.level for run in schedule.runs}):
            found = engine.quantities(schedule, level, lots()).quantities
            whole = engine.quantity(schedule, level, LOT_STATIONS[0], LOT_STATIONS[-1])
            cells = " ".join(f"{length:>7}" for length in found)
            print(f"  {side.name.lower():5} NC-{level} {cells}  together {sum(found)}, road {whole}")


def panels(job: OpenJob) -> None:
    run = job.schedule(Side.RIGHT).runs[0]
    print(f"Panels of {' and '.join(str(length) for length in YARD)} mm for {run.length} mm")
    for limit in (95, engine.TRIES_MAX):
        found = engine.layout(YARD, run.length, limit)
        laid = "no layout covers it" if found.laid is None else (
            f"{found.laid.counts[0]} and {found.laid.counts[1]}, {found.laid.overrun} mm over")
        print(f"  at most {limit} tries: {laid}; {found.tries} tries, floor {found.floor}")


def corner_points(job: OpenJob) -> None:
    print("Corner points for the drawing, from sheet corner (0, 0), in millimetres")
    standing = job.job()
    # The job has the hazards in the order of their names.
    for index, name in enumerate(job.hazards):
        found = engine.corners(standing, index)
        points = [f"({corner.station:.0f}, {corner.offset:.0f})"
                  for corner in (found.upstream, found.flare, found.hazard)]
        print(f"  drawing {name}: {' '.join(points)}")


def gate(job: OpenJob) -> None:
    longest = 40000
    found = engine.offset(job.job(), 0, longest)
    print(f"A gate {longest} mm before the headwall")
    print(f"  smallest barrier offset that keeps it clear: "
          f"{'none' if found is None else f'{found} mm'}")


def main() -> int:
    job = OpenJob(HEADER)
    print(f"Opened: {engine.metres(HEADER.begin)} to {engine.metres(HEADER.end)} m")
    morning(job)
    variant(job)
    underfoot(job, ("151.999", "152", "209.999", "300", "642.5", "1000"))
    print("Evening: the schedule")
    show_schedule(job)
    quantities(job)
    panels(job)
    corner_points(job)
    gate(job)
    return 0


if __name__ == "__main__":
    try:
        sys.exit(main())
    except engine.LibraryError as error:
        sys.exit(f"day: {error}")
