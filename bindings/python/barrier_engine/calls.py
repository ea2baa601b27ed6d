"""The engine's calls on jobs and schedules.  barrier.h is their manual.

Stations, lengths and offsets are whole millimetres; a range [p, q) has the
millimetres p to q - 1.  A refusal is raised as Refused.  A number that is below
0 or does not fit into 64 bits is a ValueError, before the engine is asked.

Every call may be made on any thread at any time.
"""
from __future__ import annotations

import ctypes
from dataclasses import dataclass
from typing import Any, List, NamedTuple, Optional, Sequence, Tuple

from . import c
from .job import JobLike, Side, job_bytes
from .refused import refuse_unless_done
from .schedule import SCHEDULE_MAX, Schedule, ScheduleLike, schedule_bytes

TRIES_MAX = 65536


class Version(NamedTuple):
    major: int
    minor: int
    patch: int


@dataclass(frozen=True)
class Written:
    """How a schedule was written to a lent output: its first `written` bytes."""

    written: int
    before: int  # overhang before the road, in millimetres
    after: int  # overhang after the road, in millimetres


class Corner(NamedTuple):
    """A corner point, counted from the sheet corner: whole millimetres, exact."""

    station: float
    offset: float


@dataclass(frozen=True)
class Corners:
    """The corners of an approach; flare repeats upstream where nothing flares."""

    upstream: Corner
    flare: Corner
    hazard: Corner


@dataclass(frozen=True)
class Reach:
    """What traffic makes of a hazard, and how far its withdrawal reaches.

    envelope is [start, end), cut at the road's ends; outside of stretch, a range
    too, a withdrawal alters no level of that side, and on the other side nothing
    anywhere.  Both are None where nobody reaches the hazard: nothing alters.
    """

    side: Side
    envelope: Optional[Tuple[int, int]]
    before: int  # its own overhang before the road, in millimetres
    after: int  # its own overhang after the road, in millimetres
    stretch: Optional[Tuple[int, int]]


@dataclass(frozen=True)
class Record:
    """The bytes [start, end) of the asked side's schedule."""

    start: int
    end: int


@dataclass(frozen=True)
class Quantities:
    """The millimetres of each range, in their order, and the records read."""

    records: int
    quantities: Tuple[int, ...]


@dataclass(frozen=True)
class Laid:
    """A layout that covers its run: panels of each length, and the overrun."""

    counts: Tuple[int, ...]
    overrun: int


@dataclass(frozen=True)
class Layout:
    """What layout found; laid is None where no layout that was tried covers."""

    laid: Optional[Laid]
    tries: int
    floor: int  # no covering layout overruns by less, in millimetres


def version() -> Optional[Version]:
    """The library's version; None where it is too old to say."""
    number = c.version_number(c.library())
    if number is None:
        return None
    return Version(number // 1000000, number // 1000 % 1000, number % 1000)


def lent(out: bytearray) -> Any:
    """A lent output as the call takes it.  None where there is no byte of it."""
    if len(out) == 0:
        return None
    return (ctypes.c_uint8 * len(out)).from_buffer(out)


def written(reply: Any, call: str) -> Written:
    refuse_unless_done(reply.number, reply.value, call)
    return Written(reply.value, reply.before, reply.after)


def plan_into(job: JobLike, side: int, out: bytearray) -> Written:
    """Writes the schedule of one side to the start of an output of yours.

    The bytes after it stay as they were; after a refusal all of them do.
    """
    data = job_bytes(job)
    reply = c.library().barrier_plan(
        data, len(data), c.u64(side, "a side"), lent(out), len(out))
    return written(reply, "barrier_plan")


def plan(job: JobLike, side: int) -> Schedule:
    """The schedule of one side of a job, with its overhangs."""
    out = bytearray(SCHEDULE_MAX)
    done = plan_into(job, side, out)
    return Schedule(bytes(out[: done.written]), done.before, done.after)


def level(job: JobLike, side: int, station: int) -> int:
    """The level that one side requires at a station, 1 to 6; 0 where none is.

    It comes directly from the hazards.  Outside the road it is 0.
    """
    data = job_bytes(job)
    reply = c.library().barrier_level(
        data, len(data), c.u64(side, "a side"), c.u64(station, "a station"))
    refuse_unless_done(reply.number, reply.value, "barrier_level")
    return int(reply.value)


def _corner(corner: Any) -> Corner:
    return Corner(corner.station, corner.offset)


def corners(
    job: JobLike, hazard: int, sheet_station: int = 0, sheet_offset: int = 0
) -> Corners:
    """The corners of the adjacent traffic's approach to a hazard, by its index.

    They are not cut at the road's ends, so a station may be negative.
    """
    data = job_bytes(job)
    reply = c.library().barrier_corners(
        data, len(data), c.u64(hazard, "a hazard's index"),
        c.u64(sheet_station, "a sheet corner"), c.u64(sheet_offset, "a sheet corner"))
    refuse_unless_done(reply.number, reply.value, "barrier_corners")
    return Corners(_corner(reply.upstream), _corner(reply.flare), _corner(reply.hazard))


def offset(job: JobLike, hazard: int, longest: int) -> Optional[int]:
    """The smallest barrier offset M, 0 to 20000, with which the adjacent approach
    to a hazard is no longer than wanted; None where there is none.

    Other hazards do not count: one that stands nearer may then be refused 5.
    """
    data = job_bytes(job)
    reply = c.library().barrier_offset(
        data, len(data), c.u64(hazard, "a hazard's index"), c.u64(longest, "a longest approach"))
    refuse_unless_done(reply.number, reply.value, "barrier_offset")
    return int(reply.value) if reply.found else None


def reached(reply: Any, call: str) -> Reach:
    refuse_unless_done(reply.number, reply.value, call)
    side = Side(reply.side)
    if reply.end == 0:  # an envelope has at least the hazard, so there is none
        return Reach(side, None, 0, 0, None)
    return Reach(side, (reply.start, reply.end), reply.before, reply.after,
                 (getattr(reply, "from"), reply.to))


def reach(job: JobLike, hazard: int) -> Reach:
    """The envelope of a hazard, by its index, and how far its withdrawal reaches."""
    data = job_bytes(job)
    reply = c.library().barrier_reach(data, len(data), c.u64(hazard, "a hazard's index"))
    return reached(reply, "barrier_reach")


def quantity(schedule: ScheduleLike, level: int, p: int, q: int) -> int:
    """How many millimetres of [p, q) have exactly that level."""
    data = schedule_bytes(schedule)
    reply = c.library().barrier_quantity(
        data, len(data), c.u64(level, "a level"), c.u64(p, "a station"), c.u64(q, "a station"))
    refuse_unless_done(reply.number, reply.value, "barrier_quantity")
    return int(reply.value)


def quantities(
    schedule: ScheduleLike, level: int, ranges: Sequence[Tuple[int, int]]
) -> Quantities:
    """The quantities of up to 64 ranges (p, q), which may overlap, in one walk."""
    data = schedule_bytes(schedule)
    row: List[int] = []
    for p, q in ranges:
        row.extend((p, q))
    reply = c.library().barrier_quantities(
        data, len(data), c.u64(level, "a level"), c.numbers(row, "a station"), len(row))
    refuse_unless_done(reply.number, reply.value, "barrier_quantities")
    return Quantities(reply.records, tuple(reply.quantities[: len(row) // 2]))


def lookup(
    right: ScheduleLike, left: ScheduleLike, side: int, station: int
) -> Optional[Record]:
    """Where the record of the run at a station is, in the asked side's schedule.

    None where no run has the station.  The other side's schedule is not read.
    """
    rights, lefts = schedule_bytes(right), schedule_bytes(left)
    reply = c.library().barrier_lookup(
        rights, len(rights), lefts, len(lefts),
        c.u64(side, "a side"), c.u64(station, "a station"))
    refuse_unless_done(reply.number, 0, "barrier_lookup")
    return Record(reply.start, reply.end) if reply.found else None


def layout(lengths: Sequence[int], run: int, limit: int = TRIES_MAX) -> Layout:
    """The panels of a yard for one run, with the smallest overrun among the tries.

    One to four lengths, each 1 to 20000; the limit of 65536 tries all layouts.
    """
    row = list(lengths)
    reply = c.library().barrier_layout(
        c.numbers(row, "a panel length"), len(row),
        c.u64(run, "a run's length"), c.u64(limit, "a limit"))
    refuse_unless_done(reply.number, reply.value, "barrier_layout")
    laid = Laid(tuple(reply.counts[: len(row)]), reply.overrun) if reply.found else None
    return Layout(laid, reply.tries, reply.floor)
