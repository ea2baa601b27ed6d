"""A job as its road has it: both sides planned, in the road's own sides and stations.

Where a text says `drives left` or `stations fall`, the engine is given the job
swapped or turned; here all that it replies is swapped and turned back.  Nothing
is calculated that the engine can say: a hazard's envelope is what the engine
replies, with its overhangs at the road's ends.
"""
from __future__ import annotations

from dataclasses import dataclass
from typing import List, Optional, Sequence, Tuple

from .c import RANGES_MAX
from .calls import Corners, corners, plan, quantities, reach
from .job import Hazard, Header, Job, Side
from .job_text import TextJob
from .refused import Number, Refused
from .schedule import Run, Schedule, bytes_of_runs
from .turning import Orientation

LEVELS = range(1, 7)
Range = Tuple[int, int]


@dataclass(frozen=True)
class PlannedHazard:
    """A hazard under its index in the job, with what traffic makes of it."""

    index: int
    name: str  # may be empty
    hazard: Hazard
    envelope: Optional[Range]  # not cut; None where nobody reaches it
    corners: Optional[Corners]  # of the adjacent traffic's approach, from (0, 0)
    # Outside of it a withdrawal alters no level of its side; None where it alters nothing.
    stretch: Optional[Range]

    @property
    def label(self) -> str:
        return f"{self.index} {self.name}" if self.name else str(self.index)


@dataclass(frozen=True)
class PlannedSide:
    """One side of the road, with its schedule in the road's stations."""

    side: Side
    rises: bool  # the traffic beside it travels towards rising stations
    schedule: Schedule
    hazards: Tuple[PlannedHazard, ...]

    @property
    def runs(self) -> Tuple[Run, ...]:
        return self.schedule.runs

    @property
    def before(self) -> int:
        return self.schedule.before

    @property
    def after(self) -> int:
        return self.schedule.after

    @property
    def letter(self) -> str:
        return self.side.name[0]

    def amounts(self, ranges: Sequence[Range]) -> List[Tuple[int, ...]]:
        """The millimetres of each level, from 1 on, in each range."""
        columns: List[List[int]] = []
        for level in LEVELS:
            column: List[int] = []
            for first in range(0, len(ranges), RANGES_MAX):
                some = ranges[first:first + RANGES_MAX]
                column.extend(quantities(self.schedule, level, some).quantities)
            columns.append(column)
        return list(zip(*columns))


@dataclass(frozen=True)
class PlannedRoad:
    header: Header
    orientation: Orientation
    sides: Tuple[PlannedSide, PlannedSide]  # right, left

    @property
    def hazards(self) -> List[PlannedHazard]:
        """The hazards of both sides, in the job's order."""
        return sorted((h for side in self.sides for h in side.hazards), key=lambda h: h.index)


def _corners(data: bytes, index: int, lies: Orientation) -> Optional[Corners]:
    try:
        found = corners(data, index)
    except Refused as refused:
        if refused.number != Number.NO_APPROACH:
            raise
        return None
    return Corners(*[lies.corner(c) for c in (found.upstream, found.flare, found.hazard)])


def _hazard(read: TextJob, index: int, hazard: Hazard) -> PlannedHazard:
    lies, found = read.orientation, reach(read.data, index)
    name = read.names[index] if index < len(read.names) else ""
    envelope = stretch = None
    if found.envelope is not None and found.stretch is not None:
        start, end = found.envelope
        envelope = lies.range(start - found.before, end + found.after)
        stretch = lies.range(*found.stretch)
    return PlannedHazard(index, name, lies.hazard(hazard), envelope,
                         _corners(read.data, index, lies), stretch)


def _side(job: Job, read: TextJob, side: Side) -> PlannedSide:
    lies, asked = read.orientation, read.orientation.side(side)
    found = plan(read.data, asked)
    runs = sorted((lies.run(run) for run in found.runs), key=lambda run: run.start)
    before, after = lies.overhangs(found.before, found.after)
    hazards = tuple(_hazard(read, index, hazard)
                    for index, hazard in enumerate(job.hazards) if hazard.side == asked)
    rises = lies.rises(side, job.header.runout_opposite > 0)
    return PlannedSide(side, rises, Schedule(bytes_of_runs(runs), before, after), hazards)


def plan_road(read: TextJob) -> PlannedRoad:
    """Both sides of a job.  One that the engine does not accept is Refused."""
    plan(read.data, Side.RIGHT)  # the engine's refusal, before the bytes are read here
    job = Job.from_bytes(read.data)
    right, left = (_side(job, read, side) for side in Side)
    return PlannedRoad(job.header, read.orientation, (right, left))
