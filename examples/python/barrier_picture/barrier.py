"""Where the barrier of a schedule stands in the plan view.

Runs that touch make one barrier.  It stands at the barrier offset M, and bends
away at its upstream end as the approach does that begins it: through the corner
points of that approach's hazard.  Corner points are those of a hazard as if it
stood alone: inside a barrier no approach bends away.
"""
from __future__ import annotations

from dataclasses import dataclass
from typing import List, Optional, Sequence, Tuple

from barrier_engine import Corners, PlannedHazard, PlannedSide, Run

from .scene import Scene

Point = Tuple[float, float]  # a station and an offset


@dataclass(frozen=True)
class Barrier:
    """Runs that touch, with their numbers from 1, and the line of their barrier."""

    runs: Tuple[Tuple[int, Run], ...]
    points: Tuple[Point, ...]  # by rising stations
    begun_by: Optional[PlannedHazard] = None  # the hazard whose approach begins it
    hazards: int = 0  # how many have their approaches in it
    flared: bool = False  # it bends away at its upstream end
    unflared: bool = False  # it does not, since another hazard needs straight barrier there

    @property
    def start(self) -> int:
        return self.runs[0][1].start

    @property
    def end(self) -> int:
        return self.runs[-1][1].end

    def line(self, start: float, end: float) -> List[Point]:
        """What of the line lies between two stations."""
        return cut(self.points, start, end)


def cut(points: Sequence[Point], start: float, end: float) -> List[Point]:
    """The part of a line, whose stations rise, between two stations."""
    found: List[Point] = []
    for (x1, y1), (x2, y2) in zip(points, points[1:]):
        low, high = max(x1, start), min(x2, end)
        if low >= high:
            continue
        for x in (low, high):
            point = (x, y1 + (y2 - y1) * (x - x1) / (x2 - x1))
            if not found or found[-1] != point:
                found.append(point)
    return found


def _touching(runs: Sequence[Run]) -> List[List[Tuple[int, Run]]]:
    groups: List[List[Tuple[int, Run]]] = []
    for number, run in enumerate(runs, 1):
        if groups and groups[-1][-1][1].end == run.start:
            groups[-1].append((number, run))
        else:
            groups.append([(number, run)])
    return groups


def _members(
    planned: PlannedSide, start: int, end: int
) -> List[Tuple[PlannedHazard, Corners]]:
    """The hazards whose envelopes are in a barrier, with their corners."""
    return [(d, d.corners) for d in planned.hazards if d.corners is not None
            and d.envelope is not None and d.envelope[0] < end and d.envelope[1] > start]


def _barrier(scene: Scene, planned: PlannedSide, runs: List[Tuple[int, Run]]) -> Barrier:
    start, end = runs[0][1].start, runs[-1][1].end
    base = scene.header.barrier_offset
    way = 1 if planned.rises else -1  # times a station: what is upstream is less
    members = _members(planned, start, end)
    straight: Tuple[Point, ...] = ((start, base), (end, base))
    if not members:
        return Barrier(tuple(runs), straight)
    # Nearest to the traffic, and of several the one that is straight the longest.
    begun_by, corners = min(
        members, key=lambda m: (way * m[1].upstream.station, way * m[1].flare.station))
    if corners.upstream.offset == base:
        return Barrier(tuple(runs), straight, begun_by, len(members))
    if any(way * others.flare.station < way * corners.flare.station for _, others in members):
        return Barrier(tuple(runs), straight, begun_by, len(members), unflared=True)
    line: List[Point] = [corners.upstream, corners.flare, (end if planned.rises else start, base)]
    return Barrier(tuple(runs), tuple(sorted(line)), begun_by, len(members), flared=True)


def barriers_of(scene: Scene, planned: PlannedSide) -> List[Barrier]:
    """The barriers of one side, by rising stations."""
    return [_barrier(scene, planned, runs) for runs in _touching(planned.runs)]
