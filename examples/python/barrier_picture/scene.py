"""What is drawn: a planned road, a window on it and its lots.

Stations are whole millimetres; sides and stations are the road's own.
"""
from __future__ import annotations

from dataclasses import dataclass, replace
from typing import List, Optional, Sequence, Tuple

from barrier_engine import (
    Header, Orientation, PlannedHazard, PlannedRoad, PlannedSide, Side, TextJob, kilometres,
    metres, plan_road,
)
from barrier_engine.planned import LEVELS, Range

Amounts = Tuple[Tuple[int, ...], ...]  # millimetres by side, then by level from 1


@dataclass(frozen=True)
class Lot:
    """A lot [start, end), and its millimetres of each level on each side."""

    number: int  # from 1
    start: int
    end: int
    amounts: Amounts


@dataclass(frozen=True)
class Scene:
    road: PlannedRoad
    lot_stations: Tuple[int, ...]
    window: Range  # the first and the end station drawn
    in_kilometres: bool = False
    without: Optional[PlannedHazard] = None  # to be withdrawn: what that may alter is shaded

    @property
    def header(self) -> Header:
        return self.road.header

    @property
    def orientation(self) -> Orientation:
        return self.road.orientation

    @property
    def sides(self) -> Tuple[PlannedSide, PlannedSide]:
        return self.road.sides

    @property
    def hazards(self) -> List[PlannedHazard]:
        return self.road.hazards

    @property
    def two_way(self) -> bool:
        return self.header.runout_opposite > 0

    def station(self, station: int) -> str:
        return kilometres(station) if self.in_kilometres else metres(station)

    @property
    def part(self) -> Range:
        """What of the road is drawn; empty where the window lies outside it."""
        begin, end = self.header.begin, self.header.end
        first = min(max(self.window[0], begin), end)
        return first, max(first, min(self.window[1], end))

    @property
    def is_part(self) -> bool:
        return self.part != (self.header.begin, self.header.end)

    def stretch_of(self, side: Side) -> Optional[Range]:
        """Where a withdrawal may alter levels of a side, if it may."""
        drawn = self.without
        return None if drawn is None or drawn.hazard.side != side else drawn.stretch

    def within(self, window: Range) -> Scene:
        return replace(self, window=window)

    def lots(self) -> Tuple[Lot, ...]:
        """The lots, or what of them lies in the part that is drawn."""
        first, last = self.part
        whole = list(zip(self.lot_stations, self.lot_stations[1:]))
        found = [(i, p, q) for i, (p, q) in enumerate(whole, 1)]
        if self.is_part:
            found = [(i, max(p, first), min(q, last)) for i, p, q in found if p < last and q > first]
        amounts = self.amounts([(p, q) for _, p, q in found])
        return tuple(Lot(i, p, q, amount) for (i, p, q), amount in zip(found, amounts))

    def amounts(self, ranges: Sequence[Range]) -> List[Amounts]:
        """The millimetres of each side and level in each range."""
        by_side = [side.amounts(ranges) for side in self.sides]
        return [tuple(of_side[i] for of_side in by_side) for i in range(len(ranges))]


def sum_of(parts: Sequence[Amounts]) -> Amounts:
    """Amounts added up."""
    return tuple(tuple(sum(part[side][i] for part in parts) for i in range(len(LEVELS)))
                 for side in range(2))


def less(whole: Amounts, part: Amounts) -> Amounts:
    return tuple(tuple(a - b for a, b in zip(one, two)) for one, two in zip(whole, part))


def scene_of(
    job: TextJob, lot_stations: Sequence[int] = (), window: Optional[Range] = None,
    in_kilometres: bool = False,
) -> Scene:
    """The scene of a job.  One that the engine does not accept is Refused.

    lot_stations rise; a lot goes from one to the next.  The window is the whole
    road with its overhangs, unless one is given.
    """
    road = plan_road(job)
    right, left = road.sides
    if window is None:
        window = (road.header.begin - max(right.before, left.before),
                  road.header.end + max(right.after, left.after))
    return Scene(road, tuple(lot_stations), window, in_kilometres)
