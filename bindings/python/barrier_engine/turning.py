"""Driving on the left, and carriageways towards falling stations.

The engine has traffic drive on the right, and that of a one-way road travel
towards rising stations.  Where it drives on the left, sides are handed over
swapped; a carriageway towards falling stations is handed over turned round.
What comes back is swapped and turned back by the same functions: each undoes
itself.  barrier.h, "Sides and traffic", has the rules and their figures.
"""
from __future__ import annotations

from dataclasses import dataclass, replace
from typing import Tuple

from .calls import Corner
from .job import Hazard, Side
from .schedule import Run


def swap_side(side: int) -> int:
    """Right for left and left for right; a number that is no side stays."""
    if side == Side.RIGHT:
        return Side.LEFT
    return Side.RIGHT if side == Side.LEFT else side


def turn_range(begin: int, end: int, start: int, stop: int) -> Tuple[int, int]:
    """A range [start, stop) of the road [begin, end), turned round."""
    return begin + end - stop, begin + end - start


def turn_hazard(begin: int, end: int, hazard: Hazard) -> Hazard:
    """A hazard of the road [begin, end), turned round: its side too."""
    start, stop = turn_range(begin, end, hazard.start, hazard.end)
    return replace(hazard, side=swap_side(hazard.side), start=start, end=stop)


def turn_run(begin: int, end: int, run: Run) -> Run:
    """A run, turned round.  Its side is that of the schedule: swap it too."""
    start, stop = turn_range(begin, end, run.start, run.end)
    return replace(run, start=start, end=stop)


def turn_station(begin: int, end: int, station: int) -> int:
    """A station that is asked for, which names a millimetre, turned round."""
    return begin + end - 1 - station


def turn_corner(begin: int, end: int, corner: Corner) -> Corner:
    """A corner, counted from the sheet corner (0, 0): a point, not a millimetre."""
    return Corner(begin + end - corner.station, corner.offset)


def turn_overhangs(before: int, after: int) -> Tuple[int, int]:
    """The overhangs before and after change places."""
    return after, before


@dataclass(frozen=True)
class Orientation:
    """How a road's own sides and stations stand to those that the engine is given.

    Every method goes either way.
    """

    begin: int
    end: int
    drives_left: bool = False
    stations_fall: bool = False

    @property
    def swaps(self) -> bool:
        """Turning changes the sides, and so does driving on the left."""
        return self.drives_left != self.stations_fall

    def rises(self, side: int, two_way: bool) -> bool:
        """Whether the traffic beside a side of the road travels towards rising stations."""
        if not two_way:
            return not self.stations_fall
        return (side == Side.RIGHT) != self.drives_left

    def side(self, side: int) -> int:
        return swap_side(side) if self.swaps else side

    def range(self, start: int, stop: int) -> Tuple[int, int]:
        if self.stations_fall:
            return turn_range(self.begin, self.end, start, stop)
        return start, stop

    def hazard(self, hazard: Hazard) -> Hazard:
        start, stop = self.range(hazard.start, hazard.end)
        return replace(hazard, side=self.side(hazard.side), start=start, end=stop)

    def run(self, run: Run) -> Run:
        return turn_run(self.begin, self.end, run) if self.stations_fall else run

    def corner(self, corner: Corner) -> Corner:
        return turn_corner(self.begin, self.end, corner) if self.stations_fall else corner

    def overhangs(self, before: int, after: int) -> Tuple[int, int]:
        return turn_overhangs(before, after) if self.stations_fall else (before, after)
