"""From millimetres to the sheet: along and across have scales of their own."""
from __future__ import annotations

from dataclasses import dataclass
from typing import List, Tuple

from barrier_engine import Side

from .scene import Scene
from .svg import text_width

WIDTH = 1200.0
A3_MILLIMETRES = (420, 297)
A3_MARGIN = 36.0  # about 10 mm that printers leave white
A3_WIDTH = 1500.0  # between the margins
A3_UNIT = A3_MILLIMETRES[0] / (A3_WIDTH + 2 * A3_MARGIN)  # millimetres of paper for a unit
A3_HEIGHT = A3_MILLIMETRES[1] / A3_UNIT - 2 * A3_MARGIN
LEFT = 150.0  # what is drawn begins here, behind the margin with its words
INSET = 10.0  # between the drawing's ends and the first and last station
DEPTH = 110.0  # how deep a side is drawn
ROAD_LEAST, ROAD_MOST = 64.0, 90.0  # how wide the road is drawn


@dataclass(frozen=True)
class Frame:
    first: int
    last: int
    deepest: float  # the greatest offset drawn
    half_road: float  # the road's edges stand so far from its middle, at y = 0
    width: float  # of the sheet

    @property
    def right(self) -> float:
        """Where what is drawn ends."""
        return self.width - 20.0

    @property
    def along(self) -> float:
        """Units of the sheet for a millimetre of road."""
        return (self.right - LEFT - 2 * INSET) / (self.last - self.first)

    @property
    def across(self) -> float:
        return DEPTH / self.deepest

    def free_x(self, station: float) -> float:
        """A station's place, in the drawing or outside it."""
        share = (station - self.first) / (self.last - self.first)
        return LEFT + INSET + share * (self.right - LEFT - 2 * INSET)

    def x(self, station: float) -> float:
        """A station's place; one far outside the window is put at the drawing's end."""
        return min(max(self.free_x(station), LEFT), self.right)

    def shows(self, start: float, end: float) -> bool:
        return end > self.first and start < self.last

    def depth(self, offset: float) -> float:
        """How far from the travelled-way edge an offset is drawn."""
        return min(offset, self.deepest) / self.deepest * DEPTH

    def y(self, side: Side, offset: float) -> float:
        """Offsets go away from the road: down on the right side, up on the left."""
        return out(side) * (self.half_road + self.depth(offset))


def out(side: Side) -> int:
    return 1 if side == Side.RIGHT else -1


def frame_of(scene: Scene, width: float = WIDTH) -> Frame:
    zone = scene.header.clear_zone
    # Far offsets well beyond the clear zone are cut; corners and near edges are not.
    deepest = 1.25 * zone
    for drawn in scene.hazards:
        deepest = max(deepest, min(drawn.hazard.far_offset, 1.6 * zone))
        if drawn.corners is not None:
            deepest = max(deepest, drawn.corners.upstream.offset)
    road = 2 * scene.header.centreline / deepest * DEPTH
    first, last = scene.window
    return Frame(first, last, deepest, max(ROAD_LEAST, min(road, ROAD_MOST)) / 2, width)


def _step(frame: Frame, widest: float) -> int:
    """A round distance between stations whose labels have room."""
    step = 1
    while True:
        for factor in (1, 2, 5):
            if factor * step * frame.along >= widest + 24:
                return factor * step
        step *= 10


def stations(scene: Scene, frame: Frame, size: float) -> List[Tuple[int, str]]:
    """Round stations of the window, with their labels."""
    ends = (frame.first, frame.last)
    step = _step(frame, max(text_width(scene.station(t), size) for t in ends))
    first = -(-frame.first // step) * step
    found = range(first, frame.last + 1, step)
    # Without the decimals where they are all 0.
    return [(t, scene.station(t)[:-4] if step % 1000 == 0 else scene.station(t)) for t in found]
