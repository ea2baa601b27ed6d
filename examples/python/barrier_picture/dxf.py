"""A job as DXF: hazards, runs and approaches as lines, for a CAD program.

The form is ASCII DXF of release 12, which every CAD program reads.  One unit is
a metre: x is the station, y the offset from the centreline, the left side up.
Layers are by what a line stands for and by level: HAZARD-NC-3, RUN-NC-3,
APPROACH-NC-3; a hazard outside the clear zone is on HAZARD-OUTSIDE.  Labels are
on HAZARD-NUMBERS and RUN-NUMBERS, the road's edges and ends on ROAD.
"""
from __future__ import annotations

from typing import Dict, List, Sequence, Tuple

from barrier_engine import PlannedHazard, PlannedSide, Side, metres
from barrier_engine.planned import LEVELS

from .barrier import Point, barriers_of
from .scene import Scene

# Colours of AutoCAD's index: levels from yellow to violet, as on the sheets.
_LEVEL_COLOUR = {1: 2, 2: 40, 3: 30, 4: 1, 5: 220, 6: 200}
TEXT_HEIGHT = 800  # millimetres


def _layers() -> Dict[str, int]:
    """Each layer's colour."""
    found = {"ROAD": 8, "HAZARD-OUTSIDE": 9, "HAZARD-NUMBERS": 7, "RUN-NUMBERS": 7}
    for kind in ("HAZARD", "RUN", "APPROACH"):
        for level in LEVELS:
            found[f"{kind}-NC-{level}"] = _LEVEL_COLOUR[level]
    return found


class _File:
    """Groups of a DXF file: a code and its value, each on a line."""

    def __init__(self) -> None:
        self.rows: List[str] = []

    def group(self, code: int, value: str) -> None:
        self.rows += [str(code), value]

    def groups(self, *pairs: Tuple[int, str]) -> None:
        for code, value in pairs:
            self.group(code, value)


class _Drawing:
    """Entities in the road's own stations and sides."""

    def __init__(self, scene: Scene) -> None:
        self.scene, self.file = scene, _File()

    def _y(self, side: Side, offset: float, raised: int = 0) -> str:
        """Where an offset lies, the left side being up, and so far above."""
        across = round(self.scene.header.centreline + offset)
        return metres((across if side == Side.LEFT else -across) + raised)

    def line(self, layer: str, side: Side, points: Sequence[Point]) -> None:
        for (x1, y1), (x2, y2) in zip(points, points[1:]):
            self.file.groups(
                (0, "LINE"), (8, layer),
                (10, metres(round(x1))), (20, self._y(side, y1)), (30, "0.0"),
                (11, metres(round(x2))), (21, self._y(side, y2)), (31, "0.0"))

    def text(
        self, layer: str, side: Side, station: float, offset: float, raised: int, words: str
    ) -> None:
        """A label whose foot is so far above an offset."""
        self.file.groups(
            (0, "TEXT"), (8, layer), (10, metres(round(station))),
            (20, self._y(side, offset, raised)), (30, "0.0"), (40, metres(TEXT_HEIGHT)),
            (1, _plain(words)))

    def road(self) -> None:
        begin, end = self.scene.header.begin, self.scene.header.end
        for side in Side:
            self.line("ROAD", side, [(begin, 0), (end, 0)])
            for station in (begin, end):
                self.line("ROAD", side, [(station, 0), (station, self.scene.header.clear_zone)])

    def hazard(self, planned: PlannedSide, drawn: PlannedHazard) -> None:
        h = drawn.hazard
        layer = "HAZARD-OUTSIDE" if drawn.envelope is None else f"HAZARD-NC-{h.level}"
        corners = [(h.start, h.near_offset), (h.end, h.near_offset), (h.end, h.far_offset),
                   (h.start, h.far_offset), (h.start, h.near_offset)]
        self.line(layer, planned.side, corners)
        # Behind the hazard, as seen from the road.
        raised = TEXT_HEIGHT // 2 if planned.side == Side.LEFT else -TEXT_HEIGHT * 3 // 2
        self.text("HAZARD-NUMBERS", planned.side, h.start, h.far_offset, raised, drawn.label)

    def approach(self, planned: PlannedSide, drawn: PlannedHazard) -> None:
        """The approaches of one hazard as if it stood alone."""
        if drawn.corners is None or drawn.envelope is None:
            return
        layer, base = f"APPROACH-NC-{drawn.hazard.level}", self.scene.header.barrier_offset
        corners = [drawn.corners.upstream, drawn.corners.flare, drawn.corners.hazard]
        distinct = [c for i, c in enumerate(corners) if i == 0 or c != corners[i - 1]]
        self.line(layer, planned.side, distinct)
        other, behind = (drawn.hazard.end, drawn.envelope[1]) if planned.rises else (
            drawn.hazard.start, drawn.envelope[0])
        if behind != other:
            self.line(layer, planned.side, [(other, base), (behind, base)])

    def runs(self, planned: PlannedSide) -> None:
        for barrier in barriers_of(self.scene, planned):
            for number, run in barrier.runs:
                points = barrier.line(run.start, run.end)
                self.line(f"RUN-NC-{run.level}", planned.side, points)
                # Between the road's edge and the barrier.
                middle, half_way = (run.start + run.end) / 2, self.scene.header.barrier_offset / 2
                self.text("RUN-NUMBERS", planned.side, middle, half_way, -TEXT_HEIGHT // 2,
                          f"{planned.letter}{number} NC-{run.level}")


def _plain(words: str) -> str:
    """A label in ASCII, as release 12 has it; other letters are written \\U+XXXX."""
    return "".join(c if " " <= c <= "~" else f"\\U+{ord(c):04X}" if ord(c) < 0x10000 else "?"
                   for c in words)


def _extent(scene: Scene) -> Tuple[Tuple[str, str], Tuple[str, str]]:
    first, last = scene.header.begin, scene.header.end
    deep = scene.header.centreline + scene.header.clear_zone
    for planned in scene.sides:
        first = min(first, scene.header.begin - planned.before)
        last = max(last, scene.header.end + planned.after)
    for drawn in scene.hazards:
        deep = max(deep, scene.header.centreline + drawn.hazard.far_offset)
    return (metres(first), metres(-deep)), (metres(last), metres(deep))


def _head(file: _File, scene: Scene) -> None:
    low, high = _extent(scene)
    file.groups((0, "SECTION"), (2, "HEADER"), (9, "$ACADVER"), (1, "AC1009"),
                (9, "$INSBASE"), (10, "0.0"), (20, "0.0"), (30, "0.0"),
                (9, "$EXTMIN"), (10, low[0]), (20, low[1]), (30, "0.0"),
                (9, "$EXTMAX"), (10, high[0]), (20, high[1]), (30, "0.0"), (0, "ENDSEC"))


def _tables(file: _File) -> None:
    layers = _layers()
    file.groups((0, "SECTION"), (2, "TABLES"),
                (0, "TABLE"), (2, "LTYPE"), (70, "1"), (0, "LTYPE"), (2, "CONTINUOUS"), (70, "0"),
                (3, "Solid line"), (72, "65"), (73, "0"), (40, "0.0"), (0, "ENDTAB"),
                (0, "TABLE"), (2, "LAYER"), (70, str(len(layers))))
    for name, colour in layers.items():
        file.groups((0, "LAYER"), (2, name), (70, "0"), (62, str(colour)), (6, "CONTINUOUS"))
    file.groups((0, "ENDTAB"),
                (0, "TABLE"), (2, "STYLE"), (70, "1"), (0, "STYLE"), (2, "STANDARD"), (70, "0"),
                (40, "0.0"), (41, "1.0"), (50, "0.0"), (71, "0"), (42, metres(TEXT_HEIGHT)),
                (3, "txt"), (4, ""), (0, "ENDTAB"), (0, "ENDSEC"))


def dxf(scene: Scene) -> str:
    """The whole road as the text of a DXF file."""
    drawing = _Drawing(scene)
    file = drawing.file
    _head(file, scene)
    _tables(file)
    file.groups((0, "SECTION"), (2, "ENTITIES"))
    drawing.road()
    for planned in scene.sides:
        for drawn in planned.hazards:
            drawing.hazard(planned, drawn)
            drawing.approach(planned, drawn)
        drawing.runs(planned)
    file.groups((0, "ENDSEC"), (0, "EOF"))
    return "\n".join(file.rows) + "\n"
