"""The key plan: the whole road with its barriers, and which part a sheet shows."""
from __future__ import annotations

from typing import Sequence

from barrier_engine import PlannedSide, Side, metres
from barrier_engine.planned import Range

from . import palette
from .scene import Scene
from .svg import Sheet

HEIGHT = 62.0
BAND = 8.0  # how high a side's barriers are drawn
LEFT_EDGE = 150.0
MARKS_MOST = 200  # more sheets than this are not marked one by one
SIZE = 9.0
OUTLINE = f' stroke="{palette.STRETCH_EDGE}" stroke-width="0.5"'


def _barriers(sheet: Sheet, planned: PlannedSide, scale: float, begin: int, y: float) -> None:
    for run in planned.runs:
        x1, x2 = (LEFT_EDGE + scale * (t - begin) for t in (run.start, run.end))
        sheet.rect(x1, y, max(x2, x1 + 0.7), y + BAND, palette.LEVEL[run.level])


def _stretch(sheet: Sheet, scene: Scene, side: Side, scale: float, y: float) -> None:
    """What a withdrawal may alter on a side, behind its barriers."""
    stretch = scene.stretch_of(side)
    if stretch is not None:
        x1, x2 = (LEFT_EDGE + scale * (t - scene.header.begin) for t in stretch)
        sheet.rect(x1, y - 1, max(x2, x1 + 0.7), y + BAND + 1, palette.STRETCH, OUTLINE)


def draw_key_plan(
    sheet: Sheet, scene: Scene, bottom: float, width: float, parts: Sequence[Range]
) -> float:
    """The key plan above a height; the height above it."""
    begin, end = scene.header.begin, scene.header.end
    scale = (width - 20 - LEFT_EDGE) / (end - begin)
    top = bottom - HEIGHT
    middle = top + 24
    right, left = scene.sides
    sheet.rect(LEFT_EDGE, middle - 4, width - 20, middle + 4, palette.ROAD)
    for planned, y in ((left, middle - 5 - BAND), (right, middle + 5)):
        _stretch(sheet, scene, planned.side, scale, y)
        _barriers(sheet, planned, scale, begin, y)
    if len(parts) <= MARKS_MOST:
        for start, _ in parts[1:]:
            x = LEFT_EDGE + scale * (start - begin)
            sheet.line([(x, middle - 3), (x, middle + 3)], palette.QUIET, 0.7)
    first, last = scene.part
    x1, x2 = (LEFT_EDGE + scale * (t - begin) for t in (first, last))
    x2 = max(x2, x1 + 2)
    sheet.line([(x1, middle - 16), (x2, middle - 16), (x2, middle + 16), (x1, middle + 16),
                (x1, middle - 16)], palette.ZONE, 1.5, kind="part")
    sheet.text(12, middle, "key plan", SIZE, fill=palette.QUIET)
    sheet.text(LEFT_EDGE, middle + 26, scene.station(begin), SIZE)
    words = f"{scene.station(end)}; this part is {metres(last - first)} m of {metres(end - begin)} m"
    sheet.text(width - 20, middle + 26, words, SIZE, "end")
    return top
