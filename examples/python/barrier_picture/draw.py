"""The whole picture: left side, road, right side, lots and tables."""
from __future__ import annotations

from dataclasses import dataclass
from typing import List, Optional, Sequence, Tuple

from barrier_engine import metres
from barrier_engine.planned import Range

from . import palette
from .frame import (
    A3_HEIGHT, A3_MARGIN, A3_MILLIMETRES, A3_UNIT, A3_WIDTH, DEPTH, LEFT, WIDTH, Frame, frame_of,
    stations,
)
from .key_plan import draw_key_plan
from .labels import thinned
from .notes import Notes
from .scene import Scene
from .sides import LANE, SideDrawing, stations_title, title_of_band
from .svg import Sheet, text_width
from .tables import Table, draw_legend, flow, tables_of
from .withdrawal import sentences

STATION_SIZE = 9.0
LABEL_HALF = 7.0  # half the height that a station's label takes on the road
LANES_LEAST = 3  # so many lanes of envelopes are drawn on each side of an A3 sheet
NOTE_ROW = 14.0


def _centreline(sheet: Sheet, scene: Scene, begin: float, end: float) -> None:
    if scene.two_way:
        sheet.line([(begin, 0), (end, 0)], "#ffffff", 1.5, "12 8", "centreline")


def _arrow(sheet: Sheet, x: float, y: float, ahead: int) -> None:
    sheet.line([(x - 9, y), (x + 9, y)], palette.QUIET, 1)
    sheet.line([(x + ahead * 4, y - 3.5), (x + ahead * 9, y), (x + ahead * 4, y + 3.5)],
               palette.QUIET, 1)


def _traffic(sheet: Sheet, scene: Scene, frame: Frame) -> None:
    """Which way each lane goes: said in the margin, with an arrow."""
    lane = frame.half_road / 2
    for planned, y in zip(scene.sides, (lane, -lane)):
        words = "forward" if planned.rises else "opposite"
        sheet.text(12, y, words if scene.two_way else "one way", 9, fill=palette.QUIET)
        _arrow(sheet, LEFT - 18, y, 1 if planned.rises else -1)


def _road(sheet: Sheet, scene: Scene, frame: Frame) -> None:
    begin, end = frame.x(scene.header.begin), frame.x(scene.header.end)
    sheet.rect(begin, -frame.half_road, end, frame.half_road, palette.ROAD)
    _centreline(sheet, scene, begin, end)
    _traffic(sheet, scene, frame)
    marks = stations(scene, frame, STATION_SIZE)
    at = [frame.x(station) for station, _ in marks]
    widths = [text_width(words, STATION_SIZE) + 6 for _, words in marks]
    edge = frame.half_road
    for i in thinned(at, widths, LEFT - 20, frame.right + 16):
        for y in (-edge, edge):
            sheet.line([(at[i], y), (at[i], y * 0.72)], palette.QUIET, 0.7)
        # The label stands on the road's colour, so that no line goes through it.
        x1, x2 = max(at[i] - widths[i] / 2, begin), min(at[i] + widths[i] / 2, end)
        if x1 < x2:
            sheet.rect(x1, -LABEL_HALF, x2, LABEL_HALF, palette.ROAD)
        sheet.text(at[i], 0, marks[i][1], STATION_SIZE, "middle")
    title_of_band(sheet, 0, stations_title(scene))


def _road_ends(sheet: Sheet, scene: Scene, frame: Frame, sides: List[SideDrawing]) -> None:
    """The ends of the contract, over both plan views and along the levels."""
    reach = frame.half_road + DEPTH
    for station in (scene.header.begin, scene.header.end):
        if frame.first <= station <= frame.last:
            x = frame.x(station)
            for way in (-1, 1):
                sheet.line([(x, way * LABEL_HALF), (x, way * reach)], palette.INK, 1)
            for drawing in sides:
                sheet.line([(x, drawing.strip[0]), (x, drawing.strip[1])], palette.INK, 1)


def _lots(
    sheet: Sheet, scene: Scene, frame: Frame, sides: List[SideDrawing], y: float, notes: Notes
) -> float:
    """A strip of lots, and their boundaries over the levels of both sides."""
    if not scene.lot_stations:
        return y
    ranges = zip(scene.lot_stations, scene.lot_stations[1:])
    inside = [(i, p, q) for i, (p, q) in enumerate(ranges, 1) if frame.shows(p, q)]
    for i, start, end in inside:
        x1, x2 = frame.x(start), frame.x(end)
        sheet.rect(x1, y, x2, y + 16, "#e4e7eb" if i % 2 else "#f5f7fa")
        for station in (start, end):
            if frame.first <= station <= frame.last:
                x = frame.x(station)
                sheet.line([(x, y), (x, y + 16)], palette.QUIET, 0.7)
                for drawing in sides:
                    sheet.line([(x, drawing.strip[0]), (x, drawing.strip[1])], palette.QUIET, 0.7, "3 2")
    for i, start, end in inside:
        x1, x2 = frame.x(start), frame.x(end)
        if x2 - x1 >= text_width(str(i), 9) + 4:
            sheet.text((x1 + x2) / 2, y + 8, str(i), 9, "middle")
        else:
            notes.leave_out("lot number", "lot numbers", 1)
    title_of_band(sheet, y + 8, "lots")
    return y + 26


def _how_drawn(scene: Scene, frame: Frame, paper: bool) -> str:
    words = ("Lengths and offsets in metres, exact to the millimetre. In the plan view, along and "
             "across have scales of their own")
    if paper:
        along, across = 1 / (frame.along * A3_UNIT), 1 / (frame.across * A3_UNIT)
        words += f": on A3 1 : {along:.0f} along, 1 : {across:.0f} across"
    if any(drawn.hazard.far_offset > frame.deepest for drawn in scene.hazards):
        words += f"; offsets beyond {metres(int(frame.deepest))} are not drawn"
    return words + "."


def _lies(scene: Scene) -> str:
    """How the road is driven, where that is not as the engine has it."""
    words = "; traffic drives on the left" if scene.orientation.drives_left else ""
    return words + ("; traffic towards falling stations" if scene.orientation.stations_fall else "")


def _figures(scene: Scene, frame: Frame, paper: bool) -> List[str]:
    """The header in words, and how it is drawn."""
    h = scene.header
    opposite = f"opposite {metres(h.runout_opposite)}" if scene.two_way else "no opposite traffic"
    flare = (f"flare {h.flare_across} across for {h.flare_along} along after "
             f"{metres(h.straight)} straight") if h.flare_across else "no flare"
    gaps = f"gaps below {metres(h.continuity)} closed" if h.continuity else "no gaps closed"
    panel = f"; whole panels of {metres(h.panel)}" if h.panel is not None else ""
    return [
        f"Road {scene.station(h.begin)} to {scene.station(h.end)}{_lies(scene)}; runout lengths: "
        f"forward {metres(h.runout_forward)}, {opposite}; clear zone C {metres(h.clear_zone)}; "
        f"edge to centreline {metres(h.centreline)}",
        f"Barrier offset M {metres(h.barrier_offset)}, deflection {metres(h.deflection)}; {flare}; "
        f"{gaps}{panel}",
        _how_drawn(scene, frame, paper),
    ]


def _fitting(name: str, size: float, width: float) -> str:
    """A title that does not leave the sheet; bold letters are wider."""
    name = name if len(name) < 400 else name[:400] + "..."
    while 1.15 * text_width(name, size) > width - 24:
        name = name[:-4] + "..."
    return name


def _head(sheet: Sheet, lines: Sequence[str], name: str, bottom: float, width: float) -> float:
    """Title and figures above a height; the top of the sheet."""
    top = bottom - 38 - 15 * len(lines)
    sheet.text(12, top + 18, _fitting(name, 15, width), 15, bold=True)
    for row, words in enumerate(lines):
        sheet.text(12, top + 38 + 15 * row, words, 10, fill=palette.QUIET)
    return top


def told(scene: Scene) -> List[str]:
    """The runs as the program `barrier` prints them, and the overhangs.

    Of a part, its stations first, the runs that reach into it, and its totals.
    """
    first, last = scene.part
    rows = [f"part {first} {last}"] if scene.is_part else []
    totals = []
    for planned in scene.sides:
        inside = [run for run in planned.runs if run.start < last and run.end > first]
        rows += [f"{planned.letter} {run.start} {run.end} {run.level}" for run in inside]
        totals.append(sum(min(run.end, last) - max(run.start, first) for run in inside))
    rows.append(f"total {totals[0]} {totals[1]}")
    for planned in scene.sides:
        if planned.before or planned.after:
            rows.append(f"overhang {planned.letter} {planned.before} {planned.after}")
    if scene.without is not None:
        start, end = scene.without.stretch or (0, 0)
        rows.append(f"without {scene.without.index} {'RL'[scene.without.hazard.side]} {start} {end}")
    return rows


@dataclass
class Drawing:
    """What is drawn of a scene, without its tables."""

    sheet: Sheet
    frame: Frame
    top: float
    bottom: float
    lanes: Tuple[int, int]


def draw(
    scene: Scene, name: str, width: float, parts: Optional[Sequence[Range]] = None,
    lanes_most: Optional[int] = None,
) -> Drawing:
    """The drawing with its head, a key plan where it shows a part, and its notes.

    parts are the parts of all sheets, where there are several.
    """
    sheet, frame, notes = Sheet(), frame_of(scene, width), Notes()
    notes.first = sentences(scene, parts)
    _road(sheet, scene, frame)
    sides = [SideDrawing(sheet, scene, frame, planned, notes, lanes_most) for planned in scene.sides]
    for drawing in sides:
        drawing.draw()
    right, left = sides
    _road_ends(sheet, scene, frame, sides)
    bottom = _lots(sheet, scene, frame, sides, right.y, notes)
    bottom = draw_legend(sheet, scene, bottom + 8, width)
    for row in notes.rows(width - 24):
        sheet.text(12, bottom, row, 10)
        bottom += NOTE_ROW
    top = left.y
    if scene.is_part:
        top = draw_key_plan(sheet, scene, top, width, parts or [scene.part])
    top = _head(sheet, _figures(scene, frame, parts is not None), name, top, width)
    return Drawing(sheet, frame, top, bottom + 8, (right.lanes, left.lanes))


def _definitions(frame: Frame) -> List[str]:
    window = (f'<clipPath id="window"><rect x="{LEFT:g}" y="-5000" width="{frame.right - LEFT:g}" '
              'height="10000"/></clipPath>')
    return [palette.HATCH, window]


def picture(scene: Scene, name: str) -> str:
    """The picture of a scene, as high as it has to be, as the text of an SVG file."""
    drawn = draw(scene, name, WIDTH)
    bottom, _ = flow(drawn.sheet, tables_of(scene, WIDTH), drawn.bottom)
    return drawn.sheet.document(drawn.top, bottom, WIDTH, name, told(scene), _definitions(drawn.frame))


def _a3(drawn_top: float, sheet: Sheet, scene: Scene, name: str, frame: Frame, scale: float) -> str:
    """A page; where its drawing is too high, with a scale above 1, all of it is smaller."""
    return sheet.document(drawn_top, drawn_top + scale * A3_HEIGHT, scale * A3_WIDTH, name,
                          told(scene), _definitions(frame), A3_MILLIMETRES, scale * A3_MARGIN)


def _fitted(scene: Scene, name: str, parts: Sequence[Range]) -> Drawing:
    """The drawing on A3: with fewer lanes of envelopes where it would be too high."""
    drawn = draw(scene, name, A3_WIDTH, parts)
    over = drawn.bottom - drawn.top - A3_HEIGHT
    lanes = max(drawn.lanes)
    while over > 0 and lanes > LANES_LEAST:
        lanes = max(LANES_LEAST, lanes - max(1, int(over / LANE / 2)))
        drawn = draw(scene, name, A3_WIDTH, parts, lanes)
        over = drawn.bottom - drawn.top - A3_HEIGHT
    return drawn


def _tables_page(scene: Scene, name: str, tables: Sequence[Table], frame: Frame) -> Tuple[str, List[Table]]:
    sheet = Sheet()
    top = _head(sheet, _figures(scene, frame, True)[:2], f"{name} (tables, continued)", 0, A3_WIDTH)
    _, rest = flow(sheet, tables, 8, top + A3_HEIGHT - 8)
    return _a3(top, sheet, scene, name, frame, 1), rest


def sheet_pages(scene: Scene, name: str, parts: Sequence[Range]) -> List[str]:
    """The pages of one A3 sheet: the drawing, and what of its tables did not fit."""
    drawn = _fitted(scene, name, parts)
    scale = max(1.0, (drawn.bottom - drawn.top) / A3_HEIGHT)
    tables = tables_of(scene, A3_WIDTH)
    bottom = drawn.top + scale * A3_HEIGHT - 8
    _, rest = flow(drawn.sheet, tables, drawn.bottom, bottom)
    if rest:
        drawn.sheet.text(A3_WIDTH - 12, drawn.top + 18, "tables continue on the next page", 10, "end")
    pages = [_a3(drawn.top, drawn.sheet, scene, name, drawn.frame, scale)]
    while rest:
        page, rest = _tables_page(scene, name, rest, drawn.frame)
        pages.append(page)
    return pages
