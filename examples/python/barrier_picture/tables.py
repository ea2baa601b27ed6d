"""The tables under the drawing: legend, quantities, runs and hazards."""
from __future__ import annotations

from typing import List, Optional, Sequence, Tuple

from barrier_engine import metres
from barrier_engine.planned import LEVELS

from . import palette
from .scene import Amounts, Scene, less, sum_of
from .svg import Sheet, text_width

SIZE = 9.0
ROW = 13.0
PAD = 12.0  # between two columns
BLOCK_GAP = 34.0
BLOCK_ROWS = 12  # a table that is longer is cut into blocks
TITLE_SIZE, TITLE_ROOM = 11.0, 22.0
TABLE_GAP = 16.0
SPLIT_LEAST = 4  # rows of a table that is continued elsewhere
MARGIN = 12.0

Row = Sequence[str]


class Table:
    """A table of figures, in blocks side by side where it is long."""

    def __init__(
        self, title: str, columns: Row, rows: Sequence[Row], width: float, names: int = -1,
        rows_most: Optional[int] = None,
    ) -> None:
        """names is the column of names, which are flush left; rows_most a block's."""
        self.title, self.columns, self.rows = title, columns, rows
        self.sheet_width, self.names = width, names
        self.widths = [max(text_width(row[i], SIZE) for row in [columns, *rows]) + PAD
                       for i in range(len(columns))]
        self.across = sum(self.widths) + BLOCK_GAP
        self.room = max(1, int((width - 2 * MARGIN + BLOCK_GAP) // self.across))
        blocks = max(1, min(self.room, -(-len(rows) // BLOCK_ROWS)))
        self.each = max(1, -(-len(rows) // blocks))
        if rows_most is not None:
            self.each = min(self.each, rows_most)
        self.blocks = max(1, -(-len(rows) // self.each))
        # Bold letters are wider than the table of widths says.
        self.width = max(self.blocks * self.across - BLOCK_GAP, 1.15 * text_width(title, TITLE_SIZE))
        self.height = TITLE_ROOM + ROW * (min(self.each, len(rows)) + 1)

    def split(self, height: float) -> Tuple[Optional[Table], Optional[Table]]:
        """What of the table goes into a height, and the rest."""
        fit = int((height - TITLE_ROOM - ROW) // ROW)
        # A short table stays together, and of a long one more than a row or two go.
        if fit < SPLIT_LEAST or len(self.rows) <= 2 * SPLIT_LEAST and fit * self.room < len(self.rows):
            return None, self
        count = min(len(self.rows), fit * self.room)
        first = Table(self.title, self.columns, self.rows[:count], self.sheet_width, self.names, fit)
        if count == len(self.rows):
            return first, None
        title = self.title if self.title.endswith("(continued)") else f"{self.title} (continued)"
        return first, Table(title, self.columns, self.rows[count:], self.sheet_width, self.names)

    def draw(self, sheet: Sheet, x: float, y: float) -> None:
        sheet.text(x, y + 8, self.title, TITLE_SIZE, bold=True)
        for block in range(self.blocks):
            some = self.rows[block * self.each:(block + 1) * self.each]
            self._block(sheet, x + block * self.across, y + TITLE_ROOM, some)

    def _block(self, sheet: Sheet, x: float, y: float, rows: Sequence[Row]) -> None:
        """One block, its figures flush right."""
        for line, row in enumerate([self.columns, *rows]):
            right, middle = x, y + ROW * line + ROW / 2
            fill = palette.INK if line else palette.QUIET
            for column, (cell, width) in enumerate(zip(row, self.widths)):
                right += width
                if cell and column == self.names:
                    sheet.text(right - width + PAD, middle, cell, SIZE, "start", fill)
                elif cell:
                    sheet.text(right, middle, cell, SIZE, "end", fill)
        sheet.line([(x, y + ROW), (x + sum(self.widths), y + ROW)], palette.FAINT, 0.7)


def flow(
    sheet: Sheet, tables: Sequence[Table], y: float, bottom: Optional[float] = None
) -> Tuple[float, List[Table]]:
    """Tables side by side while they have room, down to a height where one is
    given; the height behind them, and what did not fit."""
    x, height = MARGIN, 0.0
    waiting = list(tables)
    while waiting:
        table = waiting[0]
        full = x > MARGIN and x + table.width > table.sheet_width - MARGIN
        low = bottom is not None and y + table.height > bottom
        if full or (low and x > MARGIN):
            x, y, height = MARGIN, y + height + TABLE_GAP, 0.0
            continue
        if low and bottom is not None:
            first, rest = table.split(bottom - y)
            waiting[:1] = [part for part in (first, rest) if part is not None]
            if first is None:
                break
            table = first
        waiting.pop(0)
        table.draw(sheet, x, y)
        x += table.width + 2 * BLOCK_GAP
        height = max(height, table.height)
    return y + height + TABLE_GAP, waiting


def _hazards(scene: Scene, width: float) -> Optional[Table]:
    first, last = scene.window
    inside = [d for d in scene.hazards if d.hazard.start < last and d.hazard.end > first
              or d.envelope is not None and d.envelope[0] < last and d.envelope[1] > first]
    if not inside:
        return None
    named = any(d.name for d in inside)
    rows = []
    for drawn in inside:
        h, at = drawn.hazard, scene.station
        start, end = ("outside the", "clear zone") if drawn.envelope is None else (
            at(drawn.envelope[0]), at(drawn.envelope[1]))
        rows.append((str(drawn.index), *([drawn.name] if named else []), "RL"[h.side],
                     at(h.start), at(h.end), metres(h.near_offset), metres(h.far_offset),
                     f"NC-{h.level}", start, end))
    heads = ("hazard", *(["name"] if named else []), "side", "first", "end", "near", "far",
             "level", "envelope from", "to")
    count = f" (those of this part: {len(inside)} of {len(scene.hazards)})" if scene.is_part else ""
    return Table(f"Hazards, by their index in the job{count}", heads, rows, width,
                 1 if named else -1)


def _runs(scene: Scene, width: float) -> Optional[Table]:
    first, last = scene.part
    rows: List[Row] = []
    for planned in scene.sides:
        for i, run in enumerate(planned.runs, 1):
            if run.start < last and run.end > first:
                here = min(run.end, last) - max(run.start, first)
                rows.append((f"{planned.letter}{i}", scene.station(run.start), scene.station(run.end),
                             metres(run.length), *([metres(here)] if scene.is_part else []),
                             f"NC-{run.level}"))
    if not rows:
        return None
    heads = ("run", "start", "end", "length", *(["here"] if scene.is_part else []), "level")
    whole = sum(len(planned.runs) for planned in scene.sides)
    count = f" (those of this part: {len(rows)} of {whole})" if scene.is_part else ""
    return Table(f"Runs{count}", heads, rows, width)


def _quantities(scene: Scene, width: float) -> Table:
    """Metres of each side and level: by lots, of this part, of the whole road."""
    first, last = scene.part
    road = scene.header.begin, scene.header.end
    here, whole = scene.amounts([(first, last), road])
    lots = scene.lots()
    columns = [(side, level) for side in range(2) for level in LEVELS if whole[side][level - 1]]

    def row(name: str, start: Optional[int], end: Optional[int], amounts: Amounts) -> Row:
        ends = ["" if t is None else scene.station(t) for t in (start, end)]
        found = [amounts[side][level - 1] for side, level in columns]
        return (name, *ends, *map(metres, found), metres(sum(found)))

    rows = [row(f"lot {lot.number}", lot.start, lot.end, lot.amounts) for lot in lots]
    if scene.lot_stations:
        together = sum_of([lot.amounts for lot in lots])
        ends = (lots[0].start, lots[-1].end) if lots else (None, None)
        rows.append(row("all lots", *ends, together))
        rows.append(row("outside the lots", None, None, less(here, together)))
    if scene.is_part:
        rows.append(row("this part", first, last, here))
    rows.append(row("whole road", *road, whole))
    heads = ["", "from", "to"] + [f"{'RL'[side]} NC-{level}" for side, level in columns] + ["all"]
    return Table("Quantities: metres of each level", heads, rows, width)


def draw_legend(sheet: Sheet, scene: Scene, y: float, width: float) -> float:
    """What the colours and lines mean; the height behind it."""
    x = MARGIN
    swatches = [(palette.LEVEL[level], f"NC-{level}") for level in LEVELS]
    swatches.append((palette.NONE, "hazard outside the clear zone"))
    swatches.append(("url(#over)", "past the end of the road (neighbouring contract)"))
    if scene.without is not None and scene.without.stretch is not None:
        swatches.append((palette.STRETCH, f"may change without hazard {scene.without.index}"))
    for fill, words in swatches:
        if x + 18 + text_width(words, SIZE) > width - MARGIN:
            x, y = MARGIN, y + 16
        sheet.rect(x, y + 2, x + 14, y + 12, fill)
        sheet.text(x + 18, y + 7, words, SIZE)
        x += 18 + text_width(words, SIZE) + 16
    y += 18
    x = MARGIN
    for stroke, dash, words in (
        (3.0, "", "barrier of the schedule, run by run"),
        (0.9, "", "approach of one hazard as if it stood alone, through its corner points"),
        (0.9, "4 2", "its far traffic's approach, drawn straight"),
    ):
        sheet.line([(x, y + 7), (x + 30, y + 7)], palette.BARRIER, stroke, dash)
        sheet.text(x + 36, y + 7, words, SIZE)
        x += 36 + text_width(words, SIZE) + 20
    words = "station in this colour: how far barrier extends past the road"
    if x + text_width(words, SIZE) > width - MARGIN:
        x, y = MARGIN, y + 16
    sheet.text(x, y + 7, words, SIZE, fill=palette.ZONE)
    return y + 26


def tables_of(scene: Scene, width: float) -> List[Table]:
    found = [_quantities(scene, width), _runs(scene, width), _hazards(scene, width)]
    return [table for table in found if table is not None]
