"""One side of the road, band by band from its edge outwards."""
from __future__ import annotations

from dataclasses import replace
from typing import List, Optional, Sequence, Tuple

from barrier_engine import PlannedHazard, PlannedSide, Run, Side, metres

from . import palette
from .barrier import Barrier, Point, barriers_of, cut
from .frame import DEPTH, LEFT, Frame, out
from .labels import Placed, farthest, in_rows, lanes, spread, thinned
from .notes import SEVERAL, UNFLARED, Notes
from .scene import Scene
from .svg import Sheet, text_width

NUMBER_SIZE = 9.0
STATION_SIZE = 9.0
MARGIN_SIZE = 9.0
LANE, BAR = 11.0, 6.0
LEVEL_STEP, LEVEL_SIZE = 8.0, 7.5
FAN, FAN_MOST = 14.0, 56.0  # the height in which leaders run aslant
WAY = 60.0  # a label stands no farther than this from its place, if it can
NUMBER_ROW = 12.0
GAP = 8.0  # between bands
RUN_ROW = 14.0
LEAST = 4.0  # a hazard is drawn at least so wide and deep: a pole has to be seen
RUN_WIDTH, APPROACH_WIDTH = 3.0, 0.9
HEADING_SIZE = 12.0
NAME_ROOM = 150.0  # a hazard's name beside its number is cut to this width
BAR_KIND = ' class="bar"'
OUTLINE = BAR_KIND + ' stroke="#3e4c59" stroke-width="0.6"'


def title_of_band(sheet: Sheet, middle: float, words: str) -> None:
    sheet.text(12, middle, words, MARGIN_SIZE, fill=palette.QUIET)


def stations_title(scene: Scene) -> str:
    return "stations" if scene.in_kilometres else "stations (m)"


def _axis_label(sheet: Sheet, middle: float, words: str, size: float = MARGIN_SIZE) -> None:
    sheet.text(LEFT - 6, middle, words, size, "end", palette.QUIET)


def _fan(way: float) -> float:
    """How high leaders need that go so far aside, so that they can be told apart."""
    return min(max(0.2 * way, FAN), FAN_MOST)


def _fitting(words: str, room: float) -> str:
    """A label cut to a width."""
    if text_width(words, NUMBER_SIZE) <= room:
        return words
    while words and text_width(words + "...", NUMBER_SIZE) > room:
        words = words[:-1]
    return words.rstrip() + "..."


def _wide_enough(x1: float, x2: float) -> Tuple[float, float]:
    middle = (x1 + x2) / 2
    half = max(x2 - x1, LEAST) / 2
    return middle - half, middle + half


def _colour(drawn: PlannedHazard) -> str:
    return palette.NONE if drawn.envelope is None else palette.LEVEL[drawn.hazard.level]


def _shown(frame: Frame, planned: PlannedSide) -> List[PlannedHazard]:
    """The hazards of a side that are in the window, by their middle."""
    inside = [d for d in planned.hazards if frame.shows(d.hazard.start, d.hazard.end)]
    return sorted(inside, key=lambda d: (d.hazard.start + d.hazard.end, d.index))


class SideDrawing:
    """Draws one side.  self.y is the edge of what is drawn so far."""

    def __init__(
        self, sheet: Sheet, scene: Scene, frame: Frame, planned: PlannedSide, notes: Notes,
        lanes_most: Optional[int] = None,
    ) -> None:
        self.sheet, self.scene, self.frame, self.planned = sheet, scene, frame, planned
        self.notes, self.lanes_most = notes, lanes_most
        self.side = planned.side
        self.out = out(planned.side)
        self.y = self.out * frame.half_road
        self.strip: Tuple[float, float] = (0.0, 0.0)
        self.lanes = 0  # how many lanes the envelopes took
        self.numbered: List[Tuple[float, float]] = []  # where run numbers stand

    def _advance(self, height: float) -> Tuple[float, float]:
        """A band of this height: its edge by the road, and its outer edge."""
        inner = self.y
        self.y += self.out * height
        return inner, self.y

    def _shade(self, inner: float, outer: float) -> None:
        """What a withdrawal may alter, behind what is drawn in a band."""
        stretch = self.scene.stretch_of(self.side)
        if stretch is not None and self.frame.shows(*stretch):
            x1, x2 = (self.frame.x(station) for station in stretch)
            # A little into the band before, so that no light shows between two.
            self.sheet.rect(x1, inner - self.out * 0.5, x2, outer, palette.STRETCH,
                            ' class="stretch"')

    def _band(self, height: float) -> Tuple[float, float]:
        inner, outer = self._advance(height)
        self._shade(inner, outer)
        return inner, outer

    def _stretch_ends(self, inner: float, outer: float) -> None:
        for station in self.scene.stretch_of(self.side) or ():
            if self.frame.first <= station <= self.frame.last:
                x = self.frame.x(station)
                self.sheet.line([(x, inner), (x, outer)], palette.STRETCH_EDGE, 0.8, "5 3", "stretch")

    def _in_window(self) -> List[PlannedHazard]:
        """The hazards that are in the window, themselves or their envelopes."""
        return [d for d in self.planned.hazards
                if self.frame.shows(*(d.envelope or (d.hazard.start, d.hazard.end)))]

    def draw(self) -> None:
        self._plan_view()
        self._hazard_numbers()
        self._band(GAP)
        self._envelopes()
        self._band(GAP)
        self._levels()
        self._run_numbers()
        self._run_stations()
        self._heading()

    # The plan view.

    def _plan_view(self) -> None:
        inner, outer = self._advance(DEPTH)
        header = self.scene.header
        begin, end = self.frame.x(header.begin), self.frame.x(header.end)
        self.sheet.rect(begin, inner, end, outer, palette.VERGE)
        self._shade(inner, outer)
        self._offset_lines(begin, end)
        inside = self._in_window()
        self.sheet.raw('<g clip-path="url(#window)">')
        for drawn in inside:
            self._hazard(drawn)
        for drawn in inside:
            self._approach(drawn)
        for barrier in barriers_of(self.scene, self.planned):
            if self.frame.shows(barrier.start, barrier.end):
                self._barrier(barrier)
        self.sheet.raw("</g>")
        self._stretch_ends(inner, outer)
        title_of_band(self.sheet, (inner + outer) / 2, "plan view")

    def _offset_lines(self, begin: float, end: float) -> None:
        """Clear zone and barrier offset, with their labels in the margin."""
        header = self.scene.header
        rows = [(header.barrier_offset, "M", palette.BARRIER), (header.clear_zone, "C", palette.ZONE)]
        depths = []
        for offset, _, stroke in rows:
            y = self.frame.y(self.side, offset)
            depths.append(y * self.out)
            self.sheet.line([(begin, y), (end, y)], stroke, 0.7, "2 4", "offset")
        order = sorted(range(len(rows)), key=lambda i: depths[i])
        edge = self.frame.half_road
        middles = spread([depths[i] for i in order], [12.0] * len(rows), edge + 2, edge + DEPTH)
        for i, middle in zip(order, middles or []):
            _axis_label(self.sheet, self.out * middle, f"{rows[i][1]} {metres(rows[i][0])}")

    def _hazard(self, drawn: PlannedHazard) -> None:
        hazard = drawn.hazard
        x1, x2 = _wide_enough(self.frame.free_x(hazard.start), self.frame.free_x(hazard.end))
        near = self.frame.y(self.side, hazard.near_offset)
        far = self.frame.y(self.side, hazard.far_offset)
        if abs(far - near) < LEAST:
            near = far - self.out * LEAST
        self.sheet.rect(x1, near, x2, far, _colour(drawn), BAR_KIND)

    def _line(self, points: Sequence[Point], width: float, dash: str, kind: str) -> None:
        """A line through stations and offsets, cut at the window's ends."""
        inside = cut(points, self.frame.first, self.frame.last)
        if inside:
            self.sheet.line([(self.frame.x(x), self.frame.y(self.side, y)) for x, y in inside],
                            palette.BARRIER, width, dash, kind)

    def _approach(self, drawn: PlannedHazard) -> None:
        """The approaches to one hazard as if it stood alone: the adjacent traffic's
        through its corners, the far traffic's straight, for which there are none."""
        if drawn.corners is None or drawn.envelope is None:
            return
        base = self.scene.header.barrier_offset
        corners = [drawn.corners.upstream, drawn.corners.flare, drawn.corners.hazard]
        self._line(sorted(corners), APPROACH_WIDTH, "", "approach")
        other, behind = (drawn.hazard.end, drawn.envelope[1]) if self.planned.rises else (
            drawn.hazard.start, drawn.envelope[0])
        if behind != other:
            self._line(sorted([(other, base), (behind, base)]), APPROACH_WIDTH, "4 2", "approach")
        radius = 2.2 if len(self.scene.hazards) <= 30 else 1.5
        for corner in corners:
            if self.frame.first <= corner.station <= self.frame.last:
                self.sheet.dot(self.frame.x(corner.station), self.frame.y(self.side, corner.offset),
                               radius, palette.BARRIER)

    def _barrier(self, barrier: Barrier) -> None:
        """The barrier, run by run."""
        for _, run in barrier.runs:
            self._line(barrier.line(run.start, run.end), RUN_WIDTH, "", "run")
        for _, run in barrier.runs[1:]:
            if self.frame.first <= run.start <= self.frame.last:
                self._boundary(run.start)
        self._note(barrier)

    def _note(self, barrier: Barrier) -> None:
        """What has to be said of a barrier on the sheet where it begins."""
        upstream = barrier.start if self.planned.rises else barrier.end
        if barrier.begun_by is None or not self.frame.first <= upstream <= self.frame.last:
            return
        numbers = [self._run_name(number) for number, _ in barrier.runs]
        name = numbers[0] if len(numbers) == 1 else f"{numbers[0]} to {numbers[-1]}"
        if barrier.unflared:
            self.notes.say(UNFLARED, f"{name} (hazard {barrier.begun_by.index})")
        elif barrier.flared and barrier.hazards > 1:
            self.notes.say(SEVERAL, name)

    def _boundary(self, station: int) -> None:
        """A tick where one run ends and the next begins."""
        x, y = self.frame.x(station), self.frame.y(self.side, self.scene.header.barrier_offset)
        self.sheet.line([(x, y - 4), (x, y + 4)], palette.BARRIER, 1.2, kind="boundary")

    def _run_name(self, number: int) -> str:
        return f"{self.planned.letter}{number}"

    def _hazard_numbers(self) -> None:
        """Each hazard's index and name, in rows, with a leader from the hazard to it."""
        shown = _shown(self.frame, self.planned)
        at = [self.frame.x((d.hazard.start + d.hazard.end) / 2) for d in shown]
        words, placed = self._numbered(shown, at)
        if placed is None:
            # Too many even for three rows: those that have room.
            widths = [text_width(word, NUMBER_SIZE) + 4 for word in words]
            kept = thinned(at, widths, LEFT, self.frame.right)
            self.notes.leave_out("hazard number", "hazard numbers", len(shown) - len(kept))
            shown, at = [shown[i] for i in kept], [at[i] for i in kept]
            words, widths = [words[i] for i in kept], [widths[i] for i in kept]
            placed = in_rows(at, widths, LEFT, self.frame.right, 1, WAY) or []
        rows = 1 + max((place.row for place in placed), default=0)
        first = _fan(farthest(at, placed))
        inner, _ = self._band(first + NUMBER_ROW + (rows - 1) * (FAN + NUMBER_ROW))
        for drawn, word, x, place in zip(shown, words, at, placed):
            self._hazard_number(drawn, word, x, place, inner, first)
        title_of_band(self.sheet, inner + self.out * (first + 6), "hazards")

    def _numbered(
        self, shown: Sequence[PlannedHazard], at: Sequence[float]
    ) -> Tuple[List[str], Optional[List[Placed]]]:
        """The labels of hazards, with their names where all have room, and their places."""
        low, high = LEFT, self.frame.right
        words = [_fitting(d.label, NAME_ROOM) for d in shown]
        if any(d.name for d in shown):
            placed = in_rows(at, [text_width(w, NUMBER_SIZE) + 8 for w in words], low, high, 4, WAY)
            if placed is not None and farthest(at, placed) <= 2 * WAY:
                return words, placed
            self.notes.leave_out("hazard name", "hazard names", sum(1 for d in shown if d.name))
        words = [str(d.index) for d in shown]
        widths = [text_width(w, NUMBER_SIZE) + 4 for w in words]
        return words, in_rows(at, widths, low, high, 3, WAY)

    def _hazard_number(
        self, drawn: PlannedHazard, word: str, x: float, place: Placed, inner: float, first: float
    ) -> None:
        points = [(x, self.frame.y(self.side, drawn.hazard.far_offset)), (x, inner)]
        for row, middle in enumerate(place.passes):
            edge = inner + self.out * (first + row * (FAN + NUMBER_ROW))
            points.append((middle, edge))
            if row < place.row:
                points.append((middle, edge + self.out * NUMBER_ROW))
        self.sheet.line(points, palette.LEADER, 0.5, kind="leader")
        self.sheet.text(place.middle, points[-1][1] + self.out * NUMBER_ROW / 2, word,
                        NUMBER_SIZE, "middle")

    # Along the road.

    def _lane_stretch(self, drawn: PlannedHazard) -> Tuple[float, float, bool]:
        """What a lane holds of a hazard, its number too; whether that is behind."""
        start, end = drawn.envelope or (drawn.hazard.start, drawn.hazard.end)
        x1, x2 = _wide_enough(self.frame.x(start), self.frame.x(end))
        room = text_width(str(drawn.index), NUMBER_SIZE) + 6
        if x2 + room <= self.frame.right + 12:
            return x1 - 2, x2 + room, True
        return x1 - room, x2 + 2, False

    def _envelopes(self) -> None:
        """A bar for each hazard: its stretch, its approaches, what hangs over."""
        shown = self._in_window()
        stretches = [self._lane_stretch(d) for d in shown]
        lane_of = lanes([(start, end) for start, end, _ in stretches])
        self.lanes = max(1, 1 + max(lane_of, default=0))
        if self.lanes_most is not None and self.lanes > self.lanes_most:
            self.lanes = self.lanes_most
            self.notes.leave_out("envelope", "envelopes", sum(1 for lane in lane_of if lane >= self.lanes))
        inner, _ = self._band(LANE * self.lanes)
        for drawn, lane, (start, end, behind) in zip(shown, lane_of, stretches):
            if lane >= self.lanes:
                continue
            middle = inner + self.out * LANE * (lane + 0.5)
            self._envelope_bar(drawn, middle)
            if behind:
                self.sheet.text(end - 2, middle, str(drawn.index), NUMBER_SIZE, "end")
            else:
                self.sheet.text(start + 2, middle, str(drawn.index), NUMBER_SIZE)
        title_of_band(self.sheet, inner + self.out * LANE / 2, "envelopes")

    def _envelope_bar(self, drawn: PlannedHazard, middle: float) -> None:
        frame, hazard = self.frame, drawn.hazard
        top, bottom = middle - BAR / 2, middle + BAR / 2
        if drawn.envelope is not None:
            start, end = drawn.envelope
            begin, stop = self.scene.header.begin, self.scene.header.end
            x1, x2 = frame.x(max(start, begin)), frame.x(min(end, stop))
            if self.scene.stretch_of(self.side) is not None:
                self.sheet.rect(x1, top, x2, bottom, "#ffffff")  # so that no shade shows through
            self.sheet.rect(x1, top, x2, bottom, _colour(drawn), BAR_KIND + ' fill-opacity="0.45"')
            self._over(start, begin, top, bottom)
            self._over(stop, end, top, bottom)
        x1, x2 = _wide_enough(frame.x(hazard.start), frame.x(hazard.end))
        self.sheet.rect(x1, top, x2, bottom, _colour(drawn), BAR_KIND)

    def _over(self, start: int, end: int, top: float, bottom: float) -> None:
        """What hangs over, hatched, where there is any in the window."""
        if start < end and self.frame.shows(start, end):
            x1, x2 = _wide_enough(self.frame.x(start), self.frame.x(end))
            self.sheet.rect(x1, top, x2, bottom, "url(#over)", OUTLINE)

    def _levels(self) -> None:
        """The required level along the side: the higher the level, the higher the bar."""
        inner, outer = self._band(6 * LEVEL_STEP)
        floor = max(inner, outer)
        self.strip = (min(inner, outer), floor)
        for level in range(7):
            y = floor - LEVEL_STEP * level
            self.sheet.line([(LEFT, y), (self.frame.right, y)], palette.FAINT, 0.5 if level else 1)
            if level:
                _axis_label(self.sheet, y + LEVEL_STEP / 2, f"NC-{level}", LEVEL_SIZE)
        title_of_band(self.sheet, (inner + outer) / 2, "required level")
        for run in self.planned.runs:
            if self.frame.shows(run.start, run.end):
                x1, x2 = self.frame.x(run.start), self.frame.x(run.end)
                self.sheet.rect(x1, floor, max(x2, x1 + 0.5), floor - LEVEL_STEP * run.level,
                                palette.LEVEL[run.level], BAR_KIND)
        self._stretch_ends(inner, outer)
        header, planned = self.scene.header, self.planned
        # Across the foot line: the reply has no level for what hangs over.
        top, bottom = floor - BAR / 2, floor + BAR / 2
        self._over(header.begin - planned.before, header.begin, top, bottom)
        self._over(header.end, header.end + planned.after, top, bottom)

    def _run_numbers(self) -> None:
        """R1, R2 and so on where there is room; the table has them all, in order."""
        inner, outer = self._advance(RUN_ROW)
        frame = self.frame
        runs = [(i, run) for i, run in enumerate(self.planned.runs, 1) if frame.shows(run.start, run.end)]
        words = [self._run_name(i) for i, _ in runs]
        middles = [(frame.x(run.start) + frame.x(run.end)) / 2 for _, run in runs]
        widths = [text_width(word, NUMBER_SIZE) + 4 for word in words]
        kept = thinned(middles, widths, LEFT, frame.right + 12)
        for i in kept:
            self.sheet.text(middles[i], (inner + outer) / 2, words[i], NUMBER_SIZE, "middle")
            self.numbered.append((middles[i] - widths[i] / 2, middles[i] + widths[i] / 2))
        self.notes.leave_out("run number", "run numbers", len(runs) - len(kept))
        title_of_band(self.sheet, (inner + outer) / 2, "runs")

    # The stations of the runs.

    def _ends(self) -> List[Tuple[int, bool]]:
        """The ends of the runs in the window, and those of what hangs over."""
        found = {t: False for run in self.planned.runs for t in (run.start, run.end)}
        header = self.scene.header
        if self.planned.before:
            found[header.begin - self.planned.before] = True
        if self.planned.after:
            found[header.end + self.planned.after] = True
        return sorted((t, hangs) for t, hangs in found.items()
                      if self.frame.first <= t <= self.frame.last)

    def _run_stations(self) -> None:
        ends = self._ends()
        if not ends:
            return
        at = [self.frame.x(station) for station, _ in ends]
        words = [self.scene.station(station) for station, _ in ends]
        level_widths = [text_width(word, STATION_SIZE) + 8 for word in words]
        middles = spread(at, level_widths, LEFT - 20, self.frame.right + 12)
        far = max((abs(a - b) for a, b in zip(at, middles or [])), default=0)
        if middles is not None and far <= WAY:
            self._level_labels(ends, at, words, middles)
        else:
            self._upright_labels(ends, at, words)

    def _leaders(self, at: Sequence[float], middles: Sequence[float]) -> float:
        """Leaders from the runs' ends; the edge by which the labels stand."""
        inner, outer = self._advance(_fan(max(abs(a - b) for a, b in zip(at, middles))))
        for x, middle in zip(at, middles):
            # Past the run numbers, unless one stands in the way.
            free = not any(left <= x <= right for left, right in self.numbered)
            start = inner - self.out * (RUN_ROW - 1 if free else 0)
            self.sheet.line([(x, start), (x, inner + self.out * 3), (middle, outer)],
                            palette.LEADER, 0.5, kind="leader")
        return outer

    @staticmethod
    def _end_colour(hangs: bool) -> str:
        return palette.ZONE if hangs else palette.INK

    def _level_labels(
        self, ends: Sequence[Tuple[int, bool]], at: Sequence[float], words: Sequence[str],
        middles: Sequence[float],
    ) -> None:
        edge = self._leaders(at, middles)
        self._advance(13)
        for (_, hangs), word, middle in zip(ends, words, middles):
            self.sheet.text(middle, edge + self.out * 7, word, STATION_SIZE, "middle",
                            self._end_colour(hangs))
        title_of_band(self.sheet, edge + self.out * 7, stations_title(self.scene))

    def _upright_labels(
        self, ends: Sequence[Tuple[int, bool]], at: Sequence[float], words: Sequence[str]
    ) -> None:
        widths = [STATION_SIZE + 2] * len(ends)
        high = self.frame.right + 12
        middles: Optional[List[float]] = spread(at, widths, LEFT - 20, high)
        if middles is None:
            # Too many to label each: those that have room; the table has them all.
            kept = thinned(at, widths, LEFT - 20, high)
            self.notes.leave_out("station of a run", "stations of runs", len(ends) - len(kept))
            ends, words = [ends[i] for i in kept], [words[i] for i in kept]
            at = [at[i] for i in kept]
            middles = list(at)
        edge = self._leaders(at, middles)
        self._advance(max(text_width(word, STATION_SIZE) for word in words) + 4)
        anchor = "start" if self.side == Side.LEFT else "end"
        for (_, hangs), word, middle in zip(ends, words, middles):
            self.sheet.upright(middle, edge + self.out * 2, word, STATION_SIZE, anchor,
                               self._end_colour(hangs))
        title_of_band(self.sheet, edge + self.out * 7, stations_title(self.scene))

    def _heading(self) -> None:
        """How much barrier the side has, and what its neighbours have to be told."""
        words = [self._amount_words()] + self._overhang_words()
        rows = ["; ".join(words)]
        if 1.15 * text_width(rows[0], HEADING_SIZE) > self.frame.width - 24:
            rows = words
        inner, _ = self._advance(14 + 15 * len(rows))
        for place, row in enumerate(rows if self.out > 0 else rows[::-1]):
            self.sheet.text(12, inner + self.out * (14 + 15 * place), row, HEADING_SIZE, bold=True)

    def _amount_words(self) -> str:
        name = f"{self.side.name.capitalize()} side"
        if not self.scene.is_part:
            return f"{name}: {_amount(self.planned.runs)}"
        first, last = self.scene.part
        here = [replace(run, start=max(run.start, first), end=min(run.end, last))
                for run in self.planned.runs if run.start < last and run.end > first]
        return (f"{name}, from {self.scene.station(first)} to {self.scene.station(last)}: "
                f"{_amount(here)} (whole road: {_amount(self.planned.runs)})")

    def _overhang_words(self) -> List[str]:
        """What extends past an end of the road that the window shows."""
        header, planned = self.scene.header, self.planned
        rows = [(planned.before, "beginning", header.begin), (planned.after, "end", header.end)]
        shown = [(length, which) for length, which, station in rows
                 if length and self.frame.first <= station <= self.frame.last]
        return [f"extends {metres(length)} m past the {which} of the road (neighbouring contract)"
                for length, which in shown]


def _amount(runs: Sequence[Run]) -> str:
    return f"{len(runs)} run{'' if len(runs) == 1 else 's'}, " \
           f"{metres(sum(run.length for run in runs))} m of barrier"
