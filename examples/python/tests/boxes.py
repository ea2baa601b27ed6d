"""The boxes of a picture's labels, and what lies over them.

A label takes its width in DejaVu Sans, from 0.78 of its size above the line to
0.24 below it; bold ones are a seventh wider.
"""
import re
import xml.etree.ElementTree as tree

import programs  # noqa: F401
from barrier_picture.svg import text_width

NAMES = "{http://www.w3.org/2000/svg}"
LEFT = 150.0  # where the window is drawn
ABOVE, BELOW, BOLD = 0.78, 0.24, 1.15
UPRIGHT = re.compile(r"translate\(([-\d.]+) ([-\d.]+)\) rotate\(-90\)")


class Box:
    """A label's place on the sheet."""

    def __init__(self, words, left, top, right, bottom):
        self.words, self.left, self.top, self.right, self.bottom = words, left, top, right, bottom

    def __repr__(self):
        return f"{self.words!r} at {self.left:.1f} {self.top:.1f} {self.right:.1f} {self.bottom:.1f}"

    def meets(self, other):
        return (self.left < other.right and other.left < self.right
                and self.top < other.bottom and other.top < self.bottom)


def _box(text):
    words, size = text.text, float(text.get("font-size"))
    width = text_width(words, size) * (BOLD if text.get("font-weight") == "bold" else 1)
    before = {"start": 0, "middle": width / 2, "end": width}[text.get("text-anchor")]
    upright = UPRIGHT.fullmatch(text.get("transform", ""))
    if upright:
        x, y = float(upright.group(1)), float(upright.group(2))
        return Box(words, x - ABOVE * size, y - width + before, x + BELOW * size, y + before)
    x, y = float(text.get("x")), float(text.get("y"))
    return Box(words, x - before, y - ABOVE * size, x - before + width, y + BELOW * size)


def labels(svg):
    return [_box(text) for text in tree.fromstring(svg).iter(NAMES + "text")]


def view_box(svg):
    x, y, width, height = map(float, tree.fromstring(svg).get("viewBox").split())
    return Box("the sheet", x, y, x + width, y + height)


def window_right(svg):
    """Where the window ends, at which what is drawn in it is cut."""
    rect = tree.fromstring(svg).find(f".//{NAMES}clipPath/{NAMES}rect")
    return float(rect.get("x")) + float(rect.get("width"))


def _drawn(svg, tag):
    """The elements of a kind, each with whether it is cut at the window's ends."""
    root = tree.fromstring(svg)
    clipped = {part for group in root.iter(NAMES + "g") for part in group}
    return [(part, part in clipped) for part in root.iter(NAMES + tag)]


def _cut(box, clipped, right):
    """What of a box can be seen of elements that are cut at the window's ends."""
    if not clipped:
        return box
    return Box(box.words, max(box.left, LEFT), box.top, min(box.right, right), box.bottom)


def bars(svg):
    """The rects that stand for something: hazards, envelopes, levels."""
    found, edge = [], window_right(svg)
    for rect, clipped in _drawn(svg, "rect"):
        if rect.get("class") == "bar":
            x, y, width, height = (float(rect.get(k)) for k in ("x", "y", "width", "height"))
            found.append(_cut(Box(rect.get("fill"), x, y, x + width, y + height), clipped, edge))
    return found


def segments(svg):
    """The straight parts of every line.  The centreline goes behind its labels."""
    for path, clipped in _drawn(svg, "path"):
        if path.get("class") == "centreline":
            continue
        points = [tuple(map(float, pair.split())) for pair in path.get("d")[1:].split("L")]
        for segment in zip(points, points[1:]):
            yield segment, clipped


class Shelf:
    """Labels by their height, so that those near a height are found fast."""

    STEP = 20.0

    def __init__(self, found):
        self.rows = {}
        for box in found:
            for row in range(int(box.top // self.STEP), int(box.bottom // self.STEP) + 1):
                self.rows.setdefault(row, []).append(box)

    def near(self, top, bottom):
        found = {}
        for row in range(int(top // self.STEP), int(bottom // self.STEP) + 1):
            found.update((id(box), box) for box in self.rows.get(row, ()))
        return found.values()


def crosses(segment, box, margin=0.5):
    """Whether a segment goes through a box, a little inside its edges."""
    (x1, y1), (x2, y2) = segment
    low, high = 0.0, 1.0
    if box.right - box.left <= 2 * margin:
        return False
    for start, step, least, most in (
        (x1, x2 - x1, box.left + margin, box.right - margin),
        (y1, y2 - y1, box.top + margin, box.bottom - margin),
    ):
        if step == 0:
            if not least < start < most:
                return False
            continue
        one, two = sorted(((least - start) / step, (most - start) / step))
        low, high = max(low, one), min(high, two)
    return low < high


def faults(svg):
    """What hurts reading: labels over labels, lines or bars, or off the sheet."""
    found, sheet, edge = labels(svg), view_box(svg), window_right(svg)
    shelf = Shelf(found)
    said = [f"off the sheet: {box}" for box in found
            if box.left < sheet.left or box.right > sheet.right
            or box.top < sheet.top or box.bottom > sheet.bottom]
    for box in found:
        said += [f"over another: {box} and {other}" for other in shelf.near(box.top, box.bottom)
                 if id(other) < id(box) and box.meets(other)]
    for segment, clipped in segments(svg):
        heights = sorted((segment[0][1], segment[1][1]))
        said += [f"a line {segment} through {box}" for box in shelf.near(*heights)
                 if crosses(segment, _cut(box, clipped, edge))]
    for bar in bars(svg):
        said += [f"a bar under {box}: {bar}" for box in shelf.near(bar.top, bar.bottom)
                 if bar.left < bar.right and box.meets(bar)]
    return said
