"""A drawing sheet: its elements as SVG text, and how wide a label is."""
from __future__ import annotations

from typing import List, Optional, Sequence, Tuple
from xml.sax.saxutils import escape as _escape

FONT = "DejaVu Sans, Verdana, Arial, Helvetica, sans-serif"
# Widths of DejaVu Sans from the space on, in thousandths of the font size.  It
# is as wide as Verdana and wider than the others, so a label fits with each.
_WIDTHS = (
    318, 401, 460, 838, 636, 950, 780, 275, 390, 390, 500, 838, 318, 361, 318, 337, 636, 636,
    636, 636, 636, 636, 636, 636, 636, 636, 337, 337, 838, 838, 838, 531, 1000, 684, 686, 698,
    770, 632, 575, 775, 752, 295, 295, 656, 557, 863, 748, 787, 603, 787, 695, 635, 611, 732,
    684, 989, 685, 611, 685, 390, 337, 390, 838, 500, 500, 613, 635, 550, 635, 615, 352, 635,
    634, 278, 278, 579, 278, 974, 634, 612, 635, 635, 411, 521, 392, 634, 592, 818, 592, 592,
    525, 636, 337, 636, 838,
)
_WIDEST = 1000

Point = Tuple[float, float]


def text_width(words: str, size: float) -> float:
    """How wide a label is at a font size."""
    thousandths = sum(
        _WIDTHS[ord(c) - 32] if 32 <= ord(c) < 127 else _WIDEST for c in words)
    return thousandths * size / 1000


def escape(words: str) -> str:
    """Words as XML takes them: it has no control characters and no non-characters."""
    return _escape("".join(
        c if c == "\t" or " " <= c < "\x7f" or "\xa0" <= c and c not in "\ufffe\uffff"
        and not "\ud800" <= c <= "\udfff" else "\ufffd" for c in words))


def _number(value: float) -> str:
    """A coordinate to a tenth, without a needless .0 and without -0."""
    words = f"{value:.1f}"
    words = words[:-2] if words.endswith(".0") else words
    return "0" if words == "-0" else words


class Sheet:
    """Elements in the order in which they are drawn."""

    def __init__(self) -> None:
        self.parts: List[str] = []

    def rect(self, x1: float, y1: float, x2: float, y2: float, fill: str, more: str = "") -> None:
        left, top = min(x1, x2), min(y1, y2)
        self.parts.append(
            f'<rect x="{_number(left)}" y="{_number(top)}" width="{_number(abs(x2 - x1))}" '
            f'height="{_number(abs(y2 - y1))}" fill="{fill}"{more}/>')

    def line(
        self, points: Sequence[Point], stroke: str, width: float = 1, dash: str = "",
        kind: str = "",
    ) -> None:
        """A line through points.  kind names what it is, for tests and styles."""
        path = "L".join(f"{_number(x)} {_number(y)}" for x, y in points)
        dashes = f' stroke-dasharray="{dash}"' if dash else ""
        named = f' class="{kind}"' if kind else ""
        self.parts.append(
            f'<path{named} d="M{path}" fill="none" stroke="{stroke}" '
            f'stroke-width="{_number(width)}"{dashes}/>')

    def dot(self, x: float, y: float, radius: float, fill: str) -> None:
        self.parts.append(
            f'<circle cx="{_number(x)}" cy="{_number(y)}" r="{_number(radius)}" fill="{fill}"/>')

    def text(
        self, x: float, middle: float, words: str, size: float = 10, anchor: str = "start",
        fill: str = "#1f2933", bold: bool = False,
    ) -> None:
        """A label whose figures are centred on a height."""
        weight = ' font-weight="bold"' if bold else ""
        self.parts.append(
            f'<text x="{_number(x)}" y="{_number(middle + 0.36 * size)}" font-size="{size:g}" '
            f'text-anchor="{anchor}" fill="{fill}"{weight}>{escape(words)}</text>')

    def upright(
        self, middle: float, y: float, words: str, size: float, anchor: str, fill: str
    ) -> None:
        """A label that reads upwards, centred on a station."""
        x = _number(middle + 0.36 * size)
        self.parts.append(
            f'<text transform="translate({x} {_number(y)}) rotate(-90)" font-size="{size:g}" '
            f'text-anchor="{anchor}" fill="{fill}">{escape(words)}</text>')

    def raw(self, part: str) -> None:
        self.parts.append(part)

    def document(
        self, top: float, bottom: float, width: float, title: str, told: Sequence[str],
        definitions: Optional[Sequence[str]] = None, paper: Optional[Tuple[int, int]] = None,
        margin: float = 0,
    ) -> str:
        """The whole file.  told is the picture in words, for those who hear it.
        paper is the size in which it is printed, in millimetres."""
        corner = f"{_number(-margin)}", f"{_number(top - margin)}"
        across, height = _number(width + 2 * margin), _number(bottom - top + 2 * margin)
        box = f"{corner[0]} {corner[1]} {across} {height}"
        size = f'width="{across}" height="{height}"' if paper is None else (
            f'width="{paper[0]}mm" height="{paper[1]}mm"')
        rows = [
            f'<svg xmlns="http://www.w3.org/2000/svg" {size} '
            f'viewBox="{box}" font-family="{FONT}" role="img">',
            f"<title>{escape(title)}</title>",
            "<desc>", *[f"    {escape(line)}" for line in told], "</desc>",
            "<defs>", *(definitions or ()), "</defs>",
            f'<rect x="{corner[0]}" y="{corner[1]}" width="{across}" height="{height}" '
            'fill="#ffffff"/>',
            *self.parts, "</svg>",
        ]
        return "\n".join(rows) + "\n"
