"""Sheets to print: one A3 page for each stretch of the road, and its tables."""
from __future__ import annotations

from typing import Iterator, List, Tuple

from barrier_engine.planned import Range

from .draw import sheet_pages
from .scene import Scene
from .withdrawal import sheet_number

SHEETS_MAX = 999


def parts_of(scene: Scene, length: int) -> List[Range]:
    """The stretches of the road in the window, each so long but the last."""
    first, last = scene.part
    return [(start, min(start + length, last)) for start in range(first, last, length)]


def _window(scene: Scene, part: Range) -> Range:
    """What is drawn for a stretch: at the road's ends what extends past them too."""
    (start, end), (first, last) = part, scene.window
    begin, stop = scene.header.begin, scene.header.end
    return (first if start == begin else start), (last if end == stop else end)


def sheets(scene: Scene, name: str, length: int) -> Iterator[Tuple[str, str]]:
    """Each page's number, like 03 or 03-2, and the text of its SVG file."""
    parts = parts_of(scene, length)
    for number, part in enumerate(parts, 1):
        here = scene.within(_window(scene, part))
        title = (f"{name}, sheet {number} of {len(parts)}: "
                 f"{scene.station(part[0])} to {scene.station(part[1])}")
        for page, text in enumerate(sheet_pages(here, title, parts), 1):
            yield sheet_number(number, len(parts)) + (f"-{page}" if page > 1 else ""), text
