"""What the withdrawal of one hazard may alter, in words, and which sheets show it."""
from __future__ import annotations

from typing import List, Optional, Sequence

from barrier_engine import PlannedHazard, Side
from barrier_engine.planned import Range
from barrier_engine.whole import shown

from .scene import Scene


def hazard_called(hazards: Sequence[PlannedHazard], words: str) -> PlannedHazard:
    """The hazard with an index or, where none has it, a name.  Else a ValueError."""
    index = (words.lstrip("0") or "0") if words.isascii() and words.isdigit() else None
    found = [d for d in hazards if str(d.index) == index]
    found = found or [d for d in hazards if d.name and d.name == words]
    if len(found) == 1:
        return found[0]
    if found:
        indices = ", ".join(str(d.index) for d in found)
        raise ValueError(f"{len(found)} hazards are named {shown(words)}: give the index of one, "
                         f"{indices}")
    there = f"its hazards are 0 to {len(hazards) - 1}" if hazards else "it has none"
    raise ValueError(f"there is no hazard {shown(words)} in the job: {there}")


def sheet_number(number: int, count: int) -> str:
    """A sheet's number, from 1, as its file has it."""
    return f"{number:0{max(2, len(str(count)))}d}"


def _sheets(stretch: Optional[Range], parts: Sequence[Range]) -> str:
    """Which sheets have a millimetre of the stretch: they follow one another."""
    again = [sheet_number(number, len(parts)) for number, (start, end) in enumerate(parts, 1)
             if stretch is not None and start < stretch[1] and end > stretch[0]]
    if not again:
        return "No sheet has to be issued again."
    between = " and " if len(again) == 2 else " to "
    which = again[0] if len(again) == 1 else f"{again[0]}{between}{again[-1]}"
    left = len(parts) - len(again)
    others = ("", "; the other shows the same barrier")[left] if left < 2 else (
        "; the others show the same barrier")
    return f"To be issued again: {which}, {len(again)} of {len(parts)} sheets{others}."


def sentences(scene: Scene, parts: Optional[Sequence[Range]] = None) -> List[str]:
    """What alters without the hazard that is to be withdrawn, if there is one; parts
    are those of the sheets, where there are any."""
    drawn = scene.without
    if drawn is None:
        return []
    name = f"hazard {drawn.index}" + (f" ({drawn.name})" if drawn.name else "")
    if drawn.stretch is None:
        found = [f"Without {name} nothing changes: no traffic reaches it."]
    else:
        side = Side(drawn.hazard.side).name.lower()
        start, end = (scene.station(station) for station in drawn.stretch)
        unit = "" if scene.in_kilometres else " m"
        found = [f"Without {name} levels of the {side} side may change from {start} to {end}{unit}, "
                 "and nowhere else."]
    return found if parts is None else found + [_sheets(drawn.stretch, parts)]
