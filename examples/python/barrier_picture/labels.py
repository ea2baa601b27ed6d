"""Where labels stand so that none lies over another."""
from __future__ import annotations

from dataclasses import dataclass
from typing import List, Optional, Sequence, Tuple

# How much room a leader takes where it passes between two labels.
PASSAGE = 4.0


def spread(
    wanted: Sequence[float], widths: Sequence[float], low: float, high: float
) -> Optional[List[float]]:
    """Middles near the wanted ones, which rise, so that no two widths overlap.

    All lie between low and high; None where they do not fit.  With the room of
    the labels before it taken off, each middle may be no less than the one
    before: the nearest such list, in squares, has the means of its clusters.
    """
    if not wanted:
        return []
    taken = [0.0]
    for one, next_one in zip(widths, widths[1:]):
        taken.append(taken[-1] + (one + next_one) / 2)
    first = low + widths[0] / 2
    last = high - widths[-1] / 2 - taken[-1]
    if last < first:
        return None
    clusters: List[Tuple[float, int]] = []
    for place, before in zip(wanted, taken):
        total, count = place - before, 1
        while clusters and clusters[-1][0] / clusters[-1][1] > total / count:
            more, members = clusters.pop()
            total, count = total + more, count + members
        clusters.append((total, count))
    means = [total / count for total, count in clusters for _ in range(count)]
    return [min(max(mean, first), last) + before for mean, before in zip(means, taken)]


@dataclass(frozen=True)
class Placed:
    """A label's row, and where its leader passes each row up to its own."""

    row: int
    passes: Tuple[float, ...]

    @property
    def middle(self) -> float:
        return self.passes[-1]


def _one_row(
    row: int, rows: int, at: List[float], widths: Sequence[float], low: float, high: float
) -> Optional[List[Tuple[int, float]]]:
    """The labels of one row, and the passages to the rows behind it."""
    here = [i for i in range(len(at)) if i % rows >= row]
    room = [widths[i] if i % rows == row else PASSAGE for i in here]
    middles = spread([at[i] for i in here], room, low, high)
    return None if middles is None else list(zip(here, middles))


def _in_so_many(
    rows: int, wanted: Sequence[float], widths: Sequence[float], low: float, high: float
) -> Optional[List[Placed]]:
    """Labels in this many rows, or None where they do not fit."""
    at = list(wanted)
    passes: List[List[float]] = [[] for _ in wanted]
    for row in range(rows):
        placed = _one_row(row, rows, at, widths, low, high)
        if placed is None:
            return None
        for index, middle in placed:
            at[index] = middle
            passes[index].append(middle)
    return [Placed(len(row) - 1, tuple(row)) for row in passes]


def farthest(wanted: Sequence[float], placed: Sequence[Placed]) -> float:
    """The longest way from a wanted place to where its leader comes to the first row."""
    return max((abs(x - place.passes[0]) for x, place in zip(wanted, placed)), default=0.0)


def in_rows(
    wanted: Sequence[float], widths: Sequence[float], low: float, high: float, rows_max: int,
    way: float,
) -> Optional[List[Placed]]:
    """Labels in as few rows as bring each to no more than a way from its place.

    Where no number of rows does, the one that brings them nearest; None where
    they do not fit at all.  Labels go to the rows in turn.  A leader to a row
    behind has its passage in each row before it, and the order stays, so no
    leader meets a label or another leader.
    """
    best: Optional[List[Placed]] = None
    for rows in range(1, rows_max + 1):
        placed = _in_so_many(rows, wanted, widths, low, high)
        if placed is None:
            continue
        if best is None or farthest(wanted, placed) < farthest(wanted, best):
            best = placed
        if farthest(wanted, best) <= way:
            break
    return best


def thinned(
    middles: Sequence[float], widths: Sequence[float], low: float, high: float
) -> List[int]:
    """The labels that can stand exactly where they are wanted, the first first."""
    kept: List[int] = []
    end = low
    for index, (middle, width) in enumerate(zip(middles, widths)):
        if middle - width / 2 >= end and middle + width / 2 <= high:
            kept.append(index)
            end = middle + width / 2
    return kept


def lanes(stretches: Sequence[Tuple[float, float]]) -> List[int]:
    """A lane for each stretch, so that no two of a lane overlap: the first free."""
    order = sorted(range(len(stretches)), key=lambda i: stretches[i])
    ends: List[float] = []
    lane_of = [0] * len(stretches)
    for index in order:
        start, end = stretches[index]
        lane = next((i for i, taken in enumerate(ends) if taken <= start), len(ends))
        if lane == len(ends):
            ends.append(end)
        ends[lane] = end
        lane_of[index] = lane
    return lane_of
