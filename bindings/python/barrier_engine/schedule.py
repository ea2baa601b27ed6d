"""A schedule's bytes and its runs.  Stations are whole millimetres."""
from __future__ import annotations

from dataclasses import dataclass
from typing import List, Sequence, Tuple, Union

from .metres import metres
from .number_form import Malformed, get_number, get_numbers, put_numbers

# The schedule of every job fits in this many bytes.
SCHEDULE_MAX = 5624
RUNS_MAX = 511


@dataclass(frozen=True)
class Run:
    """Barrier of one level over the stations [start, end), end not in it."""

    start: int
    end: int
    level: int  # 1 to 6

    @property
    def length(self) -> int:
        return self.end - self.start

    def __str__(self) -> str:
        return f"{metres(self.start)} to {metres(self.end)} m, NC-{self.level}"


@dataclass(frozen=True, repr=False)
class Schedule:
    """The schedule of one side, as the engine wrote it, and its overhangs.

    before and after say how far, in millimetres, the approaches of this side
    run past the road's begin and end.  That stretch is in no run and in no
    quantity: it stands in the neighbouring contract, whose office has to be
    told.
    """

    data: bytes
    before: int
    after: int

    @property
    def runs(self) -> Tuple[Run, ...]:
        return tuple(runs_of_bytes(self.data))

    def __bytes__(self) -> bytes:
        return self.data

    def __str__(self) -> str:
        """The runs, one on a line, and the overhangs, in metres."""
        try:
            rows = [str(run) for run in self.runs] or ["no barrier"]
        except Malformed as error:
            rows = [f"no schedule: {error}"]
        rows += [f"extends {metres(length)} m past the {end} of the road (neighbouring contract)"
                 for length, end in ((self.before, "beginning"), (self.after, "end")) if length]
        return "\n".join(rows)

    def __repr__(self) -> str:
        try:
            shown = f"runs={self.runs!r}"
        except Malformed:
            shown = f"data={self.data!r}"
        return f"Schedule({shown}, before={self.before}, after={self.after})"


# A schedule may be handed to a call as a Schedule or as its bytes.
ScheduleLike = Union[Schedule, bytes, bytearray, memoryview]


def schedule_bytes(schedule: ScheduleLike) -> bytes:
    return schedule.data if isinstance(schedule, Schedule) else bytes(schedule)


def runs_of_bytes(data: bytes) -> List[Run]:
    """The runs of a schedule; Malformed where the bytes have another shape.

    A record has the distance from the run before, so stations come from adding
    up.  The engine's own calls test a schedule fully, and refuse it with 10.
    """
    count, at = get_number(data, 0)
    runs: List[Run] = []
    end = 0
    for _ in range(count):
        (distance, length, level), at = get_numbers(data, at, 3)
        runs.append(Run(end + distance, end + distance + length, level))
        end = runs[-1].end
    if at != len(data):
        raise Malformed(f"bytes are left over from byte {at} on")
    return runs


def bytes_of_runs(runs: Sequence[Run]) -> bytes:
    """The writing of a list of runs with rising stations."""
    numbers = [len(runs)]
    end = 0
    for run in runs:
        numbers.extend((run.start - end, run.length, run.level))
        end = run.end
    return put_numbers(numbers)
