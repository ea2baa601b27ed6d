"""A job: one straight road and its roadside hazards, to bytes and back.

Every length, offset and station is a whole count of millimetres.  A Job holds
whatever numbers it is given: whether they are right is for the engine to say.
"""
from __future__ import annotations

from dataclasses import dataclass, field, fields, replace
from enum import IntEnum
from typing import Any, List, Optional, Sequence, Tuple, Union

from .number_form import Malformed, get_number, get_numbers, put_numbers
from .whole import whole

HAZARDS_MAX = 256
HAZARD_NUMBERS = 6


class Side(IntEnum):
    """The sides of the road.  Forward traffic runs beside the right one."""

    RIGHT = 0
    LEFT = 1


def _make_whole(thing: Any) -> None:
    """Turns whole floats and numpy's integers into ints, and names what is neither."""
    for number in fields(thing):
        value = getattr(thing, number.name)
        if value is not None and not isinstance(value, int):
            object.__setattr__(thing, number.name, whole(value, number.name))


@dataclass(frozen=True)
class Hazard:
    """A hazard: its six numbers, in the job's order, in millimetres.

    It takes the stations [start, end) and the offsets from near to far, which
    are counted from the travelled-way edge on its own side.
    """

    side: int  # Side.RIGHT or Side.LEFT
    start: int  # first station, A to B - 1
    end: int  # end station, not in the hazard, start + 1 to B
    near_offset: int  # 0 to 60000
    far_offset: int  # near offset to 60000
    level: int  # containment level, 1 to 6 (NC-1 to NC-6)

    def __post_init__(self) -> None:
        _make_whole(self)

    def numbers(self) -> Tuple[int, ...]:
        return (self.side, self.start, self.end, self.near_offset, self.far_offset, self.level)


@dataclass(frozen=True)
class Header:
    """The header's numbers, in millimetres, without the hazard count.

    With a panel length the job is of kind 2 and its approaches have whole
    panels; without one it is of kind 1.
    """

    begin: int  # A, road begin, 0 to 999999999999
    end: int  # B, road end, A + 1 to 1000000000000, B - A at most 2000000000
    runout_forward: int  # LF, 1 to 200000
    runout_opposite: int  # LO, 0 to 200000; 0 means one-way or separated
    clear_zone: int  # C, 1 to 30000
    centreline: int  # W, travelled-way edge to centreline, 0 to 20000
    barrier_offset: int  # M, from that edge, 0 to 20000
    deflection: int  # D, allowance, 1 to 5000
    flare_along: int  # a, 1 to 100: b across for a along
    flare_across: int  # b, 0 to 10; 0 means no flare
    straight: int  # T, straight barrier before the flare, 0 to 100000
    continuity: int  # G, gaps shorter than this are closed, 0 to 200000
    panel: Optional[int] = None  # panel length, 1 to 10000, or none

    def __post_init__(self) -> None:
        _make_whole(self)

    @property
    def kind(self) -> int:
        return 1 if self.panel is None else 2

    def numbers(self, hazards: int = 0) -> Tuple[int, ...]:
        """The header as the job has it, with the kind and a hazard count."""
        row = (
            self.kind, self.begin, self.end, self.runout_forward, self.runout_opposite,
            self.clear_zone, self.centreline, self.barrier_offset, self.deflection,
            self.flare_along, self.flare_across, self.straight, self.continuity,
        )
        panel = () if self.panel is None else (self.panel,)
        return row + panel + (hazards,)

    def to_bytes(self) -> bytes:
        """The bytes of a job without hazards, as an open job is opened."""
        return put_numbers(self.numbers())


@dataclass(frozen=True)
class Job:
    """A header and its hazards.  The index of a hazard in a refusal is from 0."""

    header: Header
    hazards: Sequence[Hazard] = field(default_factory=tuple)

    def __post_init__(self) -> None:
        object.__setattr__(self, "hazards", tuple(self.hazards))

    def to_bytes(self) -> bytes:
        numbers = list(self.header.numbers(len(self.hazards)))
        for hazard in self.hazards:
            numbers.extend(hazard.numbers())
        return put_numbers(numbers)

    def with_hazards(self, *hazards: Hazard) -> Job:
        """The same header with these hazards instead."""
        return replace(self, hazards=hazards)

    @staticmethod
    def from_bytes(data: bytes) -> Job:
        """The job whose bytes these are; Malformed where they are none.

        Only the shape is tested here.  The engine tests the ranges too, and its
        refusal says which number is wrong.
        """
        header, count, at = _get_header(bytes(data))
        hazards: List[Hazard] = []
        for _ in range(count):
            numbers, at = get_numbers(data, at, HAZARD_NUMBERS)
            hazards.append(Hazard(*numbers))
        if at != len(data):
            raise Malformed(f"bytes are left over from byte {at} on")
        return Job(header, hazards)


def _get_header(data: bytes) -> Tuple[Header, int, int]:
    """The header, the hazard count and the byte index after them."""
    kind, at = get_number(data, 0)
    if kind not in (1, 2):
        raise Malformed(f"a job is of kind 1 or 2, not {kind}")
    numbers, at = get_numbers(data, at, 12 + kind)
    count = numbers.pop()
    if count > HAZARDS_MAX:
        raise Malformed(f"a job has at most {HAZARDS_MAX} hazards, not {count}")
    return Header(*numbers), count, at


# A job may be handed to a call as a Job or as its bytes.
JobLike = Union[Job, bytes, bytearray, memoryview]


def job_bytes(job: JobLike) -> bytes:
    return job.to_bytes() if isinstance(job, Job) else bytes(job)
