"""Refusals as exceptions, with words that say what can be done.

The words are those of include/barrier_help.h: one text in C, Rust and Python.
"""
from __future__ import annotations

from enum import IntEnum
from typing import Callable, Dict, Optional, Tuple

from .job import Hazard


class Number(IntEnum):
    """The numbers of the refusal table, and 0.  No refusal has 6 any more."""

    DONE = 0
    JOB_ENDED = 1
    NUMBER_MALFORMED = 2
    HEADER_RANGE = 3
    HAZARD_RANGE = 4
    HAZARD_NEAR = 5
    JOB_LEFT_OVER = 7
    ARGUMENT = 8
    OUTPUT_SHORT = 9
    NO_SCHEDULE = 10
    TOO_MANY_RANGES = 11
    NAME = 12
    STATE = 13
    NO_APPROACH = 14
    FULL = 15
    LENGTHS = 16
    LIMIT = 17


class Refused(Exception):
    """A call that the engine refused.  Nothing that was lent has changed.

    number and value are those of the table in barrier.h, call is the name of
    the engine's call; reason says in words what is wrong, remedy what can be
    done about it.
    """

    def __init__(self, number: int, value: int, call: str) -> None:
        super().__init__(number, value, call)
        self.number = number
        self.value = value
        self.call = call
        self.reason = refusal(call, number, value)
        self.remedy = remedy(call, number, value)

    @property
    def message(self) -> str:
        return f"{self.reason}; {self.remedy}"

    def __str__(self) -> str:
        return f"{self.call} refused {self.number} with {self.value}: {self.message}"


_JOB = ("barrier_plan", "barrier_level", "barrier_corners", "barrier_offset", "barrier_reach")
_BYTES = _JOB + ("barrier_open",)
_SCHEDULE = ("barrier_quantity", "barrier_quantities", "barrier_lookup")
_MEMORY = ("barrier_add", "barrier_withdraw", "barrier_open_schedule", "barrier_keep",
           "barrier_return", "barrier_open_reach")

# Which calls can be refused with a number.  3 is for memory with value 0.
_GIVEN: Dict[int, Tuple[str, ...]] = {
    Number.JOB_ENDED: _BYTES,
    Number.NUMBER_MALFORMED: _BYTES,
    Number.HEADER_RANGE: _BYTES,
    Number.HAZARD_RANGE: _JOB + ("barrier_add",),
    Number.HAZARD_NEAR: _JOB + ("barrier_add",),
    Number.JOB_LEFT_OVER: _BYTES,
    Number.ARGUMENT: ("barrier_plan", "barrier_level", "barrier_corners",
                      "barrier_open_schedule") + _SCHEDULE,
    Number.OUTPUT_SHORT: ("barrier_plan", "barrier_open_schedule"),
    Number.NO_SCHEDULE: _SCHEDULE,
    Number.TOO_MANY_RANGES: ("barrier_quantities",),
    Number.NAME: ("barrier_add", "barrier_withdraw", "barrier_open_reach"),
    Number.STATE: ("barrier_keep", "barrier_return"),
    Number.NO_APPROACH: ("barrier_corners", "barrier_offset", "barrier_reach"),
    Number.FULL: ("barrier_add",),
    Number.LENGTHS: ("barrier_layout",),
    Number.LIMIT: ("barrier_layout",),
}

# What each header number is called, and what it may be.  14 is the hazard count
# of kind 1 and the panel length of kind 2.
_HEADER: Dict[int, Tuple[str, str]] = {
    1: ("kind", "1 to 2"),
    2: ("road begin A", "0 to 999999999999"),
    3: ("road end B", "A + 1 to 1000000000000, and at most A + 2000000000"),
    4: ("runout length LF of forward traffic", "1 to 200000"),
    5: ("runout length LO of opposite traffic", "0 to 200000"),
    6: ("clear-zone width C", "1 to 30000"),
    7: ("travelled-way edge to centreline W", "0 to 20000"),
    8: ("barrier offset M", "0 to 20000"),
    9: ("deflection allowance D", "1 to 5000"),
    10: ("flare a along", "1 to 100"),
    11: ("flare b across", "0 to 10"),
    12: ("straight barrier T before the flare", "0 to 100000"),
    13: ("continuity limit G", "0 to 200000"),
    14: ("hazard count h (kind 1) or panel length (kind 2)",
         "0 to 256 (kind 1) or 1 to 10000 (kind 2)"),
    15: ("hazard count h", "0 to 256"),
}

# What a hazard's six numbers are called, and what they may be.
HAZARD_NUMBERS: Tuple[Tuple[str, str], ...] = (
    ("side", "0 (right) or 1 (left)"),
    ("first station s", "A to B - 1"),
    ("end station e", "s + 1 to B"),
    ("near offset n", "0 to 60000"),
    ("far offset f", "n to 60000"),
    ("containment level", "1 to 6"),
)

Pair = Tuple[str, str]  # what is wrong, and what can be done

_SAID: Dict[int, Pair] = {
    Number.DONE: ("done", "nothing has to be done"),
    Number.JOB_ENDED: (
        "the job ends before or inside the number at byte {0}",
        "hand over all of the job's bytes, with as many hazards as its hazard count says"),
    Number.NUMBER_MALFORMED: (
        "no number in the right form begins at byte {0}",
        "write each number in its shortest form; none that a job may have is above "
        "1000000000000"),
    Number.JOB_LEFT_OVER: (
        "bytes are left over from byte {0} on",
        "the hazard count is below the hazards that follow, or the length given is not the "
        "job's"),
    Number.OUTPUT_SHORT: (
        "the schedule takes {0} bytes",
        "lend as many bytes; BARRIER_SCHEDULE_MAX, 5624, always suffice"),
    Number.NO_SCHEDULE: (
        "these bytes are not a schedule",
        "hand over a schedule as it was written, with the length that was replied; this is "
        "not a side without barriers"),
    Number.TOO_MANY_RANGES: (
        "more than 64 ranges", "ask in several calls, of at most 64 ranges each"),
    Number.FULL: ("256 hazards stand already", "withdraw a hazard first"),
    Number.LENGTHS: (
        "no panel length, too many, or one outside its range",
        "give one to four panel lengths, each 1 to 20000 millimetres"),
    Number.LIMIT: (
        "a limit of no tries, or of more than 65536",
        "give a limit from 1 to 65536; 65536 tries every layout"),
}
_UNKNOWN: Pair = (
    "a number that barrier.h does not have for this call",
    "look whether call and reply belong together, and program and archive are of one version")


def _header(call: str, value: int) -> Pair:
    if value == 0:
        return ("the memory is not an open job",
                "open the job with barrier_open first, and let nothing else write to its memory")
    name, may_be = _HEADER[value]
    mend = f"it has to be {may_be}"
    if call == "barrier_open" and value == 14:
        mend = ("to open a job its hazard count (kind 1) has to be 0, hazards are added "
                "afterwards; a panel length (kind 2) has to be 1 to 10000")
    elif call == "barrier_open" and value == 15:
        mend = "to open a job its hazard count has to be 0: hazards are added afterwards"
    return f"header number {value}, {name}, is outside its range", mend


def _hazard_range(call: str, value: int) -> Pair:
    which = "the hazard to be named" if call == "barrier_add" else "hazard"
    return (f"a field of {which} {value} is outside its range",
            "side 0 or 1; stations that rise and lie on the road; offsets, near then far, that "
            "do not fall and are at most 60000 millimetres; level 1 to 6")


def _hazard_near(call: str, value: int) -> Pair:
    which = "the hazard to be named" if call == "barrier_add" else "hazard"
    return (f"{which} {value} leaves the barrier no room to deflect",
            "its near offset n is below barrier offset M and deflection allowance D together: "
            "measure n again, or plan with a smaller M or a barrier that deflects less")


def _argument(call: str, _value: int) -> Pair:
    mend = "ask for a level from 1 to 6, over ranges [p, q) with p not above q"
    if call == "barrier_quantity":
        return "the level is not 1 to 6, or p is above q", mend
    if call == "barrier_quantities":
        return "the level is not 1 to 6, p is above q in a range, or the last p has no q", mend
    if call == "barrier_corners":
        return ("a number of the sheet corner is above 1000000000000",
                "give a sheet corner whose station and offset are 0 to 1000000000000 "
                "millimetres")
    return "the side is neither 0 (right) nor 1 (left)", "ask for BARRIER_RIGHT or BARRIER_LEFT"


def _name(call: str, value: int) -> Pair:
    if call == "barrier_add":
        return (f"the name {value} stands already",
                "take another name, or withdraw the hazard that stands under this one")
    return (f"the name {value} does not stand",
            "it was never added, or is withdrawn already: look at the name")


def _state(call: str, _value: int) -> Pair:
    if call == "barrier_keep":
        return "the state number is above 7", "keep under a number from 0 to 7"
    return ("the state number is above 7, or nothing is kept under it",
            "return to a number from 0 to 7 that was kept since the job was opened")


def _no_approach(call: str, _value: int) -> Pair:
    counted = "hazards count from 0 in the job's order"
    if call == "barrier_reach":
        return "there is no such hazard in the job", counted
    return ("no such hazard, or adjacent traffic does not reach it",
            f"{counted}; one whose near offset n is not below the clear-zone width C has no such "
            "approach")


# The numbers whose words are others by the call.
_BY_CALL: Dict[int, Callable[[str, int], Pair]] = {
    Number.HEADER_RANGE: _header,
    Number.HAZARD_RANGE: _hazard_range,
    Number.HAZARD_NEAR: _hazard_near,
    Number.ARGUMENT: _argument,
    Number.NAME: _name,
    Number.STATE: _state,
    Number.NO_APPROACH: _no_approach,
}


def _given(call: str, number: int, value: int) -> bool:
    """Whether a call can be refused with that number and value."""
    if number == Number.HEADER_RANGE and value == 0:
        return call in _MEMORY
    if number == Number.HEADER_RANGE and value not in _HEADER:
        return False
    return number == Number.DONE or call in _GIVEN.get(number, ())


def _both(call: str, number: int, value: int) -> Pair:
    if not _given(call, number, value):
        return _UNKNOWN
    by_call = _BY_CALL.get(number)
    if by_call is not None:
        return by_call(call, value)
    reason, mend = _SAID[number]
    return reason.format(value), mend


def refusal(call: str, number: int, value: int) -> str:
    """A refusal in words: what is wrong.  The call is the engine's name of it."""
    return _both(call, number, value)[0]


def remedy(call: str, number: int, value: int) -> str:
    """What can be done about it, in words."""
    return _both(call, number, value)[1]


def hazard_fault(begin: int, end: int, hazard: Hazard) -> Optional[int]:
    """The place, 0 to 5, of the first of a hazard's numbers that is out of its range on
    the road [begin, end); None where none is.

    Refusal 4 names the hazard and not the number: this is to show which.  The
    engine is the judge all the same.
    """
    fits = (
        hazard.side in (0, 1),
        begin <= hazard.start < end,
        hazard.start < hazard.end <= end,
        hazard.near_offset <= 60000,
        hazard.near_offset <= hazard.far_offset <= 60000,
        1 <= hazard.level <= 6,
    )
    return None if all(fits) else fits.index(False)


def refuse_unless_done(number: int, value: int, call: str) -> None:
    if number != Number.DONE:
        raise Refused(number, value, call)
