"""Metres, as people write them, and the engine's whole millimetres.

A length is best taken from its decimal text: 0.3 as a float is less than three
tenths.  A float counts as the decimal text that Python prints for it, so that
millimetres(0.3) is 300.
"""
from __future__ import annotations

import re
from decimal import Decimal
from enum import Enum
from fractions import Fraction
from numbers import Integral, Real
from typing import Optional, Union

from .whole import shown

_METRES = re.compile(r"([0-9]+)(?:\.([0-9]+))?")
_KILOMETRES = re.compile(r"([0-9]+)\+([0-9]{3})(?:\.([0-9]{3}))?")
DIGITS_MAX = 20  # no length or station has more; a longer number is not converted

Metres = Union[str, float, Decimal]


class Rounding(Enum):
    """What becomes of a part below a millimetre.

    For a hazard take its first station and near offset down, its end station
    and far offset up: so the hazard that is planned is never the smaller one.
    """

    DOWN = "down"
    UP = "up"
    NEAREST = "nearest"  # a half goes up


def _decimal_text(metres: object) -> str:
    """What was handed over as decimal text."""
    if isinstance(metres, str):
        return metres.strip(" ")
    if isinstance(metres, Decimal):
        return format(metres, "f")
    if isinstance(metres, Integral):
        return shown(int(metres))
    if isinstance(metres, Real) and not isinstance(metres, Fraction):
        return format(Decimal(repr(float(metres))), "f")
    raise TypeError(f"metres are decimal text, like '155.773', or a number, not {shown(metres)}")


def millimetres(metres: Metres, rounding: Optional[Rounding] = None) -> int:
    """Metres, "155.773" or 155.773, to whole millimetres, exactly.

    A part below a millimetre raises ValueError, unless a rounding is named.
    Zeros after the third decimal are no such part.
    """
    match = _METRES.fullmatch(_decimal_text(metres))
    if match is None:
        raise ValueError(f"{shown(metres)} is not metres from 0 on, like 155.773")
    whole, decimals = match.group(1).lstrip("0") or "0", match.group(2) or ""
    if len(whole) + 3 > DIGITS_MAX:
        raise ValueError(f"{shown(metres)} is too great a number of metres")
    value = int(whole + decimals[:3].ljust(3, "0"))
    rest = decimals[3:].rstrip("0")
    if rest == "":
        return value
    if rounding is None:
        raise ValueError(f"{shown(metres)} has a part below a millimetre: name a rounding")
    return value + _raised(rest, rounding)


def _raised(rest: str, rounding: Rounding) -> int:
    """1 where digits after the millimetre, not all 0, raise it; else 0."""
    if rounding is Rounding.NEAREST:
        return 1 if rest[0] >= "5" else 0
    return 1 if rounding is Rounding.UP else 0


def metres(value: int) -> str:
    """Whole millimetres, below 0 too, to metres with three decimals, exactly."""
    whole, rest = divmod(abs(value), 1000)
    sign = "-" if value < 0 else ""
    return f"{sign}{whole}.{rest:03d}"


def station_of_kilometres(words: str) -> Optional[int]:
    """The station 1+250.000 or 1+250, in millimetres; None where it is not so written.

    A kilometre and a plus, three digits of metres, and three decimals or none.
    """
    match = _KILOMETRES.fullmatch(words)
    if match is None or len(match.group(1)) + 6 > DIGITS_MAX:
        return None
    return int(match.group(1) + match.group(2) + (match.group(3) or "000"))


def kilometres(value: int) -> str:
    """A station in millimetres, below 0 too, as 1+250.000."""
    whole, rest = divmod(abs(value), 1000000)
    sign = "-" if value < 0 else ""
    return f"{sign}{whole}+{rest // 1000:03d}.{rest % 1000:03d}"
