"""Whole numbers from what a user hands over."""
from __future__ import annotations

import operator
from typing import Any

_SHOWN = 40


def shown(value: object) -> str:
    """A value for a message: cut, so that no message is longer than a line."""
    try:
        words = repr(value)
    except ValueError:  # an int of more digits than Python turns into text
        return "a number of thousands of digits"
    return words if len(words) <= _SHOWN else words[:_SHOWN] + "..."


def whole(value: Any, what: str) -> int:
    """A whole number: an int of any kind (numpy's too), or a float that is whole.

    Corner points are floats that are whole, so that they can be handed back.  A
    float with a part below a millimetre is a ValueError, anything else a
    TypeError: both say what is wanted.
    """
    try:
        return operator.index(value)
    except TypeError:
        pass
    try:
        number = float(value) if not isinstance(value, (str, bytes)) else None
    except (TypeError, ValueError, OverflowError):
        number = None
    if number is None:
        raise TypeError(f"{what} has to be a whole number of millimetres (an int), not "
                        f"{shown(value)}: millimetres() takes metres")
    if not number.is_integer():
        raise ValueError(f"{what} has to be a whole number of millimetres, not {shown(value)}: "
                         "round it, for a hazard outwards, or take metres with millimetres()")
    return int(number)
