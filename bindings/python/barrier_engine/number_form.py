"""The number form of jobs and schedules: groups of seven bits, lowest first."""
from __future__ import annotations

from typing import Iterable, List, Tuple

from .whole import shown, whole

# The engine takes at most six bytes for a number ("The number form").
NUMBER_BYTES_MAX = 6


class Malformed(ValueError):
    """Bytes or text that cannot be read as a job or a schedule."""


def put_number(value: int) -> bytes:
    """The shortest form of a number from 0 on.

    A number above 4398046511103 takes more than six bytes: it is written all
    the same, and the engine refuses it with 2.
    """
    value = whole(value, "a number of a job")
    if value < 0:
        raise ValueError(f"{shown(value)} is below 0: the number form has no sign")
    groups = []
    while value > 0x7F:
        groups.append(0x80 | value & 0x7F)
        value >>= 7
    groups.append(value)
    return bytes(groups)


def put_numbers(values: Iterable[int]) -> bytes:
    return b"".join(put_number(value) for value in values)


def get_number(data: bytes, at: int) -> Tuple[int, int]:
    """The number that begins at a byte index, and the index after it."""
    value = 0
    for index in range(at, min(at + NUMBER_BYTES_MAX, len(data))):
        group = data[index]
        value |= (group & 0x7F) << 7 * (index - at)
        if group & 0x80:
            continue
        if group == 0 and index > at:
            raise Malformed(f"the number at byte {at} is not in shortest form")
        return value, index + 1
    if len(data) - at < NUMBER_BYTES_MAX:
        raise Malformed(f"the bytes end before or inside the number at byte {at}")
    raise Malformed(f"the number at byte {at} is longer than six bytes")


def get_numbers(data: bytes, at: int, count: int) -> Tuple[List[int], int]:
    """That many numbers from a byte index on, and the index after them."""
    values = []
    for _ in range(count):
        value, at = get_number(data, at)
        values.append(value)
    return values, at
