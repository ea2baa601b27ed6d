"""The calls as include/barrier.h has them, and the shared library.

Nothing here is needed to use the package: the other modules call it.
"""
from __future__ import annotations

import ctypes
import ctypes.util
import os
import sys
import threading
from ctypes import POINTER, Structure, c_double, c_size_t, c_uint8, c_uint16, c_uint32, c_uint64
from typing import Any, Dict, List, Optional, Tuple

from .whole import shown, whole

HAZARDS_MAX = 256
NAME_MAX = 65535
STATES = 8
RANGES_MAX = 64
LENGTHS_MAX = 4
# The first number of the versions whose calls are declared here.
MAJOR = 3


class Reply(Structure):
    _fields_ = [("number", c_uint64), ("value", c_uint64)]


class PlanReply(Structure):
    _fields_ = [
        ("number", c_uint64), ("value", c_uint64), ("before", c_uint64), ("after", c_uint64),
    ]


class QuantitiesReply(Structure):
    _fields_ = [
        ("number", c_uint64), ("value", c_uint64), ("records", c_uint64),
        ("quantities", c_uint64 * RANGES_MAX),
    ]


class Record(Structure):
    _fields_ = [
        ("number", c_uint64), ("found", c_uint64), ("start", c_uint64), ("end", c_uint64),
    ]


class Corner(Structure):
    _fields_ = [("station", c_double), ("offset", c_double)]


class CornersReply(Structure):
    _fields_ = [
        ("number", c_uint64), ("value", c_uint64),
        ("upstream", Corner), ("flare", Corner), ("hazard", Corner),
    ]


class OffsetReply(Structure):
    _fields_ = [("number", c_uint64), ("value", c_uint64), ("found", c_uint64)]


class ReachReply(Structure):
    _fields_ = [
        ("number", c_uint64), ("value", c_uint64), ("side", c_uint64),
        ("start", c_uint64), ("end", c_uint64), ("before", c_uint64), ("after", c_uint64),
        ("from", c_uint64), ("to", c_uint64),
    ]


class LayoutReply(Structure):
    _fields_ = [
        ("number", c_uint64), ("value", c_uint64), ("found", c_uint64), ("overrun", c_uint64),
        ("counts", c_uint64 * LENGTHS_MAX), ("tries", c_uint64), ("floor", c_uint64),
    ]


class Hazard(Structure):
    _fields_ = [
        ("side", c_uint64), ("start", c_uint64), ("end", c_uint64),
        ("near_offset", c_uint64), ("far_offset", c_uint64), ("level", c_uint64),
    ]


class Place(Structure):
    _fields_ = [
        ("start", c_uint64), ("end", c_uint64),
        ("near_offset", c_uint16), ("far_offset", c_uint16), ("name", c_uint16),
        ("side", c_uint8), ("level", c_uint8),
    ]


class Kept(Structure):
    _fields_ = [("used", c_uint64), ("count", c_uint64), ("hazards", Place * HAZARDS_MAX)]


class OpenJob(Structure):
    _fields_ = [
        ("kind", c_uint64), ("begin", c_uint64), ("end", c_uint64),
        ("forward", c_uint64), ("opposite", c_uint64), ("zone", c_uint64),
        ("way", c_uint64), ("offset", c_uint64), ("deflection", c_uint64),
        ("along", c_uint64), ("across", c_uint64), ("straight", c_uint64),
        ("continuity", c_uint64), ("panel", c_uint64), ("count", c_uint64),
        ("hazards", Place * HAZARDS_MAX), ("kept", Kept * STATES),
    ]


# The structs by the names that the header gives them.
STRUCTS: Dict[str, Any] = {
    "barrier_reply": Reply,
    "barrier_plan_reply": PlanReply,
    "barrier_quantities_reply": QuantitiesReply,
    "barrier_record": Record,
    "barrier_corner": Corner,
    "barrier_corners_reply": CornersReply,
    "barrier_offset_reply": OffsetReply,
    "barrier_reach_reply": ReachReply,
    "barrier_layout_reply": LayoutReply,
    "barrier_hazard": Hazard,
    "barrier_place": Place,
    "barrier_kept": Kept,
    "barrier_open_job": OpenJob,
}

# Bytes that are only read, an output, numbers that are only read, an open job.
# c_char_p takes bytes as they are, zero bytes too: their length is handed over.
_BYTES = [ctypes.c_char_p, c_size_t]
_OUTPUT = [ctypes.c_void_p, c_size_t]
_NUMBERS = [POINTER(c_uint64), c_size_t]
_OPEN = [POINTER(OpenJob)]
_U64 = [c_uint64]

# Each call: its reply and its arguments.
CALLS: Dict[str, Tuple[Any, List[Any]]] = {
    "barrier_plan": (PlanReply, _BYTES + _U64 + _OUTPUT),
    "barrier_level": (Reply, _BYTES + 2 * _U64),
    "barrier_corners": (CornersReply, _BYTES + 3 * _U64),
    "barrier_offset": (OffsetReply, _BYTES + 2 * _U64),
    "barrier_reach": (ReachReply, _BYTES + _U64),
    "barrier_quantity": (Reply, _BYTES + 3 * _U64),
    "barrier_quantities": (QuantitiesReply, _BYTES + _U64 + _NUMBERS),
    "barrier_lookup": (Record, _BYTES + _BYTES + 2 * _U64),
    "barrier_layout": (LayoutReply, _NUMBERS + 2 * _U64),
    "barrier_open": (Reply, _OPEN + _BYTES),
    "barrier_add": (Reply, _OPEN + [c_uint16, Hazard]),
    "barrier_withdraw": (Reply, _OPEN + [c_uint16]),
    "barrier_open_schedule": (PlanReply, _OPEN + _U64 + _OUTPUT),
    "barrier_open_reach": (ReachReply, _OPEN + [c_uint16]),
    "barrier_keep": (Reply, _OPEN + _U64),
    "barrier_return": (Reply, _OPEN + _U64),
}

# The library that pip installs in the package's folder, by the platform's form of a name.
LIBRARY_NAME = {"win32": "barrier_engine.dll", "darwin": "libbarrier_engine.dylib"}.get(
    sys.platform, "libbarrier_engine.so")

_HOW_TO_NAME = (
    "pip install ./bindings/python builds it into the package. Or name one: of an installed engine "
    "export BARRIER_LIBRARY=PREFIX/lib/libbarrier_engine.so.3, of an archive "
    "target/examples/libbarrier_engine.so, which make -f Makefile.vendor vendor-shared "
    "LIBDIR=FOLDER builds."
)


class LibraryError(Exception):
    """The shared library is not found, or is not one that this package can call."""


def u64(value: int, what: str) -> int:
    """A number as the call takes it: ctypes would cut one that does not fit."""
    number = whole(value, what)
    if not 0 <= number < 1 << 64:
        raise ValueError(f"{what} has to be a number from 0 that 64 bits hold, not {shown(number)}")
    return number


def u16_name(value: int) -> int:
    """A name as the call takes it: C would cut a greater one to another name."""
    number = whole(value, "a name")
    if not 0 <= number <= NAME_MAX:
        raise ValueError(f"a name has to be 0 to {NAME_MAX}, not {shown(number)}")
    return number


def numbers(values: List[int], what: str) -> Any:
    return (c_uint64 * len(values))(*[u64(value, what) for value in values])


def _path() -> str:
    """The library that is named, else the package's own, else the system's."""
    named = os.environ.get("BARRIER_LIBRARY")
    if named:
        return named
    own = os.path.join(os.path.dirname(os.path.abspath(__file__)), LIBRARY_NAME)
    if os.path.isfile(own):
        return own
    found = ctypes.util.find_library("barrier_engine")
    if found is None:
        raise LibraryError(
            "The engine's shared library is neither in the package's folder nor where the system "
            "looks for libraries. " + _HOW_TO_NAME)
    return found


def _declare(library: ctypes.CDLL, path: str) -> None:
    for name, (reply, arguments) in CALLS.items():
        try:
            call = getattr(library, name)
        except AttributeError:
            raise LibraryError(
                f"{path} has no call {name}: it is not the engine, or older than version 3.3.0. "
                + _HOW_TO_NAME
            ) from None
        call.restype, call.argtypes = reply, arguments


def version_number(library: ctypes.CDLL) -> Optional[int]:
    """MAJOR * 1000000 + MINOR * 1000 + PATCH; None where the library has no such call."""
    try:
        call = library.barrier_version
    except AttributeError:
        return None
    call.restype, call.argtypes = c_uint32, []
    return int(call())


def load(path: str) -> ctypes.CDLL:
    """The library at a path, its calls declared."""
    try:
        library = ctypes.CDLL(path)
    except OSError as error:
        raise LibraryError(
            f"The engine's shared library cannot be loaded: {error}. " + _HOW_TO_NAME
        ) from error
    _declare(library, path)
    number = version_number(library)
    if number is not None and number // 1000000 != MAJOR:
        raise LibraryError(
            f"{path} is of version {number // 1000000}, and its calls differ from those of "
            f"version {MAJOR}, for which this package is made: take the package of that version."
        )
    return library


_lock = threading.Lock()
_loaded: Optional[ctypes.CDLL] = None


def library() -> ctypes.CDLL:
    """The engine's library, loaded at the first call."""
    global _loaded
    with _lock:
        if _loaded is None:
            _loaded = load(_path())
        return _loaded
