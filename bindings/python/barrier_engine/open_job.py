"""An open job: a header, and hazards that come and go under names."""
from __future__ import annotations

import ctypes
import threading
from typing import Any, Dict, Union

from . import c
from .calls import Reach, Written, lent, reached, written
from .job import Hazard, Header, Job, JobLike, job_bytes
from .refused import refuse_unless_done
from .schedule import SCHEDULE_MAX, Schedule


class OpenJob:
    """Hazards are added and withdrawn as the rod reaches them.

    The object owns the engine's memory of the job, 55544 bytes, and notes what
    stands beside it, since that memory is not for others to read.  A refused
    call alters neither.  Calls on one object from several threads wait for one
    another.  A name is 0 to 65535, the number of a drawing say; any other is a
    ValueError, before the engine is asked.
    """

    def __init__(self, header: Union[Header, JobLike]) -> None:
        """Opens a job of a header, or of a job or its bytes without hazards."""
        data = header.to_bytes() if isinstance(header, Header) else job_bytes(header)
        self._memory = c.OpenJob()
        self._lock = threading.Lock()
        self._standing: Dict[int, Hazard] = {}
        self._kept: Dict[int, Dict[int, Hazard]] = {}
        reply = c.library().barrier_open(ctypes.byref(self._memory), data, len(data))
        refuse_unless_done(reply.number, reply.value, "barrier_open")
        self._header = Job.from_bytes(data).header

    def _call(self, call: str, *arguments: Any) -> None:
        """One call at a time: the caller holds the lock."""
        reply = getattr(c.library(), call)(ctypes.byref(self._memory), *arguments)
        refuse_unless_done(reply.number, reply.value, call)

    def add(self, name: int, hazard: Hazard) -> None:
        """Puts a hazard in under a name that does not stand; at most 256 stand."""
        six = c.Hazard(*[c.u64(number, "a hazard's number") for number in hazard.numbers()])
        number = c.u16_name(name)
        with self._lock:
            self._call("barrier_add", number, six)
            self._standing[number] = hazard

    def withdraw(self, name: int) -> None:
        """Takes the hazard under a name out; the name can be added again."""
        number = c.u16_name(name)
        with self._lock:
            self._call("barrier_withdraw", number)
            del self._standing[number]

    def keep(self, state: int) -> None:
        """Keeps what stands under a state number 0 to 7, in the place of what was
        kept there."""
        number = c.u64(state, "a state number")
        with self._lock:
            self._call("barrier_keep", number)
            self._kept[number] = dict(self._standing)

    def return_to(self, state: int) -> None:
        """Makes what stands what stood when that state was last kept."""
        number = c.u64(state, "a state number")
        with self._lock:
            self._call("barrier_return", number)
            self._standing = dict(self._kept[number])

    def schedule_into(self, side: int, out: bytearray) -> Written:
        """Writes the schedule of one side to the start of an output of yours.

        The bytes after it stay as they were; after a refusal all of them do.
        """
        number = c.u64(side, "a side")
        with self._lock:
            reply = c.library().barrier_open_schedule(
                ctypes.byref(self._memory), number, lent(out), len(out))
        return written(reply, "barrier_open_schedule")

    def schedule(self, side: int) -> Schedule:
        """The schedule of one side of what stands, with its overhangs."""
        out = bytearray(SCHEDULE_MAX)
        done = self.schedule_into(side, out)
        return Schedule(bytes(out[: done.written]), done.before, done.after)

    def reach(self, name: int) -> Reach:
        """The envelope of the hazard under a name, and how far its withdrawal reaches:
        asked before it is withdrawn."""
        number = c.u16_name(name)
        with self._lock:
            reply = c.library().barrier_open_reach(ctypes.byref(self._memory), number)
        return reached(reply, "barrier_open_reach")

    def copy(self) -> OpenJob:
        """Another open job in which the same stands and the same is kept."""
        twin = OpenJob.__new__(OpenJob)
        twin.__setstate__(self.__getstate__())
        return twin

    def __copy__(self) -> OpenJob:
        return self.copy()

    def __deepcopy__(self, memo: Dict[int, Any]) -> OpenJob:
        return self.copy()

    def __getstate__(self) -> Dict[str, Any]:
        """What is copied and stored: the engine's memory, and what was noted beside it."""
        with self._lock:
            return {
                "memory": bytes(self._memory), "header": self._header,
                "standing": dict(self._standing),
                "kept": {state: dict(kept) for state, kept in self._kept.items()},
            }

    def __setstate__(self, state: Dict[str, Any]) -> None:
        self._lock = threading.Lock()
        self._memory = c.OpenJob.from_buffer_copy(state["memory"])
        self._header, self._standing, self._kept = (
            state["header"], state["standing"], state["kept"])

    def __bytes__(self) -> bytes:
        """The engine's memory.  Two open jobs are equal exactly if these are."""
        with self._lock:
            return bytes(self._memory)

    def __eq__(self, other: object) -> bool:
        """Equal where header, hazards, names and kept states are."""
        if not isinstance(other, OpenJob):
            return NotImplemented
        return bytes(self) == bytes(other)

    # It changes, so it has no hash.
    __hash__ = None  # type: ignore[assignment]

    @property
    def header(self) -> Header:
        return self._header

    @property
    def hazards(self) -> Dict[int, Hazard]:
        """What stands, by name, names rising."""
        with self._lock:
            return dict(sorted(self._standing.items()))

    def job(self) -> Job:
        """The job of what stands, for the calls that take one.

        The hazards have the indices 0, 1 and so on in the order of their names.
        """
        return Job(self.header, tuple(self.hazards.values()))
