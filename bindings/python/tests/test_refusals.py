"""Each refusal that a call can give, its value, its words, and memory after it."""
import ctypes
import os
import pickle
import shutil
import subprocess
import tempfile
import unittest
from dataclasses import replace

import support
from barrier_engine import (
    Hazard, Job, OpenJob, Refused, Side, corners, layout, level, lookup, offset, plan, plan_into,
    put_number, quantities, quantity, reach,
)
from barrier_engine import c, refused as said_so
from support import HEADER, HEADWALL, PRINTED, refusal

DATA = PRINTED.to_bytes()
TOO_NEAR = support.job(HEADER, {}, {"near_offset": 3999})
KIND_2 = replace(HEADER, panel=4000)

# The calls in the order of barrier_help.h, and values that its words tell apart.
CALLS = (
    "barrier_plan", "barrier_level", "barrier_corners", "barrier_offset", "barrier_quantity",
    "barrier_quantities", "barrier_lookup", "barrier_layout", "barrier_open", "barrier_add",
    "barrier_withdraw", "barrier_open_schedule", "barrier_keep", "barrier_return", "barrier_reach",
    "barrier_open_reach")
VALUES = list(range(18)) + [255, 65535, (1 << 64) - 1]
ROWS_IN_C = """#include <inttypes.h>
#include <stdio.h>
#include <barrier_help.h>
int main(void)
{
    const uint64_t values[] = {%s};
    char words[BARRIER_HELP_TEXT_MAX], remedy[BARRIER_HELP_TEXT_MAX];
    for (unsigned call = 0; call < 16; call++)
        for (uint64_t number = 0; number < 20; number++)
            for (size_t i = 0; i < sizeof values / sizeof values[0]; i++) {
                const enum barrier_help_call of = (enum barrier_help_call)call;
                barrier_help_refusal(of, number, values[i], words, sizeof words);
                barrier_help_remedy(of, number, values[i], remedy, sizeof remedy);
                printf("%%s %%" PRIu64 " %%" PRIu64 ": %%s: %%s\\n", barrier_help_call_name(of), number,
                       values[i], words, remedy);
            }
    return 0;
}
""" % ", ".join(f"{value}u" for value in VALUES)

# Jobs that are not accepted, with the refusal's number and value.
BAD_JOBS = [
    (b"", 1, 0),
    (DATA[:-1], 1, len(DATA) - 1),
    (DATA[:4], 1, 2),
    (b"\x81\x00" + DATA[1:], 2, 0),
    (b"\1\xFF\xFF\xFF\xFF\xFF\xFF\x01" + DATA[2:], 2, 1),
    (b"\3" + DATA[1:], 3, 1),
    (Job(replace(HEADER, begin=10**12, end=10**12 + 1)), 3, 2),
    (Job(replace(HEADER, end=0)), 3, 3),
    (Job(replace(HEADER, end=2000000001)), 3, 3),
    (Job(replace(HEADER, runout_forward=0)), 3, 4),
    (Job(replace(HEADER, runout_opposite=200001)), 3, 5),
    (Job(replace(HEADER, clear_zone=0)), 3, 6),
    (Job(replace(HEADER, centreline=20001)), 3, 7),
    (Job(replace(HEADER, barrier_offset=20001)), 3, 8),
    (Job(replace(HEADER, deflection=0)), 3, 9),
    (Job(replace(HEADER, flare_along=0)), 3, 10),
    (Job(replace(HEADER, flare_across=11)), 3, 11),
    (Job(replace(HEADER, straight=100001)), 3, 12),
    (Job(replace(HEADER, continuity=200001)), 3, 13),
    (HEADER.to_bytes()[:-1] + put_number(257), 3, 14),
    (Job(replace(HEADER, panel=10001)), 3, 14),
    (KIND_2.to_bytes()[:-1] + put_number(257), 3, 15),
    (support.job(HEADER, {}, {"side": 2}), 4, 1),
    (support.job(HEADER, {"start": 1000000}), 4, 0),
    (support.job(HEADER, {"end": 200000}), 4, 0),
    (support.job(HEADER, {"near_offset": 60001, "far_offset": 60001}), 4, 0),
    (support.job(HEADER, {"far_offset": 4999}), 4, 0),
    (support.job(HEADER, {"level": 0}), 4, 0),
    (TOO_NEAR, 5, 1),
    (DATA + b"\0", 7, len(DATA)),
]
NO_SCHEDULES = [b"", b"\0\0", b"\1", b"\1\0\0\1", b"\1\0\1\7", b"\1\0\1\0", b"\x80\x04",
                b"\2\0\1\1\0\1\1", plan(PRINTED, 0).data[:-1]]
ACCEPTED_NOT_REACHED = support.job(HEADER, {"near_offset": 9000})


class OfAJob(unittest.TestCase):
    def test_every_call_that_reads_one(self):
        for job, number, value in BAD_JOBS:
            for call, name, rest in (
                (plan, "barrier_plan", (0,)), (plan_into, "barrier_plan", (1, bytearray(9))),
                (level, "barrier_level", (0, 0)), (corners, "barrier_corners", (0,)),
                (offset, "barrier_offset", (0, 1)), (reach, "barrier_reach", (0,)),
            ):
                self.assertEqual(refusal(call, job, *rest), (number, value, name))

    def test_side_and_sheet_corner_come_first(self):
        for job in (PRINTED, b""):
            self.assertEqual(refusal(plan, job, 2), (8, 0, "barrier_plan"))
            self.assertEqual(refusal(level, job, 2, 0), (8, 0, "barrier_level"))
            self.assertEqual(refusal(corners, job, 0, 10**12 + 1, 0), (8, 0, "barrier_corners"))
            self.assertEqual(refusal(corners, job, 0, 0, 10**12 + 1), (8, 0, "barrier_corners"))

    def test_output_too_short(self):
        for length in range(8):
            out = bytearray(length)
            self.assertEqual(refusal(plan_into, PRINTED, 0, out), (9, 8, "barrier_plan"))
        self.assertIsNone(refusal(plan_into, PRINTED, 0, bytearray(8)))

    def test_no_such_approach(self):
        for job, index in ((PRINTED, 1), (PRINTED, (1 << 64) - 1), (ACCEPTED_NOT_REACHED, 0)):
            self.assertEqual(refusal(corners, job, index), (14, 0, "barrier_corners"))
            self.assertEqual(refusal(offset, job, index, 99999), (14, 0, "barrier_offset"))
        # Plan's 5 comes before 14.
        self.assertEqual(refusal(corners, TOO_NEAR, 9), (5, 1, "barrier_corners"))

    def test_no_such_hazard(self):
        for index in (1, 256, 1 << 32, (1 << 64) - 1):
            self.assertEqual(refusal(reach, PRINTED, index), (14, 0, "barrier_reach"))
        self.assertIsNone(refusal(reach, ACCEPTED_NOT_REACHED, 0))
        self.assertEqual(refusal(reach, TOO_NEAR, 9), (5, 1, "barrier_reach"))


class OfASchedule(unittest.TestCase):
    def test_arguments(self):
        good = plan(PRINTED, 0)
        for schedule in (good, b""):
            for value, p, q in ((0, 0, 1), (7, 0, 1), (3, 1, 0)):
                self.assertEqual(refusal(quantity, schedule, value, p, q), (8, 0, "barrier_quantity"))
                self.assertEqual(refusal(quantities, schedule, value, [(0, 9), (p, q)]),
                                 (8, 0, "barrier_quantities"))
            self.assertEqual(refusal(lookup, schedule, schedule, 2, 0), (8, 0, "barrier_lookup"))

    def test_ranges(self):
        good = plan(PRINTED, 0)
        self.assertIsNone(refusal(quantities, good, 3, [(0, 1)] * 64))
        for schedule in (good, b""):
            self.assertEqual(refusal(quantities, schedule, 3, [(0, 1)] * 65),
                             (11, 0, "barrier_quantities"))
            self.assertEqual(refusal(quantities, schedule, 3, [(0, 1)] * 65 + [(1, 0)]),
                             (8, 0, "barrier_quantities"))

    def test_no_schedule(self):
        for bad in NO_SCHEDULES:
            self.assertEqual(refusal(quantity, bad, 3, 0, 1), (10, 0, "barrier_quantity"))
            self.assertEqual(refusal(quantities, bad, 3, [(0, 1)]), (10, 0, "barrier_quantities"))
            self.assertEqual(refusal(lookup, bad, b"\0", 0, 0), (10, 0, "barrier_lookup"))
            self.assertEqual(refusal(lookup, b"\0", bad, 1, 0), (10, 0, "barrier_lookup"))


class OfALayout(unittest.TestCase):
    def test_lengths_then_limit(self):
        for lengths in ([], [1] * 5, [0], [20001], [4000, 0]):
            for limit in (0, 1):
                self.assertEqual(refusal(layout, lengths, 1, limit), (16, 0, "barrier_layout"))
        for limit in (0, 65537):
            self.assertEqual(refusal(layout, [1], 1, limit), (17, 0, "barrier_layout"))
        self.assertIsNone(refusal(layout, [20000, 1, 1, 1], 1, 65536))


def full_job():
    open_job = OpenJob(HEADER)
    for name in range(256):
        open_job.add(1000 + name, HEADWALL)
    return open_job


class OfAnOpenJob(unittest.TestCase):
    def test_opening(self):
        for job, number, value in BAD_JOBS:
            if number in (1, 2, 3) and not (number == 1 and value > 20):
                self.assertEqual(refusal(OpenJob, job), (number, value, "barrier_open"))
        self.assertEqual(refusal(OpenJob, HEADER.to_bytes() + b"\0"),
                         (7, len(HEADER.to_bytes()), "barrier_open"))
        self.assertEqual(refusal(OpenJob, PRINTED), (3, 14, "barrier_open"))
        self.assertEqual(refusal(OpenJob, Job(KIND_2, [HEADWALL])), (3, 15, "barrier_open"))

    def test_a_refused_call_alters_nothing(self):
        open_job = full_job()
        open_job.keep(0)
        for name in (1000, 1001):
            open_job.withdraw(name)
        open_job.keep(3)
        before, standing = bytes(open_job), open_job.hazards
        bad = replace(HEADWALL, level=7)
        near = replace(HEADWALL, near_offset=3999)
        out = bytearray(b"\x5A" * 7)
        for call, wanted in (
            (lambda: open_job.add(1002, HEADWALL), (12, 1002, "barrier_add")),
            (lambda: open_job.add(1002, bad), (12, 1002, "barrier_add")),
            (lambda: open_job.add(65535, bad), (4, 65535, "barrier_add")),
            (lambda: open_job.add(7, near), (5, 7, "barrier_add")),
            (lambda: open_job.withdraw(1000), (12, 1000, "barrier_withdraw")),
            (lambda: open_job.keep(8), (13, 0, "barrier_keep")),
            (lambda: open_job.return_to(1), (13, 0, "barrier_return")),
            (lambda: open_job.return_to(8), (13, 0, "barrier_return")),
            (lambda: open_job.schedule(2), (8, 0, "barrier_open_schedule")),
            (lambda: open_job.schedule_into(0, out), (9, 8, "barrier_open_schedule")),
        ):
            self.assertEqual(refusal(call), wanted)
            self.assertEqual(bytes(open_job), before)
            self.assertEqual(open_job.hazards, standing)
            self.assertEqual(out, b"\x5A" * 7)

    def test_full(self):
        open_job = full_job()
        before = bytes(open_job)
        self.assertEqual(refusal(open_job.add, 5, HEADWALL), (15, 0, "barrier_add"))
        self.assertEqual(refusal(open_job.add, 5, Hazard(9, 9, 9, 9, 9, 9)), (15, 0, "barrier_add"))
        self.assertEqual(refusal(open_job.add, 1000, HEADWALL), (12, 1000, "barrier_add"))
        self.assertEqual(bytes(open_job), before)
        open_job.withdraw(1100)
        open_job.add(5, HEADWALL)

    def test_memory_that_is_no_open_job(self):
        open_job = OpenJob(HEADER)
        ctypes.memset(ctypes.byref(open_job._memory, 300), 0xFF, 1)
        before = bytes(open_job)
        out = bytearray(b"\x5A" * 9)
        for call, name in (
            (lambda: open_job.add(1, HEADWALL), "barrier_add"),
            (lambda: open_job.withdraw(1), "barrier_withdraw"),
            (lambda: open_job.keep(9), "barrier_keep"),
            (lambda: open_job.return_to(9), "barrier_return"),
            (lambda: open_job.schedule_into(9, out), "barrier_open_schedule"),
        ):
            self.assertEqual(refusal(call), (3, 0, name))
        self.assertEqual((bytes(open_job), bytes(out)), (before, b"\x5A" * 9))
        self.assertEqual(open_job.hazards, {})

    def test_a_name_that_is_none(self):
        open_job = OpenJob(HEADER)
        for name in (-1, 65536):
            self.assertRaises(ValueError, open_job.add, name, HEADWALL)
            self.assertRaises(ValueError, open_job.withdraw, name)
        self.assertRaises(ValueError, open_job.add, 1, replace(HEADWALL, start=-1))


class LentMemory(unittest.TestCase):
    def test_the_output_after_a_refusal(self):
        for job, number, value in BAD_JOBS + [(PRINTED, 9, 8)]:
            out = bytearray(b"\xA5" * (7 if number == 9 else 6000))
            before = bytes(out)
            self.assertEqual(refusal(plan_into, job, 0, out), (number, value, "barrier_plan"))
            self.assertEqual(out, before)

    def test_the_jobs_bytes(self):
        for job, _, _ in BAD_JOBS + [(DATA, 0, 0)]:
            data = bytearray(job.to_bytes() if isinstance(job, Job) else job)
            before = bytes(data)
            refusal(plan, data, 0)
            self.assertEqual(data, before)


class Words(unittest.TestCase):
    def said(self, call, *arguments):
        with self.assertRaises(Refused) as caught:
            call(*arguments)
        return str(caught.exception)

    def test_they_say_what_can_be_done(self):
        open_job = OpenJob(HEADER)
        open_job.add(7, HEADWALL)
        broken = OpenJob(HEADER)
        ctypes.memset(ctypes.byref(broken._memory), 0xFF, 8)
        for text, call, *arguments in (
            ("barrier offset M, is outside its range; it has to be 0 to 20000", plan,
             Job(replace(HEADER, barrier_offset=20001)), 0),
            ("number 14, hazard count h (kind 1) or panel length (kind 2)", plan,
             HEADER.to_bytes()[:-1] + b"\x81\2", 0),
            ("0 to 256 (kind 1) or 1 to 10000 (kind 2)", plan, Job(replace(HEADER, panel=0)), 0),
            ("number 15, hazard count h, is outside its range; it has to be 0 to 256", plan,
             KIND_2.to_bytes()[:-1] + b"\x81\2", 0),
            ("hazards are added afterwards", OpenJob, PRINTED),
            ("hazards are added afterwards", OpenJob, Job(KIND_2, [HEADWALL])),
            ("let nothing else write to its memory", broken.keep, 0),
            ("hazard 1 leaves the barrier no room to deflect; its near offset n is below", plan,
             TOO_NEAR, 0),
            ("to be named 9 leaves", open_job.add, 9, replace(HEADWALL, near_offset=3999)),
            ("the hazard to be named 9 is outside", open_job.add, 9, replace(HEADWALL, level=7)),
            ("the name 7 stands already; take another name", open_job.add, 7, HEADWALL),
            ("the name 8 does not stand", open_job.withdraw, 8),
            ("the name 8 does not stand; it was never added", open_job.reach, 8),
            ("the memory is not an open job", broken.reach, 8),
            ("there is no such hazard in the job; hazards count from 0", reach, PRINTED, 1),
            ("nothing is kept under it", open_job.return_to, 1),
            ("keep under a number from 0 to 7", open_job.keep, 8),
            ("the side is neither 0 (right) nor 1 (left)", plan, PRINTED, 2),
            ("sheet corner", corners, PRINTED, 0, 10**12 + 1),
            ("the level is not 1 to 6", quantity, b"\0", 0, 0, 1),
            ("takes 8 bytes; lend as many", plan_into, PRINTED, 0, bytearray(7)),
            ("at most 64 ranges each", quantities, b"\0", 1, [(0, 1)] * 65),
        ):
            self.assertIn(text, self.said(call, *arguments))

    @unittest.skipUnless(shutil.which("cc"), "there is no cc")
    def test_they_are_those_of_the_header(self):
        """Every call, number and value: one text in C and in Python."""
        with tempfile.TemporaryDirectory() as folder:
            source, program = os.path.join(folder, "rows.c"), os.path.join(folder, "rows")
            with open(source, "w", encoding="utf-8") as file:
                file.write(ROWS_IN_C)
            include = "-I" + os.path.join(support.ROOT, "include")
            subprocess.run(["cc", "-std=c99", include, source, "-o", program], check=True)
            printed = subprocess.run([program], stdout=subprocess.PIPE, check=True).stdout.decode()
        rows = [f"{call} {number} {value}: {said_so.refusal(call, number, value)}: "
                f"{said_so.remedy(call, number, value)}"
                for call in CALLS for number in range(20) for value in VALUES]
        self.assertEqual(printed.splitlines(), rows)
        self.assertEqual(set(CALLS), set(c.CALLS))

    def test_a_refusal_can_be_stored(self):
        try:
            plan(TOO_NEAR, Side.RIGHT)
        except Refused as refused:
            again = pickle.loads(pickle.dumps(refused))
        self.assertEqual((again.number, again.value, again.call), (5, 1, "barrier_plan"))
        self.assertEqual(str(again), f"barrier_plan refused 5 with 1: {again.message}")


if __name__ == "__main__":
    unittest.main()
