"""An open job as an object: what stands, copies, kept states."""
import copy
import pickle
import random
import unittest
from dataclasses import replace

import support
from barrier_engine import Job, OpenJob, Reach, Refused, Side, plan, reach
from support import HEADER, HEADWALL

LATER = replace(HEADWALL, start=600000, end=600300, level=2)


class Standing(unittest.TestCase):
    def test_what_stands(self):
        open_job = OpenJob(HEADER)
        open_job.add(1020, LATER)
        open_job.add(7, HEADWALL)
        self.assertEqual(open_job.hazards, {7: HEADWALL, 1020: LATER})
        self.assertEqual(list(open_job.hazards), [7, 1020])
        self.assertEqual(open_job.job(), Job(HEADER, [HEADWALL, LATER]))
        open_job.withdraw(7)
        self.assertEqual(open_job.hazards, {1020: LATER})

    def test_a_reach_changes_nothing(self):
        open_job = OpenJob(replace(HEADER, continuity=50000))
        open_job.add(7, HEADWALL)
        before = bytes(open_job)
        self.assertEqual(open_job.reach(7), Reach(Side.RIGHT, (155773, 210000), 0, 0, (105773, 260000)))
        for name in (6, 8, 263, 65535):
            with self.assertRaises(Refused) as caught:
                open_job.reach(name)
            self.assertEqual((caught.exception.number, caught.exception.value), (12, name))
        for name in (-1, 65536, 7 + 65536):
            with self.assertRaises(ValueError):
                open_job.reach(name)
        self.assertEqual(bytes(open_job), before)

    def test_opened_from_bytes_of_both_kinds(self):
        for header in (HEADER, replace(HEADER, panel=4000)):
            for given in (header, header.to_bytes(), Job(header)):
                open_job = OpenJob(given)
                self.assertEqual(open_job.header, header)
                self.assertEqual(open_job.schedule(Side.LEFT).data, b"\0")

    def test_random_lists_of_calls(self):
        chance = random.Random(11)
        header = support.made_job(1).header
        open_job = OpenJob(header)
        standing, kept = {}, {}
        for step in range(400):
            name, state = chance.randrange(12) * 5000, chance.randrange(3)
            choice = chance.randrange(5)
            if choice <= 1 and name not in standing:
                standing[name] = support.random_hazard(chance, header)
                open_job.add(name, standing[name])
            elif choice == 2 and name in standing:
                del standing[name]
                open_job.withdraw(name)
            elif choice == 3:
                kept[state] = dict(standing)
                open_job.keep(state)
            elif choice == 4 and state in kept:
                standing = dict(kept[state])
                open_job.return_to(state)
            if step % 10 == 0:
                self.assertEqual(open_job.hazards, standing)
                for index, name in enumerate(sorted(standing)):
                    self.assertEqual(open_job.reach(name), reach(open_job.job(), index))
                for side in Side:
                    self.assertEqual(open_job.schedule(side), plan(open_job.job(), side))


class Copies(unittest.TestCase):
    def test_copied_and_stored_by_the_standard_modules(self):
        open_job = OpenJob(support.HEADER)
        open_job.add(7, support.HEADWALL)
        open_job.keep(3)
        open_job.withdraw(7)
        for twin in (copy.copy(open_job), copy.deepcopy(open_job), copy.deepcopy([open_job])[0],
                     pickle.loads(pickle.dumps(open_job))):
            self.assertEqual(twin, open_job)
            twin.return_to(3)
            self.assertEqual(twin.hazards, {7: support.HEADWALL})
            self.assertEqual(twin.schedule(0), plan(support.PRINTED, 0))
            self.assertEqual(open_job.hazards, {})

    def test_a_copy_goes_its_own_way(self):
        first = OpenJob(HEADER)
        first.add(7, HEADWALL)
        first.keep(2)
        second = first.copy()
        self.assertEqual(first, second)
        second.withdraw(7)
        self.assertNotEqual(first, second)
        self.assertEqual(first.hazards, {7: HEADWALL})
        second.return_to(2)
        self.assertEqual(first, second)
        second.keep(3)
        self.assertNotEqual(first, second)

    def test_equal_however_they_came_there(self):
        first, second = OpenJob(HEADER), OpenJob(HEADER)
        first.add(1, HEADWALL)
        first.add(2, LATER)
        second.add(2, LATER)
        second.add(3, LATER)
        second.add(1, HEADWALL)
        second.withdraw(3)
        self.assertEqual(bytes(first), bytes(second))
        self.assertNotEqual(first, "an open job")

    def test_only_the_schedules_bytes_are_written(self):
        open_job = OpenJob(HEADER)
        open_job.add(7, HEADWALL)
        out = bytearray(b"\xA5" * 12)
        self.assertEqual(open_job.schedule_into(Side.RIGHT, out).written, 8)
        self.assertEqual(out, plan(support.PRINTED, 0).data + b"\xA5" * 4)


if __name__ == "__main__":
    unittest.main()
