"""Several calls at once: each reply is the one that a single thread gets."""
import threading
import time
import unittest
from concurrent.futures import ThreadPoolExecutor
from unittest import mock

import support
from barrier_engine import OpenJob, Refused, Side, c, layout, level, plan, quantity

JOBS = [support.made_job(count) for count in (1, 5, 10, 60, 100, 256)]


def replies(index):
    """What several calls say of one job."""
    job = JOBS[index % len(JOBS)]
    schedules = [plan(job, side) for side in Side]
    levels = [level(job, side, 7919 * index) for side in Side]
    quantities = [quantity(schedule, 3, 0, 5000000) for schedule in schedules]
    return schedules, levels, quantities, layout([4000, 2500, 300], 54227 + index, 2000)


class SlowLibrary:
    """Stands in for the library: each call takes a while, and how many run is noted."""

    def __init__(self):
        self.running, self.most = 0, 0

    def __getattr__(self, name):
        reply = c.PlanReply if name == "barrier_open_schedule" else c.Reply

        def call(*arguments):
            self.running += 1
            self.most = max(self.most, self.running)
            time.sleep(0.002)
            self.running -= 1
            return reply()

        return call


class Threads(unittest.TestCase):
    def test_calls_on_one_open_job_wait_for_one_another(self):
        open_job = OpenJob(support.HEADER)
        open_job.add(0, support.HEADWALL)
        open_job.keep(0)
        slow = SlowLibrary()
        calls = [
            lambda: open_job.add(1, support.HEADWALL), lambda: open_job.withdraw(0),
            lambda: open_job.keep(1), lambda: open_job.return_to(0), lambda: open_job.schedule(0),
        ]
        with mock.patch.object(c, "library", lambda: slow):
            for call in calls:
                # Withdraw has to find its name each time it says done.
                open_job._standing = {name: support.HEADWALL for name in (0, 1)}
                with ThreadPoolExecutor(2) as pool:
                    both = [pool.submit(call), pool.submit(open_job.schedule, 0)]
                    for one in both:
                        one.result()
        self.assertEqual(slow.most, 1)

    def test_several_calls_at_once(self):
        wanted = [replies(index) for index in range(60)]
        with ThreadPoolExecutor(6) as pool:
            found = list(pool.map(replies, range(60)))
        self.assertEqual(found, wanted)

    def test_one_open_job(self):
        open_job = OpenJob(support.HEADER)
        added, full = [], []

        def add(name):
            try:
                open_job.add(name, support.HEADWALL)
                added.append(name)
            except Refused as refused:
                full.append(refused.number)

        with ThreadPoolExecutor(6) as pool:
            list(pool.map(add, range(300)))
        self.assertEqual((len(added), full), (256, [15] * 44))
        self.assertEqual(sorted(added), list(open_job.hazards))
        self.assertEqual(open_job.schedule(Side.RIGHT), plan(support.PRINTED, Side.RIGHT))

    def test_a_small_stack(self):
        found = []
        before = threading.stack_size(256 * 1024)
        try:
            thread = threading.Thread(target=lambda: found.append(replies(5)))
            thread.start()
        finally:
            threading.stack_size(before)
        thread.join()
        self.assertEqual(found, [replies(5)])


if __name__ == "__main__":
    unittest.main()
