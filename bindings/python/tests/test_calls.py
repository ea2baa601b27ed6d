"""Each call's replies: the manual's figures, and one call held against another."""
import random
import unittest
from dataclasses import replace

import support
from barrier_engine import (
    Job, Reach, Run, SCHEDULE_MAX, Side, bytes_of_text, corners, layout, level, lookup, offset, plan,
    plan_into, quantities, quantity, reach, runs_of_bytes, version,
)

PRINTED = support.PRINTED
RIGHT_SCHEDULE = bytes.fromhex("01FDC009D3A70303")


def shown(runs, station):
    """The level that a run list shows at a station."""
    return next((run.level for run in runs if run.start <= station < run.end), 0)


class Plan(unittest.TestCase):
    def test_the_printed_example(self):
        right, left = plan(PRINTED, Side.RIGHT), plan(PRINTED, Side.LEFT)
        self.assertEqual(right.data, RIGHT_SCHEDULE)
        self.assertEqual(right.runs, (Run(155773, 210000, 3),))
        self.assertEqual((right.before, right.after), (0, 0))
        self.assertEqual((left.data, left.runs), (b"\0", ()))

    def test_every_sample_job(self):
        for name in support.sample_jobs():
            wanted = support.sample_text(name, ".out").splitlines()
            if wanted[0].startswith("refused"):
                continue
            data = bytes_of_text(support.sample_text(name))
            lines, totals = [], []
            for side, letter in ((Side.RIGHT, "R"), (Side.LEFT, "L")):
                runs = plan(data, side).runs
                lines += [f"{letter} {run.start} {run.end} {run.level}" for run in runs]
                totals.append(sum(run.length for run in runs))
            self.assertEqual(lines + ["total {} {}".format(*totals)], wanted, name)

    def test_overhangs_of_the_sample_job(self):
        data = bytes_of_text(support.sample_text("overhang"))
        ends = [(plan(data, side).before, plan(data, side).after) for side in Side]
        self.assertEqual(ends, [(21501, 20758), (0, 42227)])

    def test_only_the_schedules_bytes_are_written(self):
        out = bytearray(b"\xA5" * 20)
        done = plan_into(PRINTED, Side.RIGHT, out)
        self.assertEqual((done.written, done.before, done.after), (8, 0, 0))
        self.assertEqual(out, RIGHT_SCHEDULE + b"\xA5" * 12)

    def test_bytes_of_every_kind(self):
        data = PRINTED.to_bytes()
        for job in (PRINTED, data, bytearray(data), memoryview(data)):
            self.assertEqual(plan(job, Side.RIGHT).data, RIGHT_SCHEDULE)


class Level(unittest.TestCase):
    def test_the_printed_example(self):
        asked = [level(PRINTED, Side.RIGHT, t) for t in (0, 155772, 155773, 209999, 210000, 1 << 63)]
        self.assertEqual(asked, [0, 0, 3, 3, 0, 0])

    def test_as_the_schedule_shows_it(self):
        chance = random.Random(5)
        job = support.made_job(40)
        schedules = [plan(job, side) for side in Side]
        for side in Side:
            runs = schedules[side].runs
            ends = [t + d for run in runs for t in (run.start, run.end) for d in (-1, 0)]
            for station in [t for t in ends if t >= 0] + [chance.randrange(1000000) for _ in range(50)]:
                here = level(job, side, station)
                self.assertEqual(here, shown(runs, station))
                self.assertEqual(lookup(*schedules, side, station) is None, here == 0)


class CornerPoints(unittest.TestCase):
    def test_the_manuals_figures(self):
        self.assertEqual(corners(PRINTED, 0).upstream, (155773, 5059))
        self.assertEqual(corners(PRINTED, 0).flare, (186660, 3000))
        self.assertEqual(corners(PRINTED, 0).hazard, (200000, 3000))
        moved = corners(PRINTED, 0, 160000, 4000)
        self.assertEqual((moved.upstream, moved.flare, moved.hazard),
                         ((-4227, 1059), (26660, -1000), (40000, -1000)))

    def test_without_a_flare_the_second_repeats_the_first(self):
        found = corners(support.job(support.NO_FLARE), 0)
        self.assertEqual(found.upstream, (132666, 3000))
        self.assertEqual(found.flare, found.upstream)

    def test_on_the_far_chainage(self):
        data = bytes_of_text(support.sample_text("chainage"))
        self.assertEqual(corners(data, 0).upstream, (999000155773, 5059))
        self.assertEqual(corners(data, 0, 10**12, 10**12).upstream, (155773 - 10**9, 5059 - 10**12))


class Offset(unittest.TestCase):
    def test_the_manuals_figures(self):
        for longest, wanted in ((63485, 0), (63484, 1), (44227, 3000), (40000, 3659),
                                (37807, 4000), (37806, None), (0, None), ((1 << 64) - 1, 0)):
            self.assertEqual(offset(PRINTED, 0, longest), wanted, longest)

    def test_the_offset_found_plans_so_long(self):
        planned = replace(PRINTED, header=replace(support.HEADER, barrier_offset=3659))
        self.assertEqual(200000 - plan(planned, Side.RIGHT).runs[0].start, 39996)


class Reached(unittest.TestCase):
    def test_the_manuals_figures(self):
        for hazard, continuity, envelope, before, stretch in (
            ({}, 0, (155773, 210000), 0, (155773, 210000)),
            ({}, 50000, (155773, 210000), 0, (105773, 260000)),
            ({"start": 20000, "end": 30000}, 50000, (0, 30000), 24227, (0, 80000)),
            ({"near_offset": 9000}, 50000, None, 0, None),
        ):
            for side in Side:
                job = support.job(replace(support.HEADER, continuity=continuity), {**hazard, "side": side})
                self.assertEqual(reach(job, 0), Reach(side, envelope, before, 0, stretch))

    def test_at_the_end_of_a_road_on_the_far_chainage(self):
        header = replace(support.HEADER, begin=10**12 - 1000000, end=10**12, runout_opposite=101000,
                         continuity=200000)
        job = support.job(header, {"side": 1, "start": 10**12 - 10, "end": 10**12})
        self.assertEqual(reach(job.to_bytes(), 0), Reach(
            Side.LEFT, (10**12 - 44237, 10**12), 0, 44227, (10**12 - 244237, 10**12)))


class Quantity(unittest.TestCase):
    def test_one_range(self):
        schedule = plan(PRINTED, Side.RIGHT)
        for p, q, wanted in ((0, 180000, 24227), (180000, 1000000, 30000), (0, 155773, 0),
                             (155773, 155774, 1), (200000, 200000, 0), (0, (1 << 64) - 1, 54227)):
            self.assertEqual(quantity(schedule, 3, p, q), wanted)
            self.assertEqual(quantity(schedule.data, 2, p, q), 0)

    def test_many_ranges_as_single_ones(self):
        schedule = plan(support.made_job(60), Side.RIGHT)
        stations = sorted(random.Random(3).randrange(5000000) for _ in range(65))
        ranges = list(zip(stations, stations[1:]))
        for value in range(1, 7):
            found = quantities(schedule, value, ranges)
            self.assertEqual(found.records, len(schedule.runs))
            self.assertEqual(found.quantities,
                             tuple(quantity(schedule, value, p, q) for p, q in ranges))
            self.assertEqual(sum(found.quantities),
                             quantity(schedule, value, stations[0], stations[-1]))

    def test_no_range(self):
        found = quantities(plan(PRINTED, Side.RIGHT), 1, [])
        self.assertEqual((found.records, found.quantities), (1, ()))


class Lookup(unittest.TestCase):
    def test_the_record(self):
        right, left = plan(PRINTED, Side.RIGHT), plan(PRINTED, Side.LEFT)
        record = lookup(right, left, Side.RIGHT, 155773)
        self.assertEqual((record.start, record.end), (1, 8))
        for side, station in ((Side.RIGHT, 155772), (Side.RIGHT, 210000), (Side.LEFT, 155773)):
            self.assertIsNone(lookup(right, left, side, station))

    def test_the_other_schedule_is_not_read(self):
        self.assertIsNotNone(lookup(RIGHT_SCHEDULE, b"\xFF\xFF", Side.RIGHT, 209999))
        self.assertIsNone(lookup(b"", b"\0", Side.LEFT, 209999))


class LayoutOfPanels(unittest.TestCase):
    def test_the_manuals_figures(self):
        for limit, counts, overrun, tries in (
            (94, None, None, 94), (95, (5, 14), 773, 95), (137, (5, 14), 773, 137),
            (138, (8, 9), 273, 138), (65536, (8, 9), 273, 256),
        ):
            found = layout([4000, 2500], 54227, limit)
            laid = found.laid and (found.laid.counts, found.laid.overrun)
            self.assertEqual(laid, None if counts is None else (counts, overrun))
            self.assertEqual((found.tries, found.floor), (tries, 273))

    def test_the_ends(self):
        self.assertEqual(layout([4000, 2500], 0).laid.counts, (0, 0))
        self.assertEqual(layout([4000, 2500], 97500).laid.counts, (15, 15))
        self.assertIsNone(layout([4000, 2500], 97501).laid)
        self.assertEqual(layout([1, 1, 1, 1], 60).tries, 65536)
        self.assertEqual(layout([20000], (1 << 64) - 1).laid, None)


class OutOfReach(unittest.TestCase):
    """Numbers that the call could not be handed as they are."""

    def test_a_number_that_64_bits_do_not_hold(self):
        schedule = plan(PRINTED, Side.RIGHT)
        for bad in (-1, 1 << 64):
            for call in (
                lambda: plan(PRINTED, bad), lambda: level(PRINTED, 0, bad),
                lambda: level(PRINTED, bad, 0), lambda: corners(PRINTED, bad),
                lambda: corners(PRINTED, 0, bad, 0), lambda: corners(PRINTED, 0, 0, bad),
                lambda: offset(PRINTED, bad, 0), lambda: offset(PRINTED, 0, bad),
                lambda: quantity(schedule, bad, 0, 1), lambda: quantity(schedule, 1, bad, 1),
                lambda: quantity(schedule, 1, 0, bad), lambda: quantities(schedule, 1, [(0, bad)]),
                lambda: lookup(schedule, b"", bad, 0), lambda: lookup(schedule, b"", 0, bad),
                lambda: layout([bad], 1), lambda: layout([1], bad), lambda: layout([1], 1, bad),
            ):
                self.assertRaises(ValueError, call)

    def test_a_whole_float_is_taken_and_another_is_named(self):
        self.assertEqual(level(PRINTED, 0, 155773.0), 3)
        self.assertEqual(layout([4000.0], 8000.0).laid.counts, (2,))
        hazard = replace(support.HEADWALL, start=200000.0, near_offset=5000.0)
        self.assertEqual((hazard, type(hazard.start)), (support.HEADWALL, int))
        for call, said in (
            (lambda: level(PRINTED, 0, 155773.5), "a station has to be a whole number of millimetres"),
            (lambda: replace(support.HEADWALL, start=155.773), "start has to be a whole number"),
            (lambda: replace(support.HEADER, clear_zone=float("nan")), "clear_zone has to be a whole"),
        ):
            with self.assertRaisesRegex(ValueError, said):
                call()
        for wrong in ("155773", b"1", [1], None, 1j):
            with self.assertRaisesRegex(TypeError, r"whole number of millimetres .* millimetres\(\) takes"):
                level(PRINTED, 0, wrong)

    def test_numbers_of_other_kinds(self):
        class Whole:
            """As numpy's integers are: no int, but an index."""

            def __init__(self, value):
                self.value = value

            def __index__(self):
                return int(self.value)

        self.assertEqual(level(PRINTED, Whole(0), Whole(155773)), 3)
        hazard = support.Hazard(*map(Whole, support.HEADWALL.numbers()))
        self.assertEqual(hazard, support.HEADWALL)
        self.assertEqual(layout([Whole(4000)], Whole(8000)).laid.counts, (2,))

    def test_numpy(self):
        try:
            import numpy
        except ImportError:
            self.skipTest("there is no numpy")
        for kind in (numpy.int32, numpy.int64, numpy.uint32, numpy.float64, numpy.float32):
            hazard = support.Hazard(*map(kind, support.HEADWALL.numbers()))
            self.assertEqual(hazard, support.HEADWALL)
            self.assertEqual(level(PRINTED, kind(0), kind(155773)), 3)
            self.assertEqual(layout(numpy.array([4000], kind), kind(8000)).laid.counts, (2,))


class OfTheLibrary(unittest.TestCase):
    def test_the_version(self):
        # None where the library is too old to say.
        found = version()
        if found is not None:
            self.assertEqual(found.major, 3)
            self.assertLess(max(found.minor, found.patch), 1000)

    def test_the_longest_schedule_fits(self):
        header = replace(support.HEADER, begin=999000000000, end=999002000000, runout_forward=1)
        hazards = [replace(support.HEADWALL, start=header.begin + 6000 * i + 5000,
                           end=header.begin + 6000 * i + 9000, level=1 + i % 6) for i in range(256)]
        schedule = plan(Job(header, hazards), Side.RIGHT)
        self.assertEqual(len(schedule.runs), 256)
        self.assertLessEqual(len(schedule.data), SCHEDULE_MAX)
        self.assertEqual(runs_of_bytes(schedule.data)[0].start, 999000004999)


if __name__ == "__main__":
    unittest.main()
