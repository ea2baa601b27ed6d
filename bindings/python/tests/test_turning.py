"""Driving on the left and falling stations: the manual's figures, there and back."""
import random
import unittest
from dataclasses import replace

import support
from barrier_engine import (
    Corner, Job, Orientation, Run, Side, corners, level, plan, plan_road, read_text, swap_side,
    text_of_job, turn_corner, turn_hazard, turn_overhangs, turn_range, turn_run, turn_station,
)

# The two-way road of the manual's table, "Sides and traffic".
TWO_WAY = replace(support.NO_FLARE, runout_opposite=101000, centreline=3500)


def written(job, *lines):
    """The text of a job as its road has it, with lines that say how it is driven."""
    return "".join(f"{line}\n" for line in lines) + text_of_job(job)


def placed(road):
    """The runs and overhangs of both sides."""
    return [(side.runs, side.before, side.after) for side in road.sides]


class TheManualsFigures(unittest.TestCase):
    def test_driving_on_the_left(self):
        near, far = (Run(132666, 238056, 3),), (Run(171944, 277334, 3),)
        for lines, side, wanted in (
            ((), Side.RIGHT, near), ((), Side.LEFT, far),
            (("drives left",), Side.LEFT, near), (("drives left",), Side.RIGHT, far),
        ):
            job = Job(TWO_WAY, [replace(support.HEADWALL, side=side)])
            road = plan_road(read_text(written(job, *lines)))
            self.assertEqual(road.sides[side].runs, wanted, (lines, side))
            self.assertEqual(road.sides[1 - side].runs, ())
            self.assertEqual(road.hazards[0].hazard, job.hazards[0])

    def test_sides_not_swapped_begin_39278_too_late(self):
        left = plan(Job(TWO_WAY, [replace(support.HEADWALL, side=Side.LEFT)]), Side.LEFT)
        right = plan(Job(TWO_WAY, [support.HEADWALL]), Side.RIGHT)
        self.assertEqual(left.runs[0].start - right.runs[0].start, 39278)

    def test_falling_stations(self):
        begin, end = support.HEADER.begin, support.HEADER.end
        turned = turn_hazard(begin, end, support.HEADWALL)
        self.assertEqual((turned.side, turned.start, turned.end), (Side.LEFT, 790000, 800000))
        schedule = plan(Job(support.HEADER, [turned]), turned.side)
        self.assertEqual(schedule.runs, (Run(745773, 800000, 3),))
        self.assertEqual(turn_run(begin, end, schedule.runs[0]), Run(200000, 254227, 3))
        road = plan_road(read_text(written(support.PRINTED, "stations fall")))
        self.assertEqual(road.sides[Side.RIGHT].runs, (Run(200000, 254227, 3),))
        self.assertEqual(road.sides[Side.LEFT].runs, ())
        upstream = road.hazards[0].corners.upstream
        self.assertEqual((upstream.station, upstream.offset), (254227, 5059))


class ThereAndBack(unittest.TestCase):
    def test_each_undoes_itself(self):
        chance = random.Random(5)
        for _ in range(300):
            begin = chance.randrange(10**12)
            end = begin + chance.randrange(1, 2 * 10**9)
            start = chance.randrange(begin, end)
            stop = chance.randrange(start + 1, end + 1)
            hazard = support.Hazard(chance.randrange(2), start, stop, 5000, 9000, 3)
            run, corner = Run(start, stop, 2), Corner(float(start - 99), 5059.0)
            self.assertEqual(turn_hazard(begin, end, turn_hazard(begin, end, hazard)), hazard)
            self.assertEqual(turn_run(begin, end, turn_run(begin, end, run)), run)
            self.assertEqual(turn_corner(begin, end, turn_corner(begin, end, corner)), corner)
            self.assertEqual(turn_station(begin, end, turn_station(begin, end, start)), start)
            self.assertEqual(turn_range(begin, end, *turn_range(begin, end, start, stop)), (start, stop))
            self.assertEqual(turn_overhangs(*turn_overhangs(3, 4)), (3, 4))
            self.assertEqual(swap_side(swap_side(hazard.side)), hazard.side)
            self.assertTrue(begin <= turn_station(begin, end, start) < end)
            for drives, falls in ((0, 0), (0, 1), (1, 0), (1, 1)):
                lies = Orientation(begin, end, bool(drives), bool(falls))
                self.assertEqual(lies.hazard(lies.hazard(hazard)), hazard)

    def test_what_is_no_side_stays(self):
        self.assertEqual([swap_side(side) for side in (0, 1, 2, 99)], [1, 0, 2, 99])

    def test_a_station_of_a_hazard_is_one_of_the_turned_hazard(self):
        turned = turn_hazard(0, 1000000, support.HEADWALL)
        for station in (199999, 200000, 209999, 210000):
            inside = support.HEADWALL.start <= station < support.HEADWALL.end
            there = turn_station(0, 1000000, station)
            self.assertEqual(turned.start <= there < turned.end, inside)


class AsTheEngineTakesThem(unittest.TestCase):
    """The lines of the text are the helpers: turning first, then swapping."""

    def test_the_bytes(self):
        job = Job(replace(support.made_job(20).header, runout_opposite=0), support.made_job(20).hazards)
        begin, end = job.header.begin, job.header.end
        turned = [turn_hazard(begin, end, hazard) for hazard in job.hazards]
        both = [replace(hazard, side=swap_side(hazard.side)) for hazard in turned]
        swapped = [replace(hazard, side=swap_side(hazard.side)) for hazard in job.hazards]
        for lines, hazards in (
            ((), job.hazards), (("stations fall",), turned), (("drives left",), swapped),
            (("drives left", "stations fall"), both), (("stations fall", "drives left"), both),
        ):
            read = read_text(written(job, *lines))
            self.assertEqual(read.data, Job(job.header, hazards).to_bytes(), lines)
            self.assertEqual([read.orientation.side(side) for side in Side],
                             [0, 1] if len(lines) != 1 else [1, 0])


class WholeRoads(unittest.TestCase):
    def test_a_swapped_road_is_the_mirror_image(self):
        job = support.made_job(20)
        mirrored = Job(job.header, [replace(h, side=1 - h.side) for h in job.hazards])
        plain = plan_road(read_text(text_of_job(job)))
        swapped = plan_road(read_text(written(mirrored, "drives left")))
        self.assertEqual(placed(swapped), placed(plain)[::-1])
        self.assertEqual([h.envelope for h in swapped.hazards], [h.envelope for h in plain.hazards])
        self.assertEqual([h.corners for h in swapped.hazards], [h.corners for h in plain.hazards])
        self.assertEqual([side.rises for side in swapped.sides], [False, True])

    def test_a_turned_road_is_the_road_seen_from_the_other_end(self):
        job = Job(replace(support.made_job(20).header, runout_opposite=0), support.made_job(20).hazards)
        begin, end = job.header.begin, job.header.end
        turned = Job(job.header, [turn_hazard(begin, end, h) for h in job.hazards])
        plain = plan_road(read_text(text_of_job(job)))
        fallen = plan_road(read_text(written(turned, "stations fall")))
        for side in Side:
            here, there = fallen.sides[side], plain.sides[1 - side]
            self.assertEqual(here.runs, tuple(turn_run(begin, end, r) for r in there.runs[::-1]))
            self.assertEqual((here.before, here.after), (there.after, there.before))
        for here, there in zip(fallen.hazards, plain.hazards):
            self.assertEqual(here.hazard, turn_hazard(begin, end, there.hazard))
            if there.envelope is None:
                self.assertIsNone(here.envelope)
            else:
                self.assertEqual(here.envelope, turn_range(begin, end, *there.envelope))
                self.assertEqual(here.corners.upstream, turn_corner(begin, end, there.corners.upstream))

    def test_levels_and_corners_by_the_engine(self):
        job = replace(support.PRINTED, header=support.HEADER)
        text = written(job, "stations fall", "drives left")
        read = read_text(text)
        road = plan_road(read)
        lies = read.orientation
        for station in (199999, 200000, 254226, 254227):
            asked = turn_station(lies.begin, lies.end, station)
            here = level(read.data, lies.side(Side.RIGHT), asked)
            self.assertEqual(here, 3 if 200000 <= station < 254227 else 0)
        self.assertEqual(road.sides[Side.RIGHT].runs, (Run(200000, 254227, 3),))
        self.assertEqual(turn_corner(0, 1000000, corners(read.data, 0).upstream),
                         road.hazards[0].corners.upstream)


if __name__ == "__main__":
    unittest.main()
