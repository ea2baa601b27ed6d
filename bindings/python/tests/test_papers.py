"""Document 01's cases K1 to K10, and figures of document 02's requests."""
import unittest
from dataclasses import replace

import support
from barrier_engine import (
    Job, OpenJob, Run, Side, corners, layout, level, plan, quantities, reach,
)
from support import HEADER, HEADWALL, NO_FLARE, refusal

K4_HEADER = replace(NO_FLARE, runout_opposite=101000, centreline=3500)


def right(job):
    return [(run.start, run.end, run.level) for run in plan(job, Side.RIGHT).runs]


def length(job):
    """The approach length: how far before the headwall its run begins."""
    return 200000 - right(job)[0][0]


class Cases(unittest.TestCase):
    def test_k1_to_k3_lengths(self):
        self.assertEqual(length(support.job()), 44227)
        self.assertEqual(length(support.job(NO_FLARE)), 67334)
        k3 = replace(NO_FLARE, runout_forward=88000, clear_zone=8500, barrier_offset=2000)
        self.assertEqual(length(support.job(k3)), 67295)

    def test_k4_both_traffics(self):
        self.assertEqual(right(support.job(K4_HEADER)), [(132666, 238056, 3)])

    def test_k5_far_traffic_does_not_reach(self):
        self.assertEqual(right(support.job(K4_HEADER, {"near_offset": 5500})), [(132666, 210000, 3)])

    def test_k6_the_clear_zone(self):
        self.assertEqual(len(right(support.job(HEADER, {"near_offset": 8999}))), 1)
        self.assertEqual(right(support.job(HEADER, {"near_offset": 9000})), [])

    def test_k7_room_to_deflect(self):
        self.assertEqual(len(right(support.job(HEADER, {"near_offset": 4000}))), 1)
        bad = support.job(HEADER, {"near_offset": 3999})
        self.assertEqual(refusal(plan, bad, Side.RIGHT), (5, 0, "barrier_plan"))

    def test_k8_the_roads_begin(self):
        for start, before in ((67334, 0), (67333, 1)):
            schedule = plan(support.job(NO_FLARE, {"start": start}), Side.RIGHT)
            self.assertEqual(schedule.runs, (Run(0, 210000, 3),))
            self.assertEqual((schedule.before, schedule.after), (before, 0))

    def test_k9_the_continuity_limit(self):
        header = replace(HEADER, runout_forward=1, continuity=50000)
        for gap, runs in ((49999, 1), (50000, 2)):
            # A runout length of 1 makes each approach length 1.
            job = support.job(header, {"level": 2},
                              {"start": 210001 + gap, "end": 300000, "level": 2})
            self.assertEqual(len(right(job)), runs)

    def test_k10_between_levels(self):
        header = replace(NO_FLARE, runout_forward=1, continuity=50)
        job = support.job(header, {"start": 1, "end": 100}, {"start": 141, "end": 200, "level": 1})
        self.assertEqual(right(job), [(0, 100, 3), (100, 200, 1)])


class Requests(unittest.TestCase):
    def test_1_lots_that_share_a_boundary(self):
        schedule = plan(support.PRINTED, Side.RIGHT)
        found = quantities(schedule, 3, [(0, 155773), (155773, 180000), (180000, 1000000), (0, 1000000)])
        self.assertEqual(found.quantities, (0, 24227, 30000, 54227))
        self.assertEqual(found.records, 1)

    def test_2_the_straight_part(self):
        for straight, wanted in ((67333, 67334), (67334, 67334), (100000, 67334), (13340, 44227)):
            self.assertEqual(length(support.job(replace(HEADER, straight=straight))), wanted)

    def test_3_and_12_an_open_job_plans_what_stands(self):
        made = support.made_job(30)
        open_job = OpenJob(made.header)
        for index, hazard in enumerate(made.hazards):
            open_job.add(65535 - 7 * index, hazard)
        for index in range(0, 30, 3):
            open_job.withdraw(65535 - 7 * index)
        left = made.with_hazards(*[h for i, h in enumerate(made.hazards) if i % 3])
        for side in Side:
            self.assertEqual(open_job.schedule(side), plan(left, side))

    def test_4_whole_panels(self):
        for panel, wanted in ((4000, 48000), (1, 44227), (44227, None), (10000, 50000), (9999, 49995)):
            job = support.job(replace(HEADER, panel=panel))
            if wanted is None:
                self.assertEqual(refusal(plan, job, 0), (3, 14, "barrier_plan"))
            else:
                self.assertEqual(length(job), wanted)

    def test_5_underfoot(self):
        job = support.made_job(10)
        for side in Side:
            for run in plan(job, side).runs:
                self.assertEqual(level(job, side, run.start), run.level)
                self.assertEqual(level(job, side, run.end - 1), run.level)

    def test_7_a_variant_and_back(self):
        open_job = OpenJob(HEADER)
        open_job.add(1, HEADWALL)
        open_job.keep(7)
        kept = open_job.schedule(Side.RIGHT)
        open_job.withdraw(1)
        self.assertEqual(open_job.schedule(Side.RIGHT).runs, ())
        open_job.return_to(7)
        self.assertEqual(open_job.schedule(Side.RIGHT), kept)

    def test_8_the_greatest_overhang_of_each_end(self):
        header = replace(K4_HEADER, end=300000)
        job = support.job(header, {"start": 10000, "end": 20000}, {"start": 280000, "end": 299000})
        schedule = plan(job, Side.RIGHT)
        self.assertEqual((schedule.before, schedule.after), (57334, 27056))
        self.assertEqual((plan(job, Side.LEFT).before, plan(job, Side.LEFT).after), (0, 0))

    def test_9_corners_in_panels_before_the_road(self):
        job = support.job(replace(HEADER, panel=4000), {"start": 40000, "end": 50000})
        found = corners(job, 0)
        # 3000 + (48000 - 13340) / 15 is 5310.7, down to 5310.
        self.assertEqual(found.upstream, (-8000, 5310))
        self.assertEqual(found.flare, (26660, 3000))

    def test_9_panels_longer_than_the_straight_part_do_not_bend(self):
        header = replace(HEADER, straight=67334, panel=4000)
        found = corners(support.job(header), 0)
        self.assertEqual(found.upstream, (132000, 3000))
        self.assertEqual(found.flare, found.upstream)

    def test_9_opposite_traffic_comes_from_higher_stations(self):
        job = support.job(K4_HEADER, {"side": Side.LEFT})
        self.assertEqual(corners(job, 0).hazard, (210000, 3000))
        self.assertEqual(corners(job, 0).upstream, (277334, 3000))

    def test_11_the_national_chainage(self):
        header = replace(HEADER, begin=998000000000, end=1000000000000)
        job = Job(header, [replace(HEADWALL, start=999999990000, end=1000000000000)])
        self.assertEqual(right(job), [(999999945773, 1000000000000, 3)])

    def test_13_lengths_4_and_6_and_a_run_of_21(self):
        for limit, counts, overrun, tries in (
            (4, None, None, 4), (5, (0, 4), 3, 5), (19, (0, 4), 3, 19), (20, (1, 3), 1, 20),
            (256, (1, 3), 1, 256), (65536, (1, 3), 1, 256),
        ):
            found = layout([4, 6], 21, limit)
            laid = found.laid and (found.laid.counts, found.laid.overrun)
            self.assertEqual(laid, counts and (counts, overrun), limit)
            self.assertEqual((found.tries, found.floor), (tries, 1))

    def test_14_how_far_one_withdrawal_reaches(self):
        made = support.made_job(30)
        limit = made.header.continuity
        for index, hazard in enumerate(made.hazards):
            alone = plan(made.with_hazards(hazard), hazard.side)
            found = reach(made, index)
            self.assertEqual(found.side, hazard.side)
            self.assertEqual((found.before, found.after), (alone.before, alone.after))
            self.assertEqual([found.envelope] if found.envelope else [],
                             [(run.start, run.end) for run in alone.runs])
            start, end = found.stretch or (0, 0)
            without = made.with_hazards(*made.hazards[:index], *made.hazards[index + 1:])
            self.assertEqual(plan(made, 1 - hazard.side), plan(without, 1 - hazard.side))
            for station in range(0, 1000000, 9973):
                inside = any(r.start - limit <= station < r.end + limit for r in alone.runs)
                self.assertEqual(inside, start <= station < end)
                if not inside:
                    self.assertEqual(level(made, hazard.side, station),
                                     level(without, hazard.side, station))


if __name__ == "__main__":
    unittest.main()
