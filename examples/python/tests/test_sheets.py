"""Sheets to print, and parts of a road: each is legible, has its own rows, and
together they have everything."""
import os
import re
import tempfile
import unittest
import xml.etree.ElementTree as tree
from dataclasses import replace

import programs  # noqa: F401
import boxes
import support
import picture as program
from barrier_engine import Job, Side, metres, plan, read_job, read_text, text_of_job
from barrier_picture import parts_of, picture, scene_of, sheets
from barrier_picture.barrier import barriers_of, cut
from test_picture import lines, sampled, seen, texts, told

# How many hazards, on how many millimetres of road, in sheets of how many.
SIZES = [(count, length, sheet) for count in (1, 10, 100, 256)
         for length, sheet in ((200000, 50000), (5000000, 1000000), (2000000000, 500000000))]


def spread_job(count, length, panel=None):
    """So many hazards over a road of that length, the same ones each time."""
    chance = support.random.Random(count + length)
    header = replace(support.made_job(1).header, end=length, panel=panel)
    return Job(header, [support.random_hazard(chance, header) for _ in range(count)])


def pages(job, length, names=(), lots=(), in_kilometres=False):
    read = read_text(text_of_job(job, names))
    scene = scene_of(read, lots, None, in_kilometres)
    return list(sheets(scene, "A road", length))


def totals(svg):
    return [int(word) for word in next(row for row in told(svg) if row.startswith("total")).split()[1:]]


class Sheets(unittest.TestCase):
    def test_every_size_is_legible_and_on_a3(self):
        for count, length, sheet in SIZES:
            names = [f"hazard of the kind {i % 7}" if i % 3 else "" for i in range(count)]
            for number, svg in pages(spread_job(count, length), sheet, names):
                self.assertEqual(boxes.faults(svg), [], (count, length, number))
                root = tree.fromstring(svg)
                self.assertEqual((root.get("width"), root.get("height")), ("420mm", "297mm"))
                box = boxes.view_box(svg)
                shape = (box.right - box.left) / (box.bottom - box.top)
                self.assertAlmostEqual(shape, 420 / 297, delta=0.001)
                words = boxes.labels(svg)
                edge = 10 * (box.right - box.left) / 420 - 1  # 10 mm that printers leave white
                self.assertGreater(min(label.left for label in words), box.left + edge)
                self.assertLess(max(label.right for label in words), box.right - edge)
                self.assertGreater(min(label.top for label in words), box.top + edge)
                self.assertLess(max(label.bottom for label in words), box.bottom - edge)

    def test_together_they_have_the_road(self):
        for count, length, sheet in SIZES:
            job = spread_job(count, length)
            found = pages(job, sheet)
            first_pages = [svg for number, svg in found if "-" not in number]
            self.assertEqual(len(first_pages), -(-length // sheet))
            for side in Side:
                whole = sum(run.length for run in plan(job, side).runs)
                self.assertEqual(sum(totals(svg)[side] for svg in first_pages), whole)
            words = [text for _, svg in found for text in texts(svg)]
            for index in range(count):
                self.assertIn(str(index), words)
            for side in Side:
                for i, run in enumerate(plan(job, side).runs, 1):
                    self.assertIn(f"{'RL'[side]}{i}", words)
                    self.assertIn(metres(run.start), words)

    def test_rows_are_those_of_the_stretch(self):
        job = support.made_job(10)
        found = dict(pages(job, 400000, lots=[0, 300000, 800000]))
        self.assertEqual(sorted(found), ["01", "02"])
        first, second = (texts(found[number]) for number in ("01", "02"))
        # L2, from 444.939 to 586.051, is on the second sheet alone; R1 on the first.
        self.assertNotIn("L2", first)
        self.assertIn("L2", second)
        self.assertIn("R1", first)
        self.assertNotIn("R1", second)
        self.assertIn("Runs (those of this part: 4 of 8)", first)
        self.assertIn("this part", first)
        self.assertIn("whole road", first)
        self.assertEqual(first.count("lot 1") + first.count("lot 2"), 2)
        self.assertNotIn("lot 1", second)
        self.assertIn("key plan", first)
        self.assertIn("key plan", second)

    def test_overhangs_stand_on_the_sheets_of_the_ends(self):
        found = dict(pages(support.made_job(10), 200000))
        before = [number for number, svg in found.items()
                  if any("past the beginning of the road" in words for words in texts(svg))]
        after = [number for number, svg in found.items()
                 if any("past the end of the road (neighbouring contract)" in words
                        and "extends" in words for words in texts(svg))]
        self.assertEqual((before, after), (["01"], ["04"]))

    def test_nothing_is_left_out_without_a_word(self):
        hazards = [replace(support.HEADWALL, start=200000 + i, side=0) for i in range(256)]
        svg = dict(pages(Job(support.HEADER, hazards), 1000000))["01"]
        said = [words for words in texts(svg) if words.startswith("Left out of the drawing")]
        self.assertEqual(len(said), 1)
        self.assertRegex(said[0], r"\d+ hazard numbers")
        missing = int(re.search(r"(\d+) envelopes", said[0]).group(1))
        # Each hazard in the plan view, the run, and two bars for each envelope drawn.
        drawn = (len(boxes.bars(svg)) - 256 - 1) / 2
        self.assertEqual(drawn + missing, 256)
        self.assertGreater(missing, 100)

    def test_the_scale_is_that_of_the_paper(self):
        svg = dict(pages(support.PRINTED, 1000000))["01"]
        words = next(words for words in texts(svg) if "on A3" in words)
        along = int(re.search(r"on A3 1 : (\d+) along", words).group(1))
        # 1 km takes 1310 units, and 1500 units with two margins of 36 are 420 mm.
        self.assertEqual(along, round(1000000 / (1310 * 420 / 1572)))


    def test_a_road_without_hazards(self):
        for number, svg in pages(Job(support.HEADER), 400000):
            self.assertEqual(boxes.faults(svg), [])
            self.assertEqual(totals(svg), [0, 0])


class Parts(unittest.TestCase):
    def test_a_part_has_its_own_tables(self):
        job = support.made_job(10)
        svg = picture(seen(job, [0, 400000, 800000], (400000, 600000)), "part")
        words = texts(svg)
        self.assertEqual(boxes.faults(svg), [])
        self.assertIn("Runs (those of this part: 2 of 8)", words)
        self.assertNotIn("lot 1", words)
        self.assertIn("key plan", words)
        self.assertEqual(told(svg)[0], "part 400000 600000")
        self.assertEqual(totals(svg), [600000 - 561904, 586051 - 444939])

    def test_what_of_a_run_is_in_the_part(self):
        words = texts(picture(seen(support.made_job(10), (), (500000, 600000)), "cut"))
        # Of L2, [444.939, 586.051), and of R4, [561.904, 614.131): in the table of runs and
        # in the quantities.
        for here in ("86.051", "38.096"):
            self.assertEqual(words.count(here), 2, here)

    def test_a_window_off_the_road(self):
        for window in ((-100000, -1), (2000000, 3000000)):
            svg = picture(seen(support.PRINTED, (), window), "off")
            self.assertEqual(boxes.faults(svg), [])
            self.assertEqual(totals(svg), [0, 0])


class Stations(unittest.TestCase):
    def test_in_kilometres(self):
        svg = picture(seen(support.made_job(10), [0, 400000, 800000], in_kilometres=True), "km")
        self.assertEqual(boxes.faults(svg), [])
        words = texts(svg)
        for wanted in ("0+444.939", "-0+030.802", "0+800.000", "0+400"):
            self.assertIn(wanted, words)
        self.assertNotIn("444.939", words)
        # Lengths stay metres.
        self.assertIn("141.112", words)


class NamesOnSheets(unittest.TestCase):
    def test_beside_the_index(self):
        text = text_of_job(support.PRINTED, ["culvert <headwall> & co"])
        words = texts(picture(scene_of(read_text(text)), "named"))
        self.assertIn("0 culvert <headwall> & co", words)
        self.assertIn("culvert <headwall> & co", words)

    def test_hard_names_are_legible(self):
        for name in ("W" * 60, "\u6f22" * 60, "\ufffe\uffff", "]]>", "\u202eevil", "a\u0301" * 30):
            for count in (1, 30):
                job = support.made_job(count)
                svg = picture(scene_of(read_text(text_of_job(job, [name] * count))), name)
                self.assertEqual(boxes.faults(svg), [], name)

    def test_names_that_have_no_room_are_said_to_be_left_out(self):
        job = support.made_job(100)
        svg = picture(scene_of(read_text(text_of_job(job, ["a rather long name"] * 100))), "many")
        self.assertTrue(any("hazard names" in words for words in texts(svg)))
        self.assertGreaterEqual(texts(svg).count("a rather long name"), 100)


class TheBarrier(unittest.TestCase):
    """The plan view has the schedule: each run is drawn, whole, and nothing else as one."""

    def extents(self, svg):
        return sorted((min(x for x, _ in line), max(x for x, _ in line)) for line in lines(svg, "run"))

    def wanted(self, scene):
        first, last = scene.window
        scale = 1010 / (last - first)
        return sorted((160 + scale * (run.start - first), 160 + scale * (run.end - first))
                      for side in scene.sides for run in side.runs)

    def test_every_run_from_its_start_to_its_end(self):
        scenes = [sampled(name) for name in support.sample_jobs() if name != "refused"]
        scenes += [seen(support.made_job(count)) for count in (1, 10, 30, 100)]
        for scene in scenes:
            found, wanted = self.extents(picture(scene, "runs")), self.wanted(scene)
            self.assertEqual(len(found), len(wanted))
            for one, two in zip(found, wanted):
                self.assertAlmostEqual(one[0], two[0], delta=0.06)
                self.assertAlmostEqual(one[1], two[1], delta=0.06)

    def test_the_filled_gap_of_the_figure(self):
        """README's figure: run L2 stands from 527.547 to 541.524 too, where a gap is filled."""
        scene = seen(support.made_job(10))
        right, left = scene.sides
        barrier = next(b for b in barriers_of(scene, left) if b.start == 444939)
        self.assertEqual(barrier.end, 586051)
        self.assertEqual(barrier.line(527547, 541524), [(527547, 3000.0), (541524, 3000.0)])
        # Its flare is that of its upstream hazard, which opposite traffic meets first.
        self.assertEqual(barrier.begun_by.index, 4)
        self.assertEqual(barrier.points[-1], (586051.0, 5059.0))

    def test_it_bends_away_only_at_its_upstream_end(self):
        for count in (10, 30, 100, 256):
            scene = seen(support.made_job(count))
            for side in scene.sides:
                for barrier in barriers_of(scene, side):
                    way = 1 if side.rises else -1
                    points = sorted(barrier.points, key=lambda point: way * point[0])
                    self.assertTrue(all(y == 3000 for _, y in points[1:]))
                    if points[0][1] != 3000:
                        self.assertEqual(points[0], tuple(barrier.begun_by.corners.upstream))

    def test_no_flare_where_another_hazard_stands_in_its_way(self):
        # The second hazard's straight part begins before the first one's flare ends.
        far = replace(support.HEADWALL, near_offset=5000, far_offset=9000)
        near = replace(support.HEADWALL, start=185000, end=186000, near_offset=4000, far_offset=4200)
        scene = seen(Job(support.HEADER, [far, near]))
        barrier, = barriers_of(scene, scene.sides[0])
        self.assertTrue(barrier.unflared)
        self.assertEqual(barrier.points, ((155773, 3000), (210000, 3000)))
        said = texts(picture(scene, "unflared"))
        self.assertIn("Drawn along M, since another hazard needs straight barrier where the approach that "
                      "begins them bends away: R1 (hazard 0). Plan such a road without a flare.", said)

    def test_one_flare_for_several_hazards_is_said(self):
        words = " ".join(texts(picture(seen(support.made_job(10)), "several")))
        self.assertIn("One flare for several hazards: R2 to R3, L2. Look at these before they are built;", words)
        alone = " ".join(texts(picture(seen(support.PRINTED), "alone")))
        self.assertNotIn("One flare", alone)
        without = Job(replace(support.made_job(10).header, flare_across=0), support.made_job(10).hazards)
        self.assertNotIn("One flare", " ".join(texts(picture(seen(without), "without"))))

    def test_notes_stand_where_their_run_begins(self):
        found = dict(pages(support.made_job(10), 400000))
        said = {number: " ".join(texts(svg)) for number, svg in found.items()}
        self.assertIn("One flare for several hazards: R2 to R3. ", said["01"])
        self.assertIn("One flare for several hazards: L2. ", said["02"])

    def test_long_notes_go_on_in_another_row(self):
        for count in (100, 256):
            svg = picture(seen(support.made_job(count)), "notes")
            self.assertEqual(boxes.faults(svg), [])

    def test_approaches_are_named_as_what_they_are(self):
        words = texts(picture(seen(support.PRINTED), "legend"))
        self.assertIn("approach of one hazard as if it stood alone, through its corner points", words)
        self.assertIn("barrier of the schedule, run by run", words)
        self.assertIn("plan view", words)
        self.assertIn("hazard outside the clear zone", words)

    def test_a_line_is_cut_between_stations(self):
        line = [(0.0, 10.0), (10.0, 0.0), (20.0, 0.0)]
        self.assertEqual(cut(line, 5, 15), [(5, 5.0), (10.0, 0.0), (15, 0.0)])
        self.assertEqual(cut(line, -5, 5), [(0.0, 10.0), (5, 5.0)])
        self.assertEqual(cut(line, 20, 30), [])


class DrivenOtherwise(unittest.TestCase):
    def words(self, *driven, header=support.HEADER):
        text = "".join(f"{line}\n" for line in driven) + text_of_job(Job(header, [support.HEADWALL]))
        return texts(picture(scene_of(read_text(text)), "driven"))

    def test_a_left_driving_road_says_right_of_the_right_side(self):
        two_way = replace(support.NO_FLARE, runout_opposite=101000, centreline=3500)
        words = self.words("drives left", header=two_way)
        self.assertTrue(any(w.startswith("Right side: 1 run, 105.390 m of barrier") for w in words))
        self.assertTrue(any(w.startswith("Left side: 0 runs") for w in words))
        self.assertTrue(any("traffic drives on the left" in w for w in words))
        for station in ("171.944", "277.334"):
            self.assertIn(station, words)

    def test_falling_stations(self):
        words = self.words("stations fall")
        self.assertTrue(any("traffic towards falling stations" in w for w in words))
        for station in ("200.000", "254.227"):
            self.assertIn(station, words)
        self.assertNotIn("745.773", words)


class SheetFiles(unittest.TestCase):
    def test_they_are_numbered(self):
        with tempfile.TemporaryDirectory() as folder:
            job = os.path.join(folder, "a.job")
            with open(job, "wb") as file:
                file.write(support.made_job(100).to_bytes())
            out = os.path.join(folder, "out.svg")
            self.assertEqual(program.main([job, "-o", out, "--sheet", "1000"]), 0)
            found = sorted(os.listdir(folder))
            self.assertEqual([name for name in found if re.fullmatch(r"out-\d\d\.svg", name)],
                             [f"out-{i:02d}.svg" for i in range(1, 7)])
            self.assertNotIn("out.svg", found)
            self.assertTrue(all(re.fullmatch(r"a\.job|out-\d\d(-\d)?\.svg", name) for name in found))

    def test_parts_cover_the_road(self):
        scene = scene_of(read_job(support.made_job(10).to_bytes()))
        for length in (1000, 123456, 800000, 10**9):
            parts = parts_of(scene, length)
            self.assertEqual((parts[0][0], parts[-1][1]), (0, 800000))
            self.assertTrue(all(a[1] == b[0] for a, b in zip(parts, parts[1:])))


if __name__ == "__main__":
    unittest.main()
