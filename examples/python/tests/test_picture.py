"""The pictures: nothing lies over a label, and what is drawn is what is planned."""
import contextlib
import io
import os
import subprocess
import sys
import tempfile
import unittest
import xml.etree.ElementTree as tree

import programs
import boxes
import kept_pictures
import support
import picture as program
from barrier_engine import Side, metres, plan, quantity, read_job, read_text, text_of_job
from barrier_picture import palette, picture, scene_of
from barrier_picture.palette import LEVEL

SPREAD = (1, 2, 10, 30, 60, 100, 256)


def seen(job, lots=(), window=None, in_kilometres=False):
    """The scene of a job without names."""
    return scene_of(read_job(job.to_bytes()), lots, window, in_kilometres)


def sampled(name, lots=(), window=None):
    """The scene of a sample job."""
    return scene_of(read_text(support.sample_text(name)), lots, window)


def drawn(job, lots=(), window=None, name="A job"):
    return picture(seen(job, lots, window), name)


def lots_of(job, count):
    return [job.header.end * i // count for i in range(count + 1)]


def texts(svg):
    return [text.text for text in tree.fromstring(svg).iter(boxes.NAMES + "text")]


def lines(svg, kind):
    """The points of each line of a kind."""
    return [[tuple(map(float, pair.split())) for pair in path.get("d")[1:].split("L")]
            for path in tree.fromstring(svg).iter(boxes.NAMES + "path") if path.get("class") == kind]


def told(svg):
    """The picture's description, line by line."""
    return [line.strip() for line in tree.fromstring(svg).find(boxes.NAMES + "desc").text.split("\n")
            if line.strip()]


def run(*words):
    """The program in this process: its status and what it said on standard error."""
    said = io.StringIO()
    with contextlib.redirect_stderr(said):
        status = program.main(list(words))
    return status, said.getvalue()


class Legible(unittest.TestCase):
    def test_made_jobs(self):
        for count in SPREAD:
            job = support.made_job(count)
            for lots in ((), lots_of(job, 6)):
                self.assertEqual(boxes.faults(drawn(job, lots)), [], count)

    def test_sample_jobs(self):
        for name in support.sample_jobs():
            if name != "refused":
                svg = picture(sampled(name, [0, 1, 500000]), name)
                self.assertEqual(boxes.faults(svg), [], name)

    def test_parts_of_a_road_and_many_lots(self):
        job = support.made_job(100)
        for window in ((0, 1000000), (1234567, 1250000), (5000000, 6000000), (10**9, 10**9 + 1)):
            self.assertEqual(boxes.faults(drawn(job, lots_of(job, 70), window)), [], window)

    def test_many_hazards_at_one_place(self):
        hazards = [support.replace(support.HEADWALL, side=i % 2, level=1 + i % 6) for i in range(60)]
        job = support.Job(support.HEADER, hazards)
        self.assertEqual(boxes.faults(drawn(job)), [])

    def test_a_hundred_hazards_in_200_metres(self):
        chance = support.random.Random(3)
        header = support.replace(support.made_job(1).header, end=2000000, panel=4000)
        hazards = [support.random_hazard(chance, header, 900000, 1100000) for _ in range(100)]
        svg = drawn(support.Job(header, hazards))
        self.assertEqual(boxes.faults(svg), [])
        for index in range(100):
            self.assertGreaterEqual(texts(svg).count(str(index)), 3)

    def test_offsets_that_are_near_one_another(self):
        for offset, zone in ((8900, 9000), (9000, 8900), (0, 1), (0, 30000), (20000, 1)):
            header = support.replace(support.HEADER, barrier_offset=offset, clear_zone=zone)
            self.assertEqual(boxes.faults(drawn(support.Job(header))), [], (offset, zone))

    def test_a_long_title(self):
        self.assertEqual(boxes.faults(drawn(support.PRINTED, name="&<W>" * 100)), [])

    def test_every_hazard_has_its_number(self):
        for count in (1, 10, 100):
            found = texts(drawn(support.made_job(count)))
            for index in range(count):
                # By the hazard, by its envelope and in the table.
                self.assertGreaterEqual(found.count(str(index)), 3, (count, index))


class Checker(unittest.TestCase):
    """The checker finds what it is there for."""

    def test_it_finds_faults(self):
        svg = drawn(support.PRINTED)
        end = "</svg>"
        text = '<text x="{}" y="{}" font-size="9" text-anchor="start" fill="#000">{}</text>'
        label = boxes.labels(svg)[-1]
        x, y = label.left, label.bottom - 0.24 * 9
        for more, said in (
            (text.format(x, y, "over"), "over another"),
            (text.format(1190, 0, "outside"), "off the sheet"),
            (text.format(20, 5000, "below"), "off the sheet"),
            (f'<path d="M{x - 5} {y - 3}L{x + 5} {y - 3}"/>', "a line"),
            (f'<rect class="bar" x="{x}" y="{y - 4}" width="3" height="3" fill="#000"/>', "a bar"),
        ):
            found = boxes.faults(svg.replace(end, more + end))
            self.assertTrue(found and all(line.startswith(said) for line in found), (said, found))

    def test_upright_labels_too(self):
        svg = drawn(support.made_job(100))
        upright = [box for box in boxes.labels(svg) if box.bottom - box.top > 2 * (box.right - box.left)]
        self.assertGreater(len(upright), 40)
        x, y = upright[0].left + 4, upright[0].top + 20
        more = f'<path d="M{x - 9} {y}L{x + 9} {y}"/></svg>'
        self.assertTrue(boxes.faults(svg.replace("</svg>", more)))


class WhatIsDrawn(unittest.TestCase):
    def test_the_runs_in_words(self):
        for name in support.sample_jobs():
            wanted = support.sample_text(name, ".out").splitlines()
            if not wanted[0].startswith("refused"):
                rows = told(picture(sampled(name), name))
                self.assertEqual([r for r in rows if not r.startswith("overhang")], wanted)
                if os.path.exists(os.path.join(support.JOBS, name + ".overhang")):
                    over = support.sample_text(name, ".overhang").splitlines()
                    self.assertEqual([r for r in rows if r.startswith("overhang")], over)

    def test_the_bars_of_the_runs(self):
        job = support.made_job(10)
        schedules = [plan(job, side) for side in Side]
        first = -max(schedule.before for schedule in schedules)
        last = job.header.end + max(schedule.after for schedule in schedules)
        bars = boxes.bars(drawn(job))
        for schedule in schedules:
            self.assertTrue(schedule.runs)
            for run_ in schedule.runs:
                x1, x2 = (160 + 1010 * (t - first) / (last - first) for t in (run_.start, run_.end))
                self.assertTrue(any(
                    bar.words == LEVEL[run_.level] and abs(bar.left - x1) < 0.11
                    and abs(bar.right - x2) < 0.21 and abs(bar.bottom - bar.top - 8 * run_.level) < 0.11
                    for bar in bars), run_)

    def test_the_approach_goes_through_the_corners(self):
        for svg in (drawn(support.PRINTED), picture(sampled("chainage"), "chainage")):
            self.has_the_printed_approach(svg)

    def has_the_printed_approach(self, svg):
        # One metre is 1.01 along; the deepest offset drawn, 1.25 C or 11,250, is 110.
        for kind, stations in (("approach", (155773, 186660, 200000)), ("run", (155773, 186660, 210000))):
            paths = lines(svg, kind)
            self.assertEqual(len(paths), 1)
            self.assertEqual(len(paths[0]), 3)
            for (x, y), station, offset in zip(paths[0], stations, (5059, 3000, 3000)):
                self.assertAlmostEqual(x, 160 + 1.01 * station / 1000, delta=0.06)
                self.assertAlmostEqual(y, 32 + 110 * offset / 11250, delta=0.06)

    def test_a_pole_is_seen(self):
        pole = support.replace(support.HEADWALL, end=support.HEADWALL.start + 1, far_offset=5000, level=6)
        bars = [bar for bar in boxes.bars(drawn(support.Job(support.HEADER, [pole])))
                if bar.words == LEVEL[6]]
        # From above, its envelope and itself over that, the run.
        self.assertEqual(len(bars), 4)
        for bar in bars:
            self.assertGreaterEqual(bar.right - bar.left, 3.9)
            self.assertGreaterEqual(bar.bottom - bar.top, 3.9)

    def test_the_legend_has_the_colour_of_overhangs(self):
        svg = drawn(support.made_job(10))
        shown = {(text.text, text.get("fill")) for text in tree.fromstring(svg).iter(boxes.NAMES + "text")}
        for words in ("station in this colour: how far barrier extends past the road", "-30.802"):
            self.assertIn((words, palette.ZONE), shown)

    def test_stations_of_runs_and_overhangs(self):
        found = texts(drawn(support.made_job(10)))
        for side in Side:
            schedule = plan(support.made_job(10), side)
            for run_ in schedule.runs:
                self.assertGreaterEqual(found.count(metres(run_.start)), 2)
                self.assertGreaterEqual(found.count(metres(run_.end)), 2)
        self.assertIn("-30.802", found)
        self.assertTrue(any("extends 30.802 m past the beginning of the road" in words for words in found))

    def test_both_overhangs_of_one_side(self):
        found = texts(picture(sampled("overhang"), "overhang"))
        for words in ("extends 21.501 m past the beginning of the road (neighbouring contract)",
                      "extends 20.758 m past the end of the road (neighbouring contract)"):
            self.assertTrue(any(words in row for row in found))

    def test_the_lots_quantities(self):
        job = support.made_job(100)
        stations = lots_of(job, 70)
        scene = seen(job, stations)
        for side in Side:
            for lot, p, q in zip(scene.lots(), stations, stations[1:]):
                wanted = tuple(quantity(plan(job, side), level, p, q) for level in range(1, 7))
                self.assertEqual(lot.amounts[side], wanted)
        found = texts(drawn(job, stations))
        for side in Side:
            for level in range(1, 7):
                whole = quantity(plan(job, side), level, 0, job.header.end)
                self.assertIn(metres(whole), found)

    def test_what_lies_outside_the_lots(self):
        job = support.made_job(100)
        for stations in ([1000000, 2000000], [0, job.header.end], [0, 1], [job.header.end, 10**12]):
            scene = seen(job, stations)
            for side in Side:
                schedule = plan(job, side)
                for level in range(1, 7):
                    whole = quantity(schedule, level, 0, job.header.end)
                    inside = sum(lot.amounts[side][level - 1] for lot in scene.lots())
                    if whole:
                        self.assertIn(metres(whole - inside), texts(picture(scene, "lots")))
            self.assertIn("outside the lots", texts(picture(scene, "lots")))

    def test_envelopes_before_they_are_cut(self):
        scene = sampled("overhang")
        self.assertEqual([d.envelope for d in scene.hazards], [
            (85773, 155758), (78499, 134758), (88773, 155258), (335773, 420758), (345773, 412758),
            None, (395000, 442227)])


class TheProgram(unittest.TestCase):
    def setUp(self):
        self.folder = tempfile.TemporaryDirectory()
        self.addCleanup(self.folder.cleanup)

    def path(self, name, data=None):
        path = os.path.join(self.folder.name, name)
        if data is not None:
            with open(path, "wb") as file:
                file.write(data)
        return path

    def content(self, path):
        with open(path, encoding="utf-8") as file:
            return file.read()

    def test_the_pictures_that_are_kept(self):
        for count in kept_pictures.KEPT:
            out = self.path("kept.svg")
            self.assertEqual(kept_pictures.draw(count, out), 0)
            kept = os.path.join(programs.FIGURES, f"job-{count}.svg")
            self.assertEqual(self.content(out), self.content(kept))
            self.assertEqual(boxes.faults(self.content(kept)), [])

    def test_bytes_and_text_alike(self):
        job = support.made_job(10)
        out = self.path("out.svg")
        drawings = []
        for data in (job.to_bytes(), text_of_job(job).encode(), b"# a comment\n" + text_of_job(job).encode()):
            self.assertEqual(run(self.path("a.job", data), "-o", out), (0, ""))
            drawings.append(self.content(out))
        self.assertEqual(drawings[0], drawings[1])
        self.assertEqual(drawings[0], drawings[2])

    def test_bytes_that_could_be_text(self):
        # Every number is below 128, so that each byte is ASCII.
        header = support.Header(0, 100, 1, 0, 5, 0, 1, 1, 1, 0, 0, 0, panel=1)
        job = support.Job(header, [support.Hazard(Side.RIGHT, 40, 60, 2, 3, 1)])
        self.assertLess(max(job.to_bytes()), 128)
        out = self.path("out.svg")
        self.assertEqual(run(self.path("small.job", job.to_bytes()), "-o", out, "--name", "A job"), (0, ""))
        self.assertEqual(self.content(out), drawn(job))

    def test_from_standard_input(self):
        found = subprocess.run(
            [sys.executable, os.path.join(programs.FOLDER, "picture.py"), "--from", "100", "--to", "300"],
            input=support.PRINTED.to_bytes(), stdout=subprocess.PIPE, check=True).stdout
        self.assertEqual(found.decode(), drawn(support.PRINTED, window=(100000, 300000)))

    def test_nothing_is_written_for_a_refused_job(self):
        for data, said in (
            (support.sample_text("refused").encode(), "refused 5 with 0"),
            (b"\1\0", "refused 1 with 2"),
        ):
            out = self.path("none.svg")
            status, words = run(self.path("bad.job", data), "-o", out)
            self.assertEqual(status, 1)
            self.assertIn(said, words)
            self.assertFalse(os.path.exists(out))

    def test_a_window_before_the_datum(self):
        job, out = self.path("a.job", support.PRINTED.to_bytes()), self.path("out.svg")
        self.assertEqual(run(job, "-o", out, "--from", "-50", "--to", "50.000", "--lots", "0", "1000"),
                         (0, ""))
        self.assertIn("-40", texts(self.content(out)))
        self.assertEqual(boxes.faults(self.content(out)), [])

    def test_lots_are_metres(self):
        job, out = self.path("a.job", support.PRINTED.to_bytes()), self.path("out.svg")
        for words in ("200.0004", "199.9995", "200"):
            self.assertEqual(run(job, "-o", out, "--name", "A job", "--lots", "0", words, "1000"), (0, ""))
            self.assertEqual(self.content(out), drawn(support.PRINTED, [0, 200000, 1000000]))

    def test_lots_that_are_not_the_road_are_warned_of(self):
        job, out = self.path("a.job", support.PRINTED.to_bytes()), self.path("out.svg")
        short, past = "do not cover", "go past"
        for lots, wanted in (
            (("0", "1000"), []), (("0", "999.999"), [short]), (("0.001", "1000"), [short]),
            (("0", "300000", "1000000"), [past]), (("100", "1001"), [short, past]),
        ):
            status, said = run(job, "-o", out, "--lots", *lots)
            first, last = f"{float(lots[0]):.3f}", f"{float(lots[-1]):.3f}"
            self.assertEqual(status, 0)
            self.assertEqual(said.splitlines(), [
                f"picture: warning: the lots, {first} to {last}, {how} the road, 0.000 to 1000.000 (metres)"
                for how in wanted])
            self.assertIn("all lots", texts(self.content(out)))

    def test_files_that_are_not_there(self):
        status, words = run(self.path("no.job"))
        self.assertEqual(status, 2)
        self.assertIn("No such file", words)

    def test_bad_words(self):
        job = self.path("a.job", support.PRINTED.to_bytes())
        for words in (["--lots", "5", "4"], ["--lots", "-1", "4"], ["--lots", "5"], ["--from", "1"],
                      ["--from", "5", "--to", "5"], ["--lots", "1,5", "2"],
                      ["--lots", "0", "1000000000.001"]):
            with self.assertRaises(SystemExit) as caught, contextlib.redirect_stderr(io.StringIO()):
                program.main([job, *words])
            self.assertEqual(caught.exception.code, 2)


if __name__ == "__main__":
    unittest.main()
