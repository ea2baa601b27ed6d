"""What a withdrawal may alter: shaded, said, and the sheets to be issued again."""
import os
import tempfile
import unittest
import xml.etree.ElementTree as tree
from dataclasses import replace

import programs  # noqa: F401
import boxes
import support
from barrier_engine import Job, plan_road, read_text, text_of_job
from barrier_picture import hazard_called, palette, parts_of, picture, scene_of, sentences, sheets
from test_picture import run, texts, told
from test_sheets import spread_job

TEN = [f"kind {i}" for i in range(9)] + ["kind 0"]


def without(read, index, **more):
    scene = scene_of(read, **more)
    return replace(scene, without=scene.hazards[index])


def shades(svg):
    return [rect for rect in tree.fromstring(svg).iter(boxes.NAMES + "rect")
            if rect.get("class") == "stretch"]


def inside(runs, part):
    """What of runs is in a part."""
    return [(max(run.start, part[0]), min(run.end, part[1]), run.level) for run in runs
            if run.start < part[1] and run.end > part[0]]


class Shaded(unittest.TestCase):
    def test_every_size_is_legible(self):
        for count in (1, 10, 100):
            read = read_text(text_of_job(spread_job(count, 5000000, panel=4000)))
            for index in range(0, count, 7):
                scene = without(read, index)
                self.assertEqual(boxes.faults(picture(scene, "A road")), [], (count, index))
                for number, svg in sheets(scene, "A road", 2000000):
                    self.assertEqual(boxes.faults(svg), [], (count, index, number))

    def test_the_stretch_of_its_side_alone(self):
        read = read_text(text_of_job(support.made_job(10)))
        for drawn in scene_of(read).hazards:
            svg = picture(without(read, drawn.index), "A road")
            letter = "RL"[drawn.hazard.side]
            start, end = drawn.stretch or (0, 0)
            self.assertEqual(told(svg)[-1], f"without {drawn.index} {letter} {start} {end}")
            found = shades(svg)
            self.assertEqual(bool(found), drawn.stretch is not None)
            self.assertTrue(all((float(rect.get("y")) > 0) == (letter == "R") for rect in found))
            self.assertLessEqual(len({(r.get("x"), r.get("width")) for r in found}), 1)
            words = f"may change without hazard {drawn.index}"
            self.assertEqual(words in texts(svg), drawn.stretch is not None)
            self.assertEqual(palette.STRETCH in svg, drawn.stretch is not None)

    def test_nothing_is_shaded_unless_asked_for(self):
        svg = picture(scene_of(read_text(text_of_job(support.made_job(10)))), "A road")
        self.assertEqual(shades(svg), [])
        self.assertNotIn(palette.STRETCH, svg)


class IssuedAgain(unittest.TestCase):
    def test_the_other_sheets_show_the_same_barrier(self):
        two_way = support.made_job(10)
        one_way = replace(two_way, header=replace(two_way.header, runout_opposite=0))
        for driven, job in (("", two_way), ("drives left\n", two_way), ("stations fall\n", one_way),
                            ("drives left\nstations fall\n", one_way)):
            read = read_text(driven + text_of_job(job))
            again, narrower = 0, 0
            for index in range(10):
                scene = without(read, index)
                left = Job(job.header, job.hazards[:index] + job.hazards[index + 1:])
                other = plan_road(read_text(driven + text_of_job(left)))
                parts = parts_of(scene, 50000)
                said = sentences(scene, parts)[1]
                for number, part in enumerate(parts, 1):
                    named = self.named(said, number)
                    same = all(inside(one.runs, part) == inside(two.runs, part)
                               for one, two in zip(scene.sides, other.sides))
                    self.assertTrue(named or same, (driven, index, number, said))
                    again, narrower = again + named, narrower + (not named)
            self.assertGreater(again, 10)
            self.assertGreater(narrower, 100)

    @staticmethod
    def named(said, number):
        if said.startswith("No sheet"):
            return False
        words = said.split(": ")[1].split(",")[0].replace(" and ", " to ").split(" to ")
        return int(words[0]) <= number <= int(words[-1])

    def test_words(self):
        read = read_text(text_of_job(support.made_job(10), TEN))
        self.assertEqual(sentences(without(read, 1), [(0, 500000), (500000, 800000)]), [
            "Without hazard 1 (kind 1) levels of the left side may change from 424.939 to 547.547 m, "
            "and nowhere else.",
            "To be issued again: 01 and 02, 2 of 2 sheets."])
        self.assertEqual(sentences(without(read, 1, in_kilometres=True)), [
            "Without hazard 1 (kind 1) levels of the left side may change from 0+424.939 to "
            "0+547.547, and nowhere else."])
        self.assertEqual(sentences(without(read, 7), [(0, 800000)]), [
            "Without hazard 7 (kind 7) nothing changes: no traffic reaches it.",
            "No sheet has to be issued again."])
        # A sheet that begins where the stretch ends has no millimetre of it.
        self.assertEqual(sentences(without(read, 1), [(0, 424939), (424939, 547547), (547547, 800000)])[1],
                         "To be issued again: 02, 1 of 3 sheets; the others show the same barrier.")
        self.assertEqual(sentences(without(read, 1), [(0, 424939), (424939, 800000)])[1],
                         "To be issued again: 02, 1 of 2 sheets; the other shows the same barrier.")
        self.assertEqual(sentences(scene_of(read), [(0, 800000)]), [])

    def test_an_index_goes_before_a_name(self):
        read = read_text(text_of_job(support.made_job(3), ["2", "wall", ""]))
        hazards = scene_of(read).hazards
        self.assertEqual([hazard_called(hazards, words).index for words in ("2", "02", "wall", "0")],
                         [2, 2, 1, 0])
        for words in ("", "3", "-1", "+1", "Wall", "\u0661", "9" * 5000):
            with self.assertRaises(ValueError):
                hazard_called(hazards, words)


class TheProgram(unittest.TestCase):
    def setUp(self):
        folder = tempfile.TemporaryDirectory()
        self.addCleanup(folder.cleanup)
        self.folder = folder.name
        self.job = os.path.join(self.folder, "a.job")
        with open(self.job, "w", encoding="utf-8") as file:
            file.write(text_of_job(support.made_job(10), TEN))
        self.out = os.path.join(self.folder, "out.svg")

    def test_it_says_what_alters(self):
        status, said = run(self.job, "-o", self.out, "--sheet", "200", "--without", "4")
        self.assertEqual((status, said.splitlines()), (0, [
            "picture: without hazard 4 (kind 4) levels of the left side may change from 521.524 to "
            "606.051 m, and nowhere else",
            "picture: to be issued again: 03 and 04, 2 of 4 sheets; the others show the same barrier"]))
        self.assertEqual(run(self.job, "-o", self.out, "--without", "kind 7"), (
            0, "picture: without hazard 7 (kind 7) nothing changes: no traffic reaches it\n"))

    def test_hazards_that_are_not_there(self):
        for words, said in (
            ("10", "there is no hazard '10' in the job: its hazards are 0 to 9"),
            ("moon", "there is no hazard 'moon' in the job: its hazards are 0 to 9"),
            ("kind 0", "2 hazards are named 'kind 0': give the index of one, 0, 9"),
        ):
            self.assertEqual(run(self.job, "-o", self.out, "--without", words), (2, f"picture: {said}\n"))
        status, said = run(self.job, "-o", self.out, "--without", "9" * 5000)
        self.assertEqual(status, 2)
        self.assertLess(len(said), 200)
        with open(self.job, "wb") as file:
            file.write(Job(support.HEADER, []).to_bytes())
        self.assertEqual(run(self.job, "-o", self.out, "--without", "0"), (
            2, "picture: there is no hazard '0' in the job: it has none\n"))
        self.assertEqual(os.listdir(self.folder), ["a.job"])


if __name__ == "__main__":
    unittest.main()
