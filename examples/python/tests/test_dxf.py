"""The drawing for CAD: its form, and that its lines are what is planned."""
import os
import tempfile
import unittest
from dataclasses import replace

import programs  # noqa: F401
import support
import picture as program
from barrier_engine import Job, Side, read_text, text_of_job
from barrier_picture import dxf, scene_of
from test_picture import sampled, seen


def groups(text):
    """The pairs of a code and a value."""
    rows = text.split("\n")
    assert rows.pop() == "" and len(rows) % 2 == 0
    return [(int(code), value) for code, value in zip(rows[::2], rows[1::2])]


def entities(text):
    """Each entity of the drawing: its kind, and its values by their code."""
    found, inside = [], False
    for code, value in groups(text):
        if (code, value) == (2, "ENTITIES"):
            inside = True
        elif inside and (code, value) == (0, "ENDSEC"):
            return found
        elif inside and code == 0:
            found.append((value, {}))
        elif inside:
            found[-1][1][code] = value
    raise AssertionError("the section has no end")


def lines(text, layer):
    """The lines of a layer, as points in millimetres."""
    def mm(value):
        return round(float(value) * 1000)

    return [((mm(e[10]), mm(e[20])), (mm(e[11]), mm(e[21])))
            for kind, e in entities(text) if kind == "LINE" and e[8] == layer]


def scenes():
    yield from (sampled(name) for name in support.sample_jobs() if name != "refused")
    yield from (seen(support.made_job(count)) for count in (1, 10, 100, 256))


class Form(unittest.TestCase):
    def test_sections_and_layers(self):
        for scene in scenes():
            text = dxf(scene)
            self.assertTrue(text.isascii())
            pairs = groups(text)
            self.assertEqual(pairs[-1], (0, "EOF"))
            sections = [pairs[i + 1] for i, pair in enumerate(pairs) if pair == (0, "SECTION")]
            self.assertEqual(sections, [(2, "HEADER"), (2, "TABLES"), (2, "ENTITIES")])
            self.assertEqual(pairs.count((0, "SECTION")), pairs.count((0, "ENDSEC")))
            self.assertEqual(pairs.count((0, "TABLE")), pairs.count((0, "ENDTAB")))
            layers = {pairs[i + 1][1] for i, pair in enumerate(pairs) if pair == (0, "LAYER")}
            self.assertLessEqual({values[8] for _, values in entities(text)}, layers)

    def test_names_in_other_letters(self):
        text = text_of_job(support.PRINTED, ["ca\u00f1o \U0001f6a7"])
        labels = [values[1] for kind, values in entities(dxf(scene_of(read_text(text)))) if kind == "TEXT"]
        self.assertIn("0 ca\\U+00F1o ?", labels)


class WhatIsDrawn(unittest.TestCase):
    def test_the_printed_job(self):
        text = dxf(seen(support.PRINTED))
        # The right side is down; the road has no width, so offsets count from its middle.
        self.assertEqual(lines(text, "RUN-NC-3"), [((155773, -5059), (186660, -3000)),
                                                   ((186660, -3000), (210000, -3000))])
        self.assertEqual(lines(text, "APPROACH-NC-3"), [((155773, -5059), (186660, -3000)),
                                                        ((186660, -3000), (200000, -3000))])
        self.assertEqual(lines(text, "HAZARD-NC-3"), [
            ((200000, -5000), (210000, -5000)), ((210000, -5000), (210000, -9000)),
            ((210000, -9000), (200000, -9000)), ((200000, -9000), (200000, -5000))])

    def test_every_run_is_as_long_as_it_is_planned(self):
        for scene in scenes():
            text = dxf(scene)
            for level in range(1, 7):
                along = sum(abs(b[0] - a[0]) for a, b in lines(text, f"RUN-NC-{level}"))
                wanted = sum(run.length for side in scene.sides for run in side.runs if run.level == level)
                self.assertEqual(along, wanted)

    def test_sides_of_a_left_driving_road(self):
        header = replace(support.NO_FLARE, runout_opposite=101000, centreline=3500)
        job = Job(header, [replace(support.HEADWALL, side=Side.LEFT)])
        text = dxf(scene_of(read_text("drives left\n" + text_of_job(job))))
        self.assertEqual(lines(text, "RUN-NC-3"), [((132666, 6500), (238056, 6500))])

    def test_hazards_outside_the_clear_zone(self):
        text = dxf(sampled("overhang"))
        self.assertEqual(len(lines(text, "HAZARD-OUTSIDE")), 4)


class TheProgram(unittest.TestCase):
    def test_it_writes_a_file(self):
        with tempfile.TemporaryDirectory() as folder:
            job, out = os.path.join(folder, "a.job"), os.path.join(folder, "a.dxf")
            with open(job, "wb") as file:
                file.write(support.PRINTED.to_bytes())
            self.assertEqual(program.main([job, "--dxf", out]), 0)
            with open(out, encoding="ascii") as file:
                self.assertEqual(file.read(), dxf(seen(support.PRINTED)))
            self.assertEqual(sorted(os.listdir(folder)), ["a.dxf", "a.job"])


class AReader(unittest.TestCase):
    """With python3-ezdxf, where it is there: `make -f Makefile.vendor vendor-dxf`."""

    def test_it_opens_without_a_fault(self):
        try:
            import ezdxf
        except ImportError:
            self.skipTest("there is no ezdxf")
        for scene in scenes():
            with tempfile.TemporaryDirectory() as folder:
                path = os.path.join(folder, "road.dxf")
                with open(path, "w", encoding="ascii", newline="\n") as file:
                    file.write(dxf(scene))
                drawing = ezdxf.readfile(path)
                audit = drawing.audit()
                self.assertEqual((audit.errors, audit.fixes), ([], []))
                self.assertEqual(drawing.dxfversion, "AC1009")
                found = drawing.modelspace().query("LINE[layer ? 'RUN-.*']")
                along = sum(abs(line.dxf.end.x - line.dxf.start.x) for line in found)
                wanted = sum(run.length for side in scene.sides for run in side.runs)
                self.assertAlmostEqual(along * 1000, wanted, delta=0.5)


if __name__ == "__main__":
    unittest.main()
