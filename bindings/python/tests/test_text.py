"""The text form: what is read, and what is said of text that is wrong.

jobtext in C reads the same form: both are given the same inputs, some hundred
hostile ones too, and have to say the same, byte for byte and word for word.
"""
import os
import sys
import unittest

import hostile
import support
from barrier_engine import Job, Malformed, Side, read_job, read_text, text_of_job

sys.path.append(os.path.join(support.ROOT, "tests", "vendor"))
import texts  # noqa: E402

GOOD = hostile.GOOD
HAZARD = "hazard right 200000 210000 5000 9000 3"


def read_or_said(read, data):
    """A job's bytes, or what is said of them."""
    try:
        return read(data).data
    except Malformed as error:
        return str(error)


class Names(unittest.TestCase):
    def name(self, behind):
        return read_text(f"{GOOD}{HAZARD} {behind}\n").names[-1]

    def test_in_quotes_or_from_the_comment(self):
        for behind, wanted in (
            ('"culvert headwall"', "culvert headwall"), ("# culvert headwall", "culvert headwall"),
            ('"pier # 4"', "pier # 4"), ('"pier" # a comment', "pier"), ("", ""), ("#", ""), ("#  \t", ""),
            ("#\tpier\tB \r", "pier B"), ("# " + "x" * 99, "x" * 60), ("#" + " " * 99 + "x", "x"),
            ('"' + "\u00e9" * 60 + '"', "\u00e9" * 60), ("# a \x07 b", "a   b"),
        ):
            self.assertEqual(self.name(behind), wanted, behind)

    def test_they_are_not_in_the_bytes(self):
        self.assertEqual(read_text(GOOD + HAZARD + ' "pier"').data, read_text(GOOD + HAZARD).data)

    def test_there_and_back(self):
        job, names = support.made_job(3), ("culvert", "", "pier # 2")
        read = read_text(text_of_job(job, names))
        self.assertEqual((read.data, read.names), (job.to_bytes(), names))

    def test_text_for_names_that_have_no_text(self):
        for name in ('a"b', "x" * 61, "a\nb", "\x7f"):
            self.assertRaises(ValueError, text_of_job, support.PRINTED, (name,))


class Stations(unittest.TestCase):
    def test_kilometres(self):
        text = GOOD.replace("road 0 1000000", "road 0+000 1+000.000")
        for first, end in (("0+200", "0+210.000"), ("200000", "0+210"), ("0+200.000", "210000")):
            changed = text.replace("right 200000 210000", f"right {first} {end}")
            self.assertEqual(read_text(changed).data, support.PRINTED.to_bytes())


class HowTheRoadIsDriven(unittest.TestCase):
    def test_the_usual_lines_change_nothing(self):
        read = read_text(GOOD + "drives right\nstations rise\n")
        self.assertEqual(read, read_text(GOOD))

    def test_sides_and_stations_as_the_engine_takes_them(self):
        for lines, side, first, end in (
            ("drives left", Side.LEFT, 200000, 210000),
            ("stations fall", Side.LEFT, 790000, 800000),
            ("drives left\nstations fall", Side.RIGHT, 790000, 800000),
        ):
            read = read_text(f"{lines}\n{GOOD}")
            hazard = Job.from_bytes(read.data).hazards[0]
            self.assertEqual((hazard.side, hazard.start, hazard.end), (side, first, end), lines)
            self.assertEqual(read.orientation.hazard(hazard), support.HEADWALL)


class WordForWord(unittest.TestCase):
    """The texts that the programs in C are held to: tests/vendor/texts.txt."""

    def test_each_text(self):
        cases = list(texts.cases())
        self.assertGreater(len(cases), 100)
        for message, text in cases:
            for read in (read_text, read_job):
                found = read_or_said(read, text)
                if message:
                    self.assertEqual(found, message, text[-80:])
                else:
                    self.assertIsInstance(found, bytes, text[-80:])


class BytesAndText(unittest.TestCase):
    def test_told_apart(self):
        for job in (support.PRINTED, support.made_job(10)):
            self.assertEqual(read_job(job.to_bytes()).data, job.to_bytes())
            self.assertEqual(read_job(text_of_job(job).encode()).data, job.to_bytes())

    def test_str_and_bytes(self):
        self.assertEqual(read_text(GOOD), read_text(GOOD.encode()))
        self.assertIn("not UTF-8", read_or_said(read_text, GOOD + "# \ud800"))


@unittest.skipUnless(support.HAS_CC, "there is no cc")
class AsJobtext(unittest.TestCase):
    """Each input to the program in C and to the package."""

    def test_each_input(self):
        inputs = hostile.everything()
        self.assertGreater(len(inputs), 900)
        done = wrong = 0
        for data in inputs:
            status, out, said = support.called("jobtext", data)
            found = read_or_said(read_text, data)
            if status == 0:
                self.assertEqual((found, said), (out, ""), data[:300])
                done += 1
            else:
                self.assertEqual((status, out, said), (2, b"", f"jobtext: {found}\n"), data[:300])
                self.assertLess(len(said), 250)
                wrong += 1
        self.assertGreater(min(done, wrong), 100)


if __name__ == "__main__":
    unittest.main()
