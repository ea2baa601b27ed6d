"""Bytes, text and metres, there and back; no engine is asked."""
import subprocess
import tempfile
import os
import shutil
import random
import unittest
from dataclasses import replace
from decimal import Decimal

import support
from barrier_engine import (
    Hazard, Header, Job, Malformed, Rounding, Run, Schedule, bytes_of_runs, bytes_of_text,
    get_number, kilometres, metres, millimetres, put_number, runs_of_bytes, station_of_kilometres,
    text_of_job,
)

PRINTED_BYTES = bytes.fromhex(
    "0100C0843D88950600A84600B817E8070F019C68000100C09A0CD0E80C8827A84603")


class NumberForm(unittest.TestCase):
    def test_the_manuals_numbers(self):
        for value, text in (
            (0, "00"), (127, "7F"), (128, "8001"), (155773, "FDC009"),
            (999000155773, "FDCCB2C8891D"), (4398046511103, "FFFFFFFFFF7F"),
        ):
            self.assertEqual(put_number(value), bytes.fromhex(text))
            self.assertEqual(get_number(bytes.fromhex(text), 0), (value, len(text) // 2))

    def test_what_is_no_number(self):
        for text in ("", "80", "8000", "FFFFFFFFFFFF01", "FFFFFFFFFFFF", "808080808000"):
            with self.assertRaises(Malformed, msg=text):
                get_number(bytes.fromhex(text), 0)
        with self.assertRaisesRegex(ValueError, "no sign"):
            put_number(-1)


class Metres(unittest.TestCase):
    def test_exact(self):
        for text, value in (
            ("0", 0), ("155.773", 155773), ("0.3", 300), ("1000000000", 1000000000000),
            ("0.001", 1), ("12.50", 12500), ("7.0070000", 7007), (" 5 ", 5000), ("007", 7000),
        ):
            self.assertEqual(millimetres(text), value)

    def test_rounding_is_named_or_refused(self):
        with self.assertRaises(ValueError):
            millimetres("1.0005")
        for text, down, up, nearest in (
            ("1.0005", 1000, 1001, 1001), ("1.00049999", 1000, 1001, 1000),
            ("1.0000", 1000, 1000, 1000), ("0.9999", 999, 1000, 1000),
        ):
            self.assertEqual(millimetres(text, Rounding.DOWN), down)
            self.assertEqual(millimetres(text, Rounding.UP), up)
            self.assertEqual(millimetres(text, Rounding.NEAREST), nearest)

    def test_what_is_not_metres(self):
        for text in ("", "-1", "+1", "1,5", "1e3", ".5", "5.", "1_000", "1.2.3", "one", "١", "1 000"):
            with self.assertRaises(ValueError, msg=text):
                millimetres(text)

    def test_numbers(self):
        """A float counts as the text that Python prints for it."""
        for given, value in (
            (155.773, 155773), (0.3, 300), (0.1, 100), (1e-3, 1), (5, 5000), (2.0, 2000), (1e9, 10**12),
            (Decimal("155.773"), 155773), (Decimal("1E+2"), 100000), (0.0, 0),
        ):
            self.assertEqual(millimetres(given), value, given)
        self.assertEqual(millimetres(1.0005, Rounding.DOWN), 1000)
        self.assertEqual(millimetres(1.0005, Rounding.NEAREST), 1001)
        for given in (-1.0, float("nan"), float("inf"), 1e300, -5, Decimal("-1"), Decimal("NaN"), 0.0005):
            self.assertRaises(ValueError, millimetres, given)
        for given in (None, b"1", [1], 1j):
            self.assertRaisesRegex(TypeError, "metres are decimal text", millimetres, given)

    def test_numbers_of_thousands_of_digits(self):
        for given in ("9" * 5000, "0." + "9" * 5000, 10**5000, "9" * 18):
            with self.assertRaises(ValueError) as caught:
                millimetres(given)
            self.assertLess(len(str(caught.exception)), 200)
        self.assertEqual(millimetres("0" * 5000 + "1"), 1000)

    def test_stations_in_kilometres(self):
        for value, text in ((1250000, "1+250.000"), (0, "0+000.000"), (-4227, "-0+004.227"),
                            (10**12, "1000000+000.000"), (999, "0+000.999")):
            self.assertEqual(kilometres(value), text)
            if value >= 0:
                self.assertEqual(station_of_kilometres(text), value)
        self.assertEqual(station_of_kilometres("1+250"), 1250000)
        for text in ("1250", "1+25", "1+2500", "1+250.0", "1+250.0000", "+250", "-1+250", "1 +250", "\u0661+250",
                     "9" * 30 + "+000"):
            self.assertIsNone(station_of_kilometres(text), text)

    def test_back(self):
        for value, text in ((0, "0.000"), (155773, "155.773"), (-4227, "-4.227"), (-1, "-0.001")):
            self.assertEqual(metres(value), text)


class JobBytes(unittest.TestCase):
    def test_the_printed_example(self):
        self.assertEqual(support.PRINTED.to_bytes(), PRINTED_BYTES)
        self.assertEqual(Job.from_bytes(PRINTED_BYTES), support.PRINTED)

    def test_there_and_back(self):
        chance = random.Random(7)
        for kind in (1, 2):
            for _ in range(200):
                numbers = [chance.randrange(1 << chance.randrange(1, 42)) for _ in range(11 + kind)]
                rows = [[chance.randrange(1 << 40) for _ in range(6)]
                        for _ in range(chance.randrange(5))]
                made = Job(Header(*numbers), [Hazard(*row) for row in rows])
                self.assertEqual(made.header.kind, kind)
                self.assertEqual(Job.from_bytes(made.to_bytes()), made)

    def test_cut_short_and_left_over(self):
        for length in range(len(PRINTED_BYTES)):
            with self.assertRaises(Malformed):
                Job.from_bytes(PRINTED_BYTES[:length])
        for data in (PRINTED_BYTES + b"\0", b"\3" + PRINTED_BYTES[1:]):
            with self.assertRaises(Malformed):
                Job.from_bytes(data)
        with self.assertRaisesRegex(Malformed, "at most 256 hazards"):
            Job.from_bytes(Job(support.HEADER, [support.HEADWALL] * 257).to_bytes())

    def test_runs_there_and_back(self):
        runs = [Run(0, 100, 3), Run(100, 200, 1), Run(999999999999, 1000000000000, 6)]
        self.assertEqual(runs_of_bytes(bytes_of_runs(runs)), runs)
        self.assertEqual(bytes_of_runs([]), b"\0")
        self.assertEqual(runs_of_bytes(b"\0"), [])
        for data in (b"", b"\1", b"\0\0", bytes_of_runs(runs)[:-1]):
            with self.assertRaises(Malformed):
                runs_of_bytes(data)


class Shown(unittest.TestCase):
    def test_a_schedule_shows_its_runs(self):
        schedule = Schedule(bytes_of_runs([Run(0, 100, 3), Run(5000, 210000, 1)]), 38278, 1)
        self.assertEqual(str(schedule), "\n".join((
            "0.000 to 0.100 m, NC-3", "5.000 to 210.000 m, NC-1",
            "extends 38.278 m past the beginning of the road (neighbouring contract)",
            "extends 0.001 m past the end of the road (neighbouring contract)")))
        self.assertIn("runs=(Run(start=0, end=100, level=3),", repr(schedule))
        self.assertEqual(str(Schedule(b"\0", 0, 0)), "no barrier")
        self.assertIn("no schedule", str(Schedule(b"\1", 0, 0)))
        self.assertIn("data=b'\\x01'", repr(Schedule(b"\1", 0, 0)))


class JobText(unittest.TestCase):
    def test_there_and_back(self):
        for made in (support.PRINTED, support.made_job(10),
                     Job(replace(support.HEADER, panel=4000), [Hazard(2, 1, 2, 3, 4, 5)])):
            self.assertEqual(bytes_of_text(text_of_job(made)), made.to_bytes())

    def test_blanks_and_comments(self):
        good = text_of_job(support.PRINTED)
        for text in (good.replace("\n", " # a comment\r\n"), good.replace(" ", "\t  "),
                     "# a comment\n\n" + good.replace("\n", "\n \n"), good.rstrip("\n")):
            self.assertEqual(bytes_of_text(text), PRINTED_BYTES)

    def test_what_is_reported(self):
        good = text_of_job(support.PRINTED)
        for text, said in (
            (good + "road 0 1\n", "line 12, column 1: given a second time: road"),
            (good + "bridge 7\n", "line 12, column 1: no such field: bridge"),
            (good + "hazard right 1 2 3 4\n", "line 12, column 1: a hazard is side, first"),
            (good + " panel 4,000\n", "line 12, column 8: whole millimetres are wanted, without a "
                                      "point or comma (9000 for 9 m): 4,000"),
            (good + "panel 9.000\n", "line 12, column 7: whole millimetres are wanted"),
            (good + "kind 1.0\n", "line 12, column 6: a whole number is wanted"),
            (good + "panel 4\f000\n", "line 12, column 7: not a number: 4?000"),
            (good + "panel -4\n", "line 12, column 7: no number is below 0"),
            (good + "panel 18446744073709551616\n", "line 12, column 7: too great for 64 bits"),
            (good + f"panel {'9' * 5000}\n", "line 12, column 7: a number has at most 20 digits: "
                                             + "9" * 40 + "..."),
            (good + "hazard Right 1 2 3 4 5\n", "line 12, column 8: write right or left in small"),
            (good + "hazard middle 1 2 3 4 5\n", "line 12, column 8: a side is right or left"),
            (good + "Panel 1\n", "line 12, column 1: write it in small letters: Panel"),
            (good + "drives LEFT\n", "line 12, column 8: write right or left in small letters"),
            (good + "stations down\n", "line 12, column 1: stations wants rise or fall"),
            (good + "panel 1+250\n", "line 12, column 7: not a number"),
            (good.replace("road 0", "road 1+25"), "line 1, column 6: a station in kilometres is like"),
            (good.replace("flare 15 1", "flare 15"), "line 8, column 1: wants two numbers: flare"),
            (good.replace("straight 13340\n", ""), "line 11, column 1: the text ends without the "
                                                   "field: straight"),
            ("x" * 3000000, "the input is longer than 1048576 bytes"),
            ("x" * 1000000, "line 1, column 1: no such field: " + "x" * 40 + "..."),
            ("", "the input is empty"),
        ):
            with self.assertRaises(Malformed) as caught:
                bytes_of_text(text)
            self.assertIn(said, str(caught.exception))
            self.assertLess(len(str(caught.exception)), 200)

    @unittest.skipUnless(shutil.which("cc"), "there is no cc")
    def test_as_jobtext_writes_it(self):
        with tempfile.TemporaryDirectory() as folder:
            program = os.path.join(folder, "jobtext")
            source = os.path.join(support.ROOT, "examples", "jobtext.c")
            include = "-I" + os.path.join(support.ROOT, "include")
            subprocess.run(["cc", "-std=c99", include, source, "-o", program], check=True)
            extra = ["kind 7\n", "hazards 300\n", "panel 0\n"]
            texts = [support.sample_text(name) for name in support.sample_jobs()]
            for text in texts + [support.sample_text("printed") + line for line in extra]:
                wanted = subprocess.run(
                    [program], input=text.encode(), stdout=subprocess.PIPE, check=True).stdout
                self.assertEqual(bytes_of_text(text), wanted)


if __name__ == "__main__":
    unittest.main()
