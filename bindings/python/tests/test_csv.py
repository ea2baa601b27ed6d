"""Tables for a spreadsheet: what they say, and that listing in C writes the same."""
import csv
import io
import unittest
from dataclasses import replace

import support
from barrier_engine import (
    Job, csv_tables, hazards_csv, metres, plan_road, quantity, read_text, text_of_job,
)

NAMES = ("=1+1", "culvert, east", "the old pier", "@x", "-3", "+4", "", "plain", "caf\u00e9")
# A comment may have quotes in it.
COMMENTS = (' # the "old" pier, east', ' # "', " # =a,b", ' # @"', " # a;b")


def roads():
    """Texts of roads of every kind."""
    for name in support.sample_jobs():
        if name != "refused":
            yield support.sample_text(name)
    job = support.made_job(40)
    rows = text_of_job(job).splitlines()
    yield "\n".join(row + (COMMENTS[i % 5] if row.startswith("hazard") else "") for i, row in enumerate(rows))
    names = [NAMES[i % len(NAMES)] for i in range(40)]
    one_way = Job(replace(job.header, runout_opposite=0), job.hazards)
    yield text_of_job(job, names)
    yield "drives left\n" + text_of_job(job, names)
    yield "stations fall\n" + text_of_job(one_way, names)
    yield "stations fall\ndrives left\n" + text_of_job(one_way, names)


def rows_of(text):
    return list(csv.DictReader(io.StringIO(text, newline="")))


class Tables(unittest.TestCase):
    def setUp(self):
        self.job = support.made_job(10)
        self.road = plan_road(read_text(text_of_job(self.job, NAMES)))

    def test_runs(self):
        rows = rows_of(csv_tables(self.road)["runs"])
        wanted = [(side, run) for side in self.road.sides for run in side.runs]
        self.assertEqual(len(rows), len(wanted))
        for row, (side, run) in zip(rows, wanted):
            self.assertEqual((row["side"], row["level"]), (side.side.name.lower(), str(run.level)))
            for key, value in (("start", run.start), ("end", run.end), ("length", run.length)):
                self.assertEqual((row[key + "_mm"], row[key + "_m"]), (str(value), metres(value)))
        self.assertEqual(rows[0]["run"], "R1")
        self.assertNotIn("start_km", rows[0])

    def test_stations_in_kilometres(self):
        rows = rows_of(csv_tables(self.road, in_kilometres=True)["runs"])
        self.assertEqual(rows[1]["start_km"], "0+074.302")
        self.assertNotIn("length_km", rows[1])

    def test_quantities_add_up(self):
        lots = [0, 150000, 400000, 700000]
        rows = rows_of(csv_tables(self.road, lots)["quantities"])
        for side in self.road.sides:
            for level in range(1, 7):
                some = [row for row in rows
                        if row["side"] == side.side.name.lower() and row["level"] == str(level)]
                whole = quantity(side.schedule, level, 0, self.job.header.end)
                self.assertEqual(sum(int(row["quantity_mm"]) for row in some), whole)
                self.assertEqual(bool(some), bool(whole))
                if some:
                    self.assertEqual([row["lot"] for row in some], ["1", "2", "3", "outside"])

    def test_names_are_quoted_and_guarded(self):
        rows = rows_of(hazards_csv(self.road))
        wanted = ["'=1+1", "culvert, east", "the old pier", "'@x", "'-3", "'+4", "", "plain", "caf\u00e9", ""]
        self.assertEqual([row["name"] for row in rows], wanted)
        self.assertIn('"culvert, east"', hazards_csv(self.road))
        outside = [row for row in rows if row["envelope_start_mm"] == ""]
        self.assertEqual([row["hazard"] for row in outside], ["7"])

    def test_quotes_in_a_comment(self):
        text = text_of_job(support.PRINTED).rstrip("\n") + ' # the "old" pier, east'
        table = hazards_csv(plan_road(read_text(text)))
        self.assertIn('0,"the ""old"" pier, east",right,3,', table)
        self.assertEqual(rows_of(table)[0]["name"], 'the "old" pier, east')

    def test_overhangs(self):
        rows = rows_of(csv_tables(self.road)["overhangs"])
        self.assertEqual(rows, [
            {"side": "right", "before_mm": "30802", "after_mm": "0", "before_m": "30.802", "after_m": "0.000"},
            {"side": "left", "before_mm": "0", "after_mm": "11529", "before_m": "0.000", "after_m": "11.529"}])


@unittest.skipUnless(support.HAS_CC, "there is no cc")
class AsListing(unittest.TestCase):
    def test_byte_for_byte(self):
        seen = 0
        for text in roads():
            road = plan_road(read_text(text))
            end = road.header.end
            for lots in ([], [0, end], [1000, end // 3, end // 2]):
                stations = ["--lots", *map(metres, lots)] if lots else []
                for in_kilometres in (False, True):
                    units = ["--stations", "km"] if in_kilometres else []
                    for what, table in csv_tables(road, lots, in_kilometres).items():
                        if lots and what != "quantities":
                            continue
                        status, out, _ = support.called(
                            "listing", text.encode(), "--csv", what, *units, *stations)
                        self.assertEqual((status, out), (0, table.encode()), (what, lots, text[:60]))
                        seen += 1
        self.assertGreater(seen, 200)


if __name__ == "__main__":
    unittest.main()
