"""What README.md shows runs and prints what it says."""
import contextlib
import io
import os
import re
import unittest

import support
import barrier_engine
from barrier_engine import Refused, Side, c, plan


def readme():
    with open(os.path.join(support.PYTHON, "README.md"), encoding="utf-8") as file:
        return file.read()


class Readme(unittest.TestCase):
    def test_the_first_program(self):
        found = re.search(r"## A first program\n\n(.*?)\n\nprints `(.*?)`", readme(), re.S)
        code = "\n".join(line[4:] for line in found.group(1).split("\n"))
        printed = io.StringIO()
        with contextlib.redirect_stdout(printed):
            exec(compile(code, "README.md", "exec"), {})
        self.assertEqual(printed.getvalue().strip(), found.group(2))

    def test_the_refusal(self):
        with self.assertRaises(Refused) as caught:
            plan(support.job(support.HEADER, {"near_offset": 3999}), Side.RIGHT)
        self.assertIn(str(caught.exception), " ".join(readme().split()))

    def test_every_call_is_listed(self):
        named = set(re.findall(r"`(barrier_\w+)`", readme()))
        self.assertEqual(set(c.CALLS) | {"barrier_version"}, named)

    def test_what_the_table_names_is_there(self):
        table = readme().split("## The calls")[1].split("## A job by hand")[0]
        for name in re.findall(r"^\| `(\w+)\(", table, re.M):
            self.assertTrue(hasattr(barrier_engine, name), name)
        methods = re.findall(r"`\.(\w+)", table)
        self.assertGreater(len(methods), 8)
        for name in methods:
            self.assertTrue(hasattr(barrier_engine.OpenJob, name), name)

    def test_what_is_said_of_planned_roads(self):
        part = readme().split("## A job by hand")[1].split("## Refusals")[0]
        road = barrier_engine.plan_road(barrier_engine.read_job(support.PRINTED.to_bytes()))
        for name in re.findall(r"`\.(\w+)", part):
            self.assertTrue(hasattr(road, name), name)
        for name in re.findall(r"`((?:swap|turn|plan|read|csv)_\w+)", part):
            self.assertTrue(hasattr(barrier_engine, name), name)
        self.assertEqual(set(re.findall(r"`(\w+)`", part)) & {"runs", "quantities", "hazards", "overhangs"},
                         set(barrier_engine.csv_tables(road)))


if __name__ == "__main__":
    unittest.main()
