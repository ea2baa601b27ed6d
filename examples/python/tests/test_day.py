"""The controller's day prints what day.out holds."""
import contextlib
import io
import os
import unittest

import programs
import day


class Day(unittest.TestCase):
    maxDiff = None

    def test_the_log(self):
        printed = io.StringIO()
        with contextlib.redirect_stdout(printed):
            self.assertEqual(day.main(), 0)
        with open(os.path.join(programs.FOLDER, "day.out"), encoding="utf-8") as file:
            self.assertEqual(printed.getvalue(), file.read())


if __name__ == "__main__":
    unittest.main()
