"""How labels find their places."""
import random
import unittest

import programs  # noqa: F401
from barrier_picture.labels import in_rows, lanes, spread, thinned
from barrier_picture.svg import text_width


def apart(middles, widths):
    pairs = list(zip(middles, widths))
    return all(a + v / 2 <= b - w / 2 + 1e-9 for (a, v), (b, w) in zip(pairs, pairs[1:]))


class Spread(unittest.TestCase):
    def test_those_that_have_room_stay(self):
        self.assertEqual(spread([10, 50, 90], [20, 20, 20], 0, 100), [10, 50, 90])

    def test_those_that_overlap_share_the_way(self):
        self.assertEqual(spread([50, 50], [20, 20], 0, 100), [40, 60])
        self.assertEqual(spread([40, 50, 90], [20, 20, 20], 0, 100), [35, 55, 90])

    def test_at_the_ends(self):
        self.assertEqual(spread([0, 1], [20, 20], 0, 100), [10, 30])
        self.assertEqual(spread([100, 100], [20, 20], 0, 100), [70, 90])
        self.assertIsNone(spread([1, 2, 3], [20, 20, 21], 0, 60))
        self.assertEqual(spread([1, 2, 3], [20, 20, 20], 0, 60), [10, 30, 50])
        self.assertEqual(spread([], [], 0, 1), [])

    def test_random_ones(self):
        chance = random.Random(2)
        for _ in range(300):
            count = chance.randrange(1, 40)
            wanted = sorted(chance.uniform(-20, 1020) for _ in range(count))
            widths = [chance.uniform(5, 20) for _ in range(count)]
            middles = spread(wanted, widths, 0, 1000)
            self.assertTrue(apart(middles, widths))
            self.assertGreaterEqual(middles[0] - widths[0] / 2, -1e-9)
            self.assertLessEqual(middles[-1] + widths[-1] / 2, 1000 + 1e-9)


class Rows(unittest.TestCase):
    def rows(self, wanted, widths, high, way):
        placed = in_rows(wanted, widths, 0, high, 3, way)
        return 1 + max(place.row for place in placed)

    def test_as_few_rows_as_suffice(self):
        for count, rows in ((5, 1), (6, 2), (7, 2)):
            self.assertEqual(self.rows([50] * count, [20] * count, 100, 100), rows)
        self.assertIsNone(in_rows([50] * 60, [20] * 60, 0, 100, 3, 100))

    def test_more_rows_bring_labels_nearer(self):
        for way, rows in ((100, 1), (89, 2), (40, 3), (1, 3)):
            self.assertEqual(self.rows([500] * 10, [20] * 10, 1000, way), rows)

    def test_no_leader_passes_through_a_label(self):
        chance = random.Random(4)
        wanted = sorted(chance.uniform(0, 500) for _ in range(40))
        for rows_max in (2, 3):
            placed = in_rows(wanted, [18] * 40, 0, 500, rows_max, 0)
            self.assertEqual(1 + max(place.row for place in placed), rows_max)
            for row in range(rows_max):
                passing = [(p.passes[row], 18 if p.row == row else 4) for p in placed if p.row >= row]
                self.assertTrue(apart(*zip(*passing)))


class Others(unittest.TestCase):
    def test_thinned(self):
        self.assertEqual(thinned([10, 25, 30, 95], [20] * 4, 0, 100), [0, 2])
        self.assertEqual(thinned([9, 90], [20, 20], 0, 100), [1])

    def test_lanes(self):
        self.assertEqual(lanes([(0, 10), (5, 15), (10, 20), (12, 13)]), [0, 1, 0, 2])
        self.assertEqual(lanes([(5, 15), (0, 10)]), [1, 0])
        self.assertEqual(lanes([]), [])

    def test_widths(self):
        self.assertAlmostEqual(text_width("0123456789", 10), 63.6)
        self.assertAlmostEqual(text_width("m.", 10), 12.92)
        self.assertAlmostEqual(text_width("\u00e9", 10), 10)


if __name__ == "__main__":
    unittest.main()
