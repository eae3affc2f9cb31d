"""The walk of a level table: levels under their parents, whatever order they stand in, and tables that are unfit."""

import array
import copy
import ctypes
import pickle
import random
import unittest

from stormhlaw import Refused, Separators, WalkRefused, read, rewrite, walk
from stormhlaw._library import Walked, library
from tests.fuzzing import expected_walk
from tests.reports import LEVELS, STRAY, STRAY_ORDER, W1, joined, with_items
from tests.test_buffers import KINDS

REPORT = joined(W1)
NEW = Separators(b"|", b"^", b"'")


def table(*levels):
    """A level table of these parents and depths; segments and codes are what no report has."""
    return array.array("Q", [number for parent, depth in levels for number in (2**64 - 1, parent, depth, 0)]).tobytes()


class Walks(unittest.TestCase):
    def refused(self, level, *levels):
        with self.subTest(levels), self.assertRaises(WalkRefused) as caught:
            walk(table(*levels))
        self.assertEqual((caught.exception.number, caught.exception.level), (20, level))
        self.assertEqual(str(caught.exception), f"refused 20 level {level}")

    def test_reports(self):
        self.assertEqual(walk(read(REPORT).levels), [1, 2])
        self.assertEqual(walk(read(joined(STRAY)).levels), STRAY_ORDER)
        self.assertEqual(walk(read(joined(STRAY)).level_table), STRAY_ORDER)
        self.assertEqual(walk(read(with_items(4095)).levels), list(range(1, 4097)))
        self.assertEqual(walk(rewrite(joined(STRAY), NEW)[0].levels), STRAY_ORDER)

    def test_levels_before_a_refusal(self):
        with self.assertRaises(Refused) as caught:
            read(joined(STRAY[:9]))
        self.assertEqual(walk(caught.exception.refusal.levels), [1, 3, 6, 5, 2, 4])

    def test_parts_of_a_report(self):
        levels = read(joined(STRAY)).levels
        self.assertEqual(walk(levels[:5]), [1, 3, 5, 2, 4])
        self.assertEqual(walk(levels[:0]), [])
        for part, level in ((levels[2:], 1), (levels[::-1], 1), (levels[1:], 3)):
            with self.assertRaises(WalkRefused) as caught:
                walk(part)
            self.assertEqual((caught.exception.number, caught.exception.level), (20, level))

    def test_tables(self):
        top, one, two, three = (0, 1), (1, 2), (2, 3), (3, 4)
        self.assertEqual(walk(b""), [])
        self.assertEqual(walk(table(top)), [1])
        self.assertEqual(walk(table(top, top, top)), [1, 2, 3])
        self.assertEqual(walk(table(top, one, two, three)), [1, 2, 3, 4])
        self.assertEqual(walk(table(top, one, two, three, three, two, one, top, one)), [1, 2, 3, 4, 5, 6, 7, 9, 8])
        self.assertEqual(walk(table(top, top, one, (2, 2), one, (2, 2))), [1, 3, 5, 2, 4, 6])
        # The last level goes under the first branch, below all others.
        self.assertEqual(walk(table(top, one, (2, 3), top, (4, 2), (5, 3), (3, 4))), [1, 2, 3, 7, 4, 5, 6])

    def test_what_is_less_than_a_level_is_not_looked_at(self):
        for more in range(32):
            self.assertEqual(walk(table((0, 1), (1, 2)) + more * b"\xff"), [1, 2])
            self.assertEqual(walk(more * b"\xff"), [])

    def test_unfit_without_a_parent(self):
        for depth in (0, 2, 3, 4, 5, 2**64 - 1):
            self.refused(1, (0, depth))
            self.refused(3, (0, 1), (1, 2), (0, depth))

    def test_unfit_parents(self):
        for parent in (3, 4, 100, 2**32 + 1, 2**63, 2**64 - 1):
            for depth in (0, 1, 2, 3):
                self.refused(3, (0, 1), (1, 2), (parent, depth))
        self.refused(1, (1, 1))
        self.refused(1, (1, 2))
        # The parent comes later, and would be fit.
        self.refused(1, (2, 2), (0, 1))

    def test_unfit_depths(self):
        for depth in (0, 1, 3, 4, 2**64 - 1):
            self.refused(2, (0, 1), (1, depth))
        for depth in (0, 1, 2, 4, 5, 2**32 + 3):
            self.refused(3, (0, 1), (1, 2), (2, depth))
        # One more than the parent's, and more than 4.
        self.refused(5, (0, 1), (1, 2), (2, 3), (3, 4), (4, 5))

    def test_the_first_unfit_level(self):
        self.refused(2, (0, 1), (2, 2), (9, 9), (0, 0))
        self.refused(3, (0, 1), (1, 2), (1, 3), (3, 4))

    def test_generated_tables(self):
        chance, listed = random.Random(842), 0
        for _ in range(2000):
            levels = []
            for number in range(chance.randrange(12)):
                fit = [parent for parent in range(1, number + 1) if levels[parent - 1][1] < 4]
                parent = chance.choice([0, *fit])
                levels.append((parent, levels[parent - 1][1] + 1 if parent else 1))
            if levels and chance.random() < 0.3:
                levels[chance.randrange(len(levels))] = (chance.randrange(14), chance.randrange(6))
            wanted = expected_walk(table(*levels))
            if isinstance(wanted, list):
                self.assertEqual(walk(table(*levels)), wanted)
                listed += 1
            else:
                self.refused(wanted, *levels)
        self.assertGreater(listed, 1000)

    def test_every_kind_of_bytes(self):
        data = table((0, 1), (0, 1), (1, 2))
        for kind, make in KINDS.items():
            with self.subTest(kind):
                self.assertEqual(walk(make(data)), [1, 3, 2])
        for before in range(8):
            # Where no number may start, in views that are copied and in one that is not.
            for items in (1, 5000):
                view = memoryview(bytes(before) + items * table((0, 1)) + bytes(5))[before:-5]
                self.assertEqual(walk(view), list(range(1, items + 1)))

    def test_no_table(self):
        for value, kind in ((LEVELS, "list"), (None, "None"), ("", "str"), (2, "int"), (array.array("Q"), "array")):
            with self.assertRaises(TypeError) as caught:
                walk(value)
            wanted = f"levels: Levels, bytes, bytearray or memoryview wanted, not {kind}"
            self.assertEqual(str(caught.exception), wanted)
        view = memoryview(b"")
        view.release()
        with self.assertRaises(ValueError) as caught:
            walk(view)
        wanted = "levels: bytes, bytearray or memoryview wanted, not a released memoryview"
        self.assertEqual(str(caught.exception), wanted)
        self.assertRaises(TypeError, walk)

    def test_a_refusal_travels(self):
        for refused in (pickle.loads(pickle.dumps(WalkRefused(20, 7))), copy.copy(WalkRefused(20, 7))):
            self.assertEqual((refused.number, refused.level, str(refused)), (20, 7, "refused 20 level 7"))

    def test_the_library(self):
        """The answers that the package has no way to get, and that the output is as it was at a refusal."""
        levels = table((0, 1), (0, 1), (1, 2))

        def walked(numbers, count, room):
            output, answer = (ctypes.c_uint64 * 5)(*range(70, 75)), Walked(9, 9)
            library.stormhlaw_walk(levels, numbers, count, output, room, answer)
            return answer[:], output[:]

        found = list(range(70, 75))
        self.assertEqual(walked(12, 3, 3), ([0, 3], [1, 3, 2, 73, 74]))
        self.assertEqual(walked(12, 3, 5), ([0, 3], [1, 3, 2, 73, 74]))
        self.assertEqual(walked(12, 2, 5), ([0, 2], [1, 2, 72, 73, 74]))
        self.assertEqual(walked(12, 0, 0), ([0, 0], found))
        for numbers, count in ((12, 4), (11, 3), (3, 1), (0, 1), (12, 2**62), (12, 2**64 - 1)):
            self.assertEqual(walked(numbers, count, 5), ([20, 0], found))
        for room in range(3):
            self.assertEqual(walked(12, 3, room), ([21, 0], found))
        self.assertEqual(walked(12, 4, 0), ([20, 0], found))


if __name__ == "__main__":
    unittest.main()
