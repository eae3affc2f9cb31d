"""Records, the sequences of them, and the tables that they see through to."""

import copy
import pickle
import threading
import unittest
from collections.abc import Sequence

from stormhlaw import Code, Level, Levels, SegmentRecord, Segments, read
from tests.reports import LEVELS, SEGMENTS, W1, joined, with_items

REPORT = joined(W1)


class Sequences(unittest.TestCase):
    def setUp(self):
        self.report = read(REPORT)
        self.pairs = ((self.report.segments, SEGMENTS), (self.report.levels, LEVELS))

    def test_kinds(self):
        self.assertIs(type(self.report.segments), Segments)
        self.assertIs(type(self.report.levels), Levels)
        for records, _ in self.pairs:
            self.assertIsInstance(records, Sequence)

    def test_length_index_and_iteration(self):
        for records, wanted in self.pairs:
            self.assertEqual(len(records), len(wanted))
            self.assertEqual(list(records), wanted)
            self.assertEqual(list(reversed(records)), wanted[::-1])
            for index in range(-len(wanted), len(wanted)):
                self.assertEqual(records[index], wanted[index])
                self.assertIs(type(records[index]), type(wanted[index]))

    def test_indexes_that_are_none(self):
        for records, wanted in self.pairs:
            for index in (len(wanted), -len(wanted) - 1, 1 << 80, -1 << 20_000):
                with self.assertRaises(IndexError) as caught:
                    records[index]
                self.assertEqual(str(caught.exception), f"index out of range: there are {len(wanted)} records")
            for index in ("0", None, 0.0):
                with self.assertRaises(TypeError):
                    records[index]

    def test_slices(self):
        places = (None, -9, -3, -1, 0, 1, 2, 5, 7, 9)
        for records, wanted in self.pairs:
            for part in (slice(a, b, step) for a in places for b in places for step in (None, 1, 2, 3, -1, -2)):
                self.assertEqual(records[part], wanted[part])
                self.assertIs(type(records[part]), type(records))
                self.assertEqual(records[part][::-1], wanted[part][::-1])

    def test_membership(self):
        for records, wanted in self.pairs:
            for record in wanted:
                self.assertIn(record, records)
                self.assertEqual(records.index(record), wanted.index(record))
                self.assertEqual(records.count(record), 1)
            self.assertNotIn(SegmentRecord(0, 11, 2, 0), records)
            self.assertNotIn(SegmentRecord(0, 11, 1, 1), records)
            self.assertNotIn(None, records)

    def test_equality(self):
        again = read(REPORT + b"more")
        other = read(with_items(2))
        for records, wanted in self.pairs:
            self.assertEqual(records, wanted)
            self.assertEqual(wanted, records)
            self.assertNotEqual(records, wanted[:-1])
            self.assertNotEqual(records, wanted[:-1] + [wanted[0]])
            self.assertNotEqual(records, tuple(wanted))
            self.assertNotEqual(records, None)
        self.assertEqual(self.report, again)
        self.assertEqual(self.report.segments, again.segments)
        self.assertNotEqual(self.report, other)
        self.assertNotEqual(self.report.segments, other.segments)
        self.assertNotEqual(self.report.segments, self.report.levels)
        self.assertEqual(self.report.segments[:0], self.report.levels[:0])
        self.assertRaises(TypeError, hash, self.report.segments)

    def test_repr(self):
        self.assertEqual(
            repr(self.report.segments),
            "Segments([SegmentRecord(start=0, length=11, row=1, level=0), "
            "SegmentRecord(start=12, length=19, row=2, level=0), "
            "SegmentRecord(start=32, length=10, row=18, level=1), .. 4 more])",
        )
        one = "Segments([SegmentRecord(start=0, length=11, row=1, level=0)])"
        self.assertEqual(repr(self.report.segments[:1]), one)
        self.assertEqual(repr(self.report.levels[2:]), "Levels([])")
        self.assertLess(len(repr(read(with_items(4000)))), 1000)

    def test_pickle_and_copy(self):
        for value in (self.report, self.report.segments[:0], self.report.levels[::-1]):
            for other in (pickle.loads(pickle.dumps(value)), copy.copy(value), copy.deepcopy(value)):
                self.assertEqual(other, value)
                self.assertIs(type(other), type(value))


class Tables(unittest.TestCase):
    def test_numbers(self):
        report = read(REPORT)
        self.assertEqual(report.segment_table.tolist(), [number for segment in SEGMENTS for number in segment])
        self.assertEqual(report.level_table.tolist(), [3, 0, 1, 1, 4, 1, 2, 2])
        self.assertEqual(report.segments[2:3].table.tolist(), [32, 10, 18, 1])
        for table in (report.segment_table, report.level_table):
            self.assertEqual((table.format, table.readonly, table.ndim), ("Q", True, 1))
            with self.assertRaises(TypeError):
                table[0] = 1

    def test_a_table_that_is_released_takes_nothing_away(self):
        report = read(REPORT)
        with report.segment_table, report.level_table:
            pass
        self.assertEqual((report.segments, report.levels), (SEGMENTS, LEVELS))

    def test_a_report_holds_what_it_needs(self):
        report = read(with_items(2000).ljust(1_000_000, b"~"))
        self.assertEqual(len(report.segment_table.obj), 8 * len(report.segment_table))
        self.assertEqual(len(report.level_table.obj), 8 * len(report.level_table))


class Records(unittest.TestCase):
    def test_a_report_goes_through_its_segments(self):
        self.assertEqual(list(read(REPORT)), SEGMENTS)
        self.assertEqual([row for _, _, row, _ in read(REPORT)], [1, 2, 18, 18, 46, 64, 79])

    def test_records_are_fixed(self):
        level = Level(3, 0, 1, Code.REPORT)
        records = ((SegmentRecord(0, 11, 1, 0), "start"), (level, "parent"), (read(REPORT), "bytes"))
        for record, field in records:
            with self.assertRaises(AttributeError):
                setattr(record, field, 1)

    def test_codes(self):
        self.assertEqual([code.text for code in Code], ["RP", "I", "F", "PC", "SN", "RB"])
        self.assertIs(read(REPORT).levels[1].code, Code.ITEM)

    def test_threads(self):
        data, found = with_items(3000), []
        threads = [threading.Thread(target=lambda: found.extend(read(data) for _ in range(20))) for _ in range(4)]
        for thread in threads:
            thread.start()
        for thread in threads:
            thread.join()
        self.assertEqual(len(found), 80)
        self.assertTrue(all(report == found[0] for report in found))


if __name__ == "__main__":
    unittest.main()
