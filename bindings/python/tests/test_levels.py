"""The level that each segment belongs to."""

import ctypes
import unittest

from stormhlaw import Reason, Refused, Separators, read, rewrite
from stormhlaw._library import Answer, library
from tests.reports import joined

# Levels down to the fourth, and then an item under the first, with the level that each segment belongs to. No HL01 is
# the number of its level.
TREE = [
    ("ST*842*0001", 0), ("BNR*11*NR7*20240301", 0), ("DTM*002*20240301", 0),
    ("HL*30**RP*1", 1), ("DTM*002*20240302", 1), ("HL*20*30*I*1", 2), ("HL*10*20*F*1", 3), ("HL*5*10*PC*0", 4),
    ("NCD*1", 4), ("HL*40*30*I*0", 5), ("NCD*1", 5), ("NCA**R1", 5), ("SE*13*0001", 0),
]  # fmt: skip
TEXTS, NUMBERS = map(list, zip(*TREE))
REPORT = joined(TEXTS)


class Levels(unittest.TestCase):
    def test_the_latest_hl_and_not_its_parent(self):
        report = read(REPORT)
        self.assertEqual([segment.level for segment in report], NUMBERS)
        self.assertEqual([level.parent for level in report.levels], [0, 1, 2, 3, 1])
        in_lines = read(REPORT.replace(b"~", b"~\r\n"))
        self.assertEqual([segment.level for segment in in_lines], NUMBERS)
        self.assertEqual(rewrite(REPORT, Separators(b"|", b"^", b"'"))[0], report)

    def test_the_record_of_a_level_names_its_hl(self):
        report, latest = read(REPORT), None
        for number, (segment, text) in enumerate(zip(report, TEXTS), 1):
            if text.startswith(("HL*", "SE*")):
                latest = number if text.startswith("HL*") else None
            level = report.levels.of(segment)
            self.assertEqual(level and level.segment, latest)

    def test_no_level_of_another_reading(self):
        with self.assertRaises(IndexError):
            read(REPORT).levels[:1].of(read(REPORT).segments[5])

    def test_a_refusal_leaves_the_levels_of_what_stands_before(self):
        whole = read(REPORT)
        for length in range(len(REPORT)):
            with self.assertRaises(Refused) as caught:
                read(REPORT[:length])
            refusal = caught.exception.refusal
            before = refusal.segment - 1
            self.assertEqual(refusal.segments, whole.segments[:before])
            self.assertEqual(refusal.levels, whole.levels[: max(NUMBERS[:before], default=0)])

    def test_a_segment_takes_four_numbers(self):
        def answer(room):
            segments, levels, answer = (ctypes.c_uint64 * 52)(), (ctypes.c_uint64 * 20)(), Answer()
            library.stormhlaw_read(REPORT, len(REPORT), 42, 58, 126, 0, segments, room, levels, 20, answer)
            return answer[:2]

        for room, refused in ((3, 1), (4, 2), (7, 2), (8, 3), (3 * 13, 10), (4 * 13 - 1, 13)):
            self.assertEqual(answer(room), [Reason.NO_ROOM, refused])
        self.assertEqual(answer(4 * 13), [0, 13])


if __name__ == "__main__":
    unittest.main()
