"""An attachment: BIN02 is ended by its count, may hold any byte, is handed back whole, and is copied by a rewriting."""

import unittest

from stormhlaw import Reason, Refused, Segment, SegmentRecord, Separators, read, rewrite
from tests.reports import ATTACHED, BEFORE_BIN, BEHIND_BIN, LEVELS, SEGMENTS, WITH_BIN

BIN = SegmentRecord(67, 14, 55, 2)
BEHIND = [SegmentRecord(82, 7, 64, 2), SegmentRecord(90, 9, 79, 0)]
ALL = SEGMENTS[:5] + [SegmentRecord(60, 6, 54, 2), BIN] + BEHIND
NEW = Separators(b"|", b"^", b"'")


class Attached(unittest.TestCase):
    def refused(self, reason, element_number, bin_bytes, behind=b""):
        """The report is refused at its BIN, which these bytes stand for."""
        with self.assertRaises(Refused) as caught:
            read(BEFORE_BIN + bin_bytes + behind)
        refusal = caught.exception.refusal
        found = (refusal.reason, refusal.segment, refusal.byte, refusal.element)
        self.assertEqual(found, (reason, 7, 67, element_number))
        self.assertEqual((refusal.segments, refusal.levels), (ALL[:6], LEVELS))

    def test_whole(self):
        report = read(WITH_BIN)
        self.assertEqual((report.segments, report.levels, report.bytes), (ALL, LEVELS, 100))
        segment = report.segments[6].segment(WITH_BIN)
        self.assertEqual(segment, Segment(b"BIN*8*" + ATTACHED))
        self.assertEqual([segment.element(number) for number in range(4)], [b"BIN", b"8", ATTACHED, b""])
        for part, wanted in ((0, ATTACHED), (1, ATTACHED), (2, b""), (3, b"")):
            self.assertEqual(segment.component(2, part), wanted)

    def test_lookup_of_a_count_that_ends_elsewhere(self):
        for segment, wanted in (
            (b"BIN*8*" + ATTACHED[:7], [b"BIN", b"8", b"~", b":\x00\xff|'", b""]),
            (b"BIN*8*" + ATTACHED + b"~", [b"BIN", b"8", b"~", b":\x00\xff|'\n~", b""]),
            (b"BIN*0*", [b"BIN", b"0", b"", b"", b""]),
            (b"BIN*0000000000000001**", [b"BIN", b"0000000000000001", b"", b"", b""]),
            (b"BIN*000000000000001**", [b"BIN", b"000000000000001", b"*", b"", b""]),
        ):
            self.assertEqual([Segment(segment).element(number) for number in range(5)], wanted)

    def test_rewriting_copies_it(self):
        report, output = rewrite(WITH_BIN, NEW)
        before = b"ST|842|0001'BNR|11|NR7|20240301'HL|1||RP|1'HL|2|1|I|0'NCD|1'EFI|00'BIN|8|"
        self.assertEqual(output, before + ATTACHED + b"'NCA||R1'SE|9|0001'")
        self.assertEqual(read(output, NEW), report)
        self.assertEqual(rewrite(output, Separators(), NEW), (report, WITH_BIN))

    def test_a_collision_behind_it_is_found(self):
        with self.assertRaises(Refused) as caught:
            rewrite(WITH_BIN.replace(b"NCA**R1", b"NCA***A|B"), NEW)
        self.assertEqual(str(caught.exception), "refused 18 segment 8 byte 82 element 3")

    def test_a_broken_count(self):
        for count in (b"BIN*0*", b"BIN**", b"BIN*8~", b"BIN*8:", b"BIN*-8*", b"BIN*0000000000000008*"):
            self.refused(Reason.VALUE_UNFIT, 1, count)
            self.refused(Reason.VALUE_UNFIT, 1, count, ATTACHED + BEHIND_BIN)

    def test_no_terminator_where_it_is_due(self):
        for count in (b"BIN*7*", b"BIN*9*", b"BIN*1*"):
            self.refused(Reason.VALUE_UNFIT, 2, count + ATTACHED, BEHIND_BIN)
        self.refused(Reason.VALUE_UNFIT, 2, b"BIN*3*~~~*")

    def test_the_end_inside(self):
        whole = b"BIN*8*" + ATTACHED
        for length in range(4, len(whole) + 1):
            self.refused(Reason.NO_TERMINATOR, 0, whole[:length])
        self.refused(Reason.NO_TERMINATOR, 0, b"BIN*999*" + ATTACHED, BEHIND_BIN)


if __name__ == "__main__":
    unittest.main()
