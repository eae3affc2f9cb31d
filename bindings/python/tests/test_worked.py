"""The worked reports W1 to W12 of document 01."""

import unittest

import stormhlaw
from stormhlaw import Reason, Refused, Separators, read, rewrite
from tests.reports import LEVELS, SEGMENTS, W1, joined, with_segment


class Worked(unittest.TestCase):
    def refused(self, data, reason, segment, byte, element_number, **rooms):
        with self.assertRaises(Refused) as caught:
            read(data, **rooms)
        refusal = caught.exception.refusal
        found = (refusal.reason, refusal.segment, refusal.byte, refusal.element)
        self.assertEqual(found, (reason, segment, byte, element_number))
        return refusal

    def test_w1(self):
        report = read(joined(W1))
        self.assertEqual((report.segments, report.levels, report.bytes), (SEGMENTS, LEVELS, 78))
        self.assertEqual(read(joined(W1) + b"more", segment_room=7, level_room=2), report)

    def test_w2_to_w5(self):
        refusal = self.refused(with_segment(4, "HL*2*1*F*0"), Reason.LEVEL_NOT_PERMITTED, 4, 43, 2)
        self.assertEqual((refusal.segments, refusal.levels), (SEGMENTS[:3], LEVELS[:1]))
        self.assertEqual(str(refusal), "refused 14 segment 4 byte 43 element 2")
        self.refused(with_segment(4, "HL*2*9*I*0"), Reason.PARENT_UNKNOWN, 4, 43, 2)
        self.refused(with_segment(4, "HL*1*1*I*0"), Reason.LEVEL_USED_BEFORE, 4, 43, 1)
        self.refused(with_segment(7, "SE*6*0001"), Reason.CLOSING_WRONG, 7, 68, 1)

    def test_w6_to_w10(self):
        self.refused(joined(W1[:3] + ["SE*4*0001"]), Reason.MARK_UNFIT, 4, 43, 0)
        self.refused(b"", Reason.NO_TERMINATOR, 1, 0, 0)
        self.refused(joined(W1[:4] + W1[5:]), Reason.NO_ROW_FITS, 5, 54, 0)
        self.refused(with_segment(6, "NCA**R1**5"), Reason.NOTE_BROKEN, 6, 60, 4)
        refusal = self.refused(joined(W1), Reason.NO_ROOM, 7, 68, 0, segment_room=6)
        self.assertEqual((refusal.segments, refusal.levels), (SEGMENTS[:6], LEVELS))

    def test_w11_and_w12(self):
        def with_dtm(dtm):
            return joined(W1[:2] + [dtm] + W1[2:6] + ["SE*8*0001"])

        self.assertEqual(len(read(with_dtm("DTM*002*20240229")).segments), 8)
        self.refused(with_dtm("DTM*002*20230229"), Reason.VALUE_UNFIT, 3, 32, 2)
        self.assertEqual(len(read(with_dtm("DTM*002**2359")).segments), 8)
        self.refused(with_dtm("DTM*002**23595"), Reason.VALUE_UNFIT, 3, 32, 3)

    def test_answers_1_and_2(self):
        for wrong in (Separators(element=b"A"), Separators(component=b"*")):
            with self.assertRaises(Refused) as caught:
                read(joined(W1), wrong)
            self.assertEqual(str(caught.exception), "refused 1 segment 0 byte 0 element 0")
        self.refused(joined(W1).ljust(stormhlaw.LONGEST + 1, b"~"), Reason.INPUT_TOO_LONG, 0, 0, 0)
        self.assertEqual(read(joined(W1).ljust(stormhlaw.LONGEST, b"~")).bytes, 78)

    def test_other_separators_and_zero_bytes(self):
        data = joined(W1).replace(b"*", b"\x1d").replace(b"~", b"\x1e")
        self.assertEqual(read(data, Separators(b"\x1d", b"\x1f", b"\x1e")).segments, SEGMENTS)
        self.refused(joined(W1).replace(b"NR7", b"N\x007"), Reason.BYTE_UNFIT, 2, 12, 2)


class Rewriting(unittest.TestCase):
    NEW = Separators(b"|", b"^", b"'")

    def test_w1(self):
        report, output = rewrite(joined(W1), self.NEW)
        self.assertEqual((report.segments, report.levels, report.bytes), (SEGMENTS, LEVELS, 78))
        self.assertEqual(output, joined(W1).replace(b"*", b"|").replace(b"~", b"'"))

    def test_refusals(self):
        for data, new, length, wanted in (
            (joined(W1), Separators(element=b"A"), 78, "refused 1 segment 0 byte 0 element 1"),
            (joined(W1).replace(b"NR7", b"N|7"), self.NEW, 78, "refused 18 segment 2 byte 12 element 2"),
            (joined(W1), self.NEW, 77, "refused 19 segment 0 byte 0 element 0"),
        ):
            with self.assertRaises(Refused) as caught:
                rewrite(data, new, length=length)
            self.assertEqual(str(caught.exception), wanted)


if __name__ == "__main__":
    unittest.main()
