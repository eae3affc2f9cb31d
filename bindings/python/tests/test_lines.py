"""Line ends between segments: skipped by default, refused by a strict reading, and so by every rewriting."""

import copy
import pickle
import unittest
from itertools import cycle

from stormhlaw import STRICT, How, LineEnds, Reason, Refused, SegmentRecord, Separators, read, rewrite
from stormhlaw.how import DEFAULT
from tests.reports import LEVELS, SEGMENTS, W1, joined

NEW = Separators(b"|", b"^", b"'")
ENDS = b"\r\n", b"\n", b"\r"


def ended(*ends):
    """W1 with an end behind each segment: the first of them behind the first segment, and so on, again and again."""
    return b"".join(segment.encode() + b"~" + end for segment, end in zip(W1, cycle(ends)))


def moved(*ends):
    """W1's segments where these ends stand behind them."""
    skipped, segments = 0, []
    for segment, end in zip(SEGMENTS, cycle(ends)):
        segments.append(segment._replace(start=segment.start + skipped))
        skipped += len(end)
    return segments


class Lines(unittest.TestCase):
    def refused(self, reason, segment, byte, element_number, call, *arguments, **named):
        with self.subTest(arguments), self.assertRaises(Refused) as caught:
            call(*arguments, **named)
        refusal = caught.exception.refusal
        found = (refusal.reason, refusal.segment, refusal.byte, refusal.element)
        self.assertEqual(found, (reason, segment, byte, element_number))
        return refusal

    def test_skipped_by_default(self):
        alike = [(end,) for end in (b"", *ENDS)]
        mixed = [(b"\r\n", b"", b"\n", b"\r"), (b"", b"", b"\r", b"\r\n", b"\n")]
        for ends in alike + mixed:
            with self.subTest(ends):
                data, segments = ended(*ends), moved(*ends)
                report = read(data)
                used = segments[-1].start + segments[-1].length + 1
                self.assertEqual((report.segments, report.levels, report.bytes), (segments, LEVELS, used))
                texts = [record.segment(data).data.decode() for record in report]
                self.assertEqual(texts, W1)
                self.assertEqual(read(data, how=How()), report)

    def test_strictly_refused(self):
        for end in ENDS:
            refusal = self.refused(Reason.BYTE_UNFIT, 2, 12, 0, read, ended(end), how=STRICT)
            self.assertEqual((refusal.segments, refusal.levels), (SEGMENTS[:1], []))
            last = ended(b"", b"", b"", b"", b"", end)
            refusal = self.refused(Reason.BYTE_UNFIT, 7, 68, 0, read, last, how=STRICT)
            self.assertEqual((refusal.segments, refusal.levels), (SEGMENTS[:6], LEVELS))
        self.assertEqual(read(joined(W1), how=STRICT).bytes, 78)

    def test_more_than_one_line_end(self):
        for end, skipped in ((b"\n\r", 1), (b"\r\r\n", 1), (b"\n\n", 1), (b"\r\n\r\n", 2), (b"\r\n\n", 2)):
            self.refused(Reason.BYTE_UNFIT, 2, 12 + skipped, 0, read, ended(end))
        self.refused(Reason.TAG_UNKNOWN, 2, 14, 0, read, ended(b"\r\n "))

    def test_elsewhere(self):
        for end in ENDS:
            self.refused(Reason.BYTE_UNFIT, 1, 0, 0, read, end + joined(W1))
            self.refused(Reason.BYTE_UNFIT, 2, 12, 2, read, joined(W1).replace(b"NR7", b"NR7" + end))
            self.assertEqual(read(joined(W1) + end).bytes, 78)

    def test_the_end_behind_a_line_end(self):
        ends = ((b"", 0), (b"\r", 1), (b"\n", 1), (b"\r\n", 2), (b"\r\n\r\n", 2), (b"\r\nBNR", 2))
        for end, skipped in ends:
            self.refused(Reason.NO_TERMINATOR, 2, 12 + skipped, 0, read, b"ST*842*0001~" + end)
            self.refused(Reason.NO_TERMINATOR, 2, 12, 0, read, b"ST*842*0001~" + end, how=STRICT)

    def test_line_ends_that_separate(self):
        lines, returns = Separators(terminator=b"\n"), Separators(terminator=b"\r")
        for data, separators in (
            (ended(b"\r").replace(b"~", b"\n"), lines),
            (ended(b"\n").replace(b"~", b"\r"), returns),
        ):
            report = read(data, separators)
            self.assertEqual((report.segments, report.bytes), (moved(b"?"), 84))
        # A second LF is the terminator of a segment without a tag.
        self.refused(Reason.TAG_UNKNOWN, 2, 12, 0, read, ended(b"\n").replace(b"~", b"\n"), lines)
        # An LF that separates components stays before the tag, behind the CR that is skipped.
        self.refused(Reason.TAG_UNKNOWN, 2, 13, 0, read, ended(b"\r\n"), Separators(component=b"\n"))

    def test_an_attachment_keeps_its_line_ends(self):
        before = b"ST*842*0001~\r\nBNR*11*NR7*20240301~\nHL*1**I~NCD*1~\rEFI*00~\n"
        data = before + b"BIN*4*\r\n\r\n~\r\nSE*7*0001~"
        report = read(data)
        self.assertEqual((report.segments[5], report.bytes), (SegmentRecord(58, 10, 55, 1), len(data)))
        self.assertEqual(report.segments[5].segment(data).component(2, 1), b"\r\n\r\n")

    def test_rewriting_is_strict(self):
        for how in ({}, {"how": How()}, {"how": STRICT}):
            self.refused(Reason.BYTE_UNFIT, 2, 12, 0, rewrite, ended(b"\r\n"), NEW, **how)
            self.assertEqual(rewrite(joined(W1), Separators(), **how)[1], joined(W1))


class Choices(unittest.TestCase):
    def test_names(self):
        self.assertEqual((How().line_ends, STRICT.line_ends), (LineEnds.SKIPPED, LineEnds.STRICT))
        self.assertEqual((DEFAULT, STRICT), (How(), How(LineEnds.STRICT)))
        self.assertNotEqual(How(), STRICT)
        self.assertEqual(len({How(), DEFAULT, STRICT}), 2)

    def test_a_choice_is_fixed(self):
        with self.assertRaises(AttributeError):
            STRICT.line_ends = LineEnds.SKIPPED

    def test_pickle_and_copy(self):
        for other in (pickle.loads(pickle.dumps(STRICT)), copy.copy(STRICT), copy.deepcopy(STRICT)):
            self.assertEqual(other, STRICT)
            with self.assertRaises(Refused):
                read(ended(b"\n"), how=other)


if __name__ == "__main__":
    unittest.main()
