"""Storage-quality replies: the rows of their profile, their levels, and that every reading and rewriting is told it."""

import copy
import pickle
import unittest

from stormhlaw import (
    REPLY,
    STRICT,
    Code,
    How,
    Level,
    LineEnds,
    Profile,
    Reason,
    Refused,
    SegmentRecord,
    Separators,
    read,
    rewrite,
)
from stormhlaw.how import DEFAULT, flags_of
from tests.reports import HERE, REPLY_LEVELS, REPLY_RECORDS, REPLY_SEGMENTS, W1, joined

DATA = joined(REPLY_SEGMENTS)
NEW = Separators(b"|", b"^", b"'")
STRICTLY = How(LineEnds.STRICT, Profile.STORAGE_REPLY)

# A reply with many of the rows: N1 stands in rows 12, 56 and 71.
EXAMPLE = HERE.parent.parent / "examples" / "reply.edi"
EXAMPLE_RECORDS = [
    (0, 11, 1, 0), (12, 19, 2, 0), (32, 16, 12, 0), (49, 19, 17, 0), (69, 8, 18, 1), (78, 7, 18, 2), (86, 21, 19, 2),
    (108, 16, 23, 2), (125, 10, 24, 2), (136, 12, 26, 2), (149, 5, 30, 2), (155, 8, 31, 2), (164, 8, 18, 3),
    (173, 5, 46, 3), (179, 23, 47, 3), (203, 11, 56, 3), (215, 7, 64, 3), (223, 16, 71, 3), (240, 10, 79, 0),
]  # fmt: skip
EXAMPLE_LEVELS = [Level(5, 0, 1, Code.REPORT), Level(6, 0, 1, Code.ITEM), Level(13, 0, 1, Code.RESPONSE)]


def with_segments(number, *segments):
    """The reply with other segments in place of its own from that number on, which counts from 1."""
    return joined(REPLY_SEGMENTS[: number - 1] + list(segments))


class Replies(unittest.TestCase):
    def refused(self, reason, segment, byte, element_number, call, data, *arguments, **named):
        with self.subTest(data), self.assertRaises(Refused) as caught:
            call(data, *arguments, **named)
        refusal = caught.exception.refusal
        found = (refusal.reason, refusal.segment, refusal.byte, refusal.element)
        self.assertEqual(found, (reason, segment, byte, element_number))
        return refusal

    def other_row(self, segment, byte, data):
        """The row of the segment that starts there is not in the profile, and the records before it are left."""
        refusal = self.refused(Reason.ROW_NOT_IN_PROFILE, segment, byte, 0, read, data, how=REPLY)
        self.assertEqual(len(refusal.segments), segment - 1)
        self.assertEqual(len(refusal.levels), sum(record.row == 18 for record in refusal.segments))

    def test_levels_without_parents(self):
        for how in (REPLY, STRICTLY):
            report = read(DATA, how=how)
            self.assertEqual((report.segments, report.levels, report.bytes), (REPLY_RECORDS, REPLY_LEVELS, 82))
        self.assertEqual([level.code.text for level in report.levels], ["RP", "RB", "I"])
        self.assertEqual(report.level_table.tolist(), [3, 0, 1, 1, 4, 0, 1, 6, 5, 0, 1, 2])

    def test_the_example(self):
        data = EXAMPLE.read_bytes()
        report = read(data, how=REPLY)
        records = [SegmentRecord(*numbers) for numbers in EXAMPLE_RECORDS]
        self.assertEqual((report.segments, report.levels, report.bytes), (records, EXAMPLE_LEVELS, 251))
        refusal = self.refused(Reason.LEVEL_NOT_PERMITTED, 13, 164, 3, read, data)
        self.assertEqual((refusal.segments, refusal.levels), (records[:12], EXAMPLE_LEVELS[:2]))

    def test_rows_of_the_profile(self):
        """Every row of the profile, at its place."""
        segments = [
            "ST*842*0001", "BNR*11*NR7*20240301", "N1*ST*A", "PER*IC*A", "HL*1**I", "LIN**FS*1", "DTM*050*20240305",
            "REF*TN*1", "CS*1", "QTY*01*1", "LM*DF", "LQ*DE*1", "NCD*1", "NTE**A", "DTM*050*20240305", "REF*TN*1",
            "AMT*1*1", "N1*ST*A", "NCA**R1", "N1*ST*A", "SE*21*0001",
        ]  # fmt: skip
        rows = [record.row for record in read(joined(segments), how=REPLY)]
        wanted = [1, 2, 12, 17, 18, 19, 23, 24, 25, 26, 30, 31, 46, 47, 48, 49, 51, 56, 64, 71, 79]
        self.assertEqual(rows, wanted)

    def test_rows_that_are_not_in_the_profile(self):
        for heading in ("REF*TN*S17", "DTM*050*20240305", "PID*F", "MEA*A", "PWK*A", "DTM**A"):
            self.other_row(3, 32, with_segments(3, heading))
        # N2 behind the N1 of the heading, which takes seven bytes and its terminator.
        self.other_row(4, 40, with_segments(3, "N1*ST*A", "N2*B"))
        for at_a_level in ("PID*F", "TMD*A", "MEA*A", "FA1*A", "SPS*A"):
            self.other_row(6, 58, with_segments(6, at_a_level))
        for at_a_fault in ("QTY*01*1", "RC*1", "EFI*00", "LM*DF"):
            self.other_row(7, 64, with_segments(7, at_a_fault))
        for at_an_action in ("NTE*GEN*A", "DTM*050*20240305", "REF*TN*S17", "PWK*A", "LM*DF"):
            self.other_row(8, 72, with_segments(8, at_an_action))

    def each_refused(self, *cases):
        """A segment put at its number is refused so: reason, number, byte, element, segment."""
        for reason, number, byte, element_number, segment in cases:
            self.refused(reason, number, byte, element_number, read, with_segments(number, segment), how=REPLY)

    def test_what_comes_before_the_row(self):
        self.each_refused(
            (Reason.NO_ROW_FITS, 7, 64, 0, "BIN*1*A"),
            (Reason.VALUE_UNFIT, 7, 64, 1, "BIN*0*A"),
            (Reason.EMPTY_AT_THE_END, 3, 32, 1, "REF*"),
            (Reason.BYTE_UNFIT, 3, 32, 1, "REF*\t"),
            (Reason.NO_ROW_FITS, 3, 32, 0, "NCD*1"),
        )

    def test_no_parent_and_no_mark(self):
        for hl, element_number in (
            ("HL*2*1*RB", 2), ("HL*2*9*RB", 2), ("HL*1*1*F*0", 2), ("HL*2*1", 2), ("HL*2**RB*0", 4), ("HL*2**RB*1", 4),
            ("HL*2**RB*0*X", 4), ("HL*2**RB**X", 5),
        ):  # fmt: skip
            self.refused(Reason.TOO_MANY, 4, 41, element_number, read, with_segments(4, hl), how=REPLY)
        # In the first profile the same two are read: an item under the report level.
        item = with_segments(4, "HL*2*1*I*0", "SE*5*0001")
        self.assertEqual(len(read(item).levels), 2)
        self.refused(Reason.TOO_MANY, 4, 41, 2, read, item, how=REPLY)

    def test_codes(self):
        for hl in ("HL*2**F", "HL*2**PC", "HL*2**SN", "HL*2**X"):
            self.refused(Reason.LEVEL_NOT_PERMITTED, 4, 41, 3, read, with_segments(4, hl), how=REPLY)
        for hl in ("HL*2**RB", "HL*2*1*RB", "HL*2*1*RB*0"):
            self.refused(Reason.LEVEL_NOT_PERMITTED, 4, 41, 3, read, with_segments(4, hl))
        for code in ("RB", "I", "RP"):
            self.assertEqual(len(read(with_segments(3, f"HL*1**{code}", "SE*4*0001"), how=REPLY).levels), 1)

    def test_no_hl01_repeats(self):
        for hl in ("HL*1**RB", "HL*1**F"):
            self.refused(Reason.LEVEL_USED_BEFORE, 4, 41, 1, read, with_segments(4, hl), how=REPLY)
        self.refused(Reason.LEVEL_USED_BEFORE, 5, 50, 1, read, with_segments(5, "HL*2**I"), how=REPLY)

    def test_other_rules_stay(self):
        self.each_refused(
            (Reason.ELEMENT_MISSING, 4, 41, 1, "HL***RB"),
            (Reason.VALUE_UNFIT, 4, 41, 3, "HL*2**ABC"),
            (Reason.NOTE_BROKEN, 7, 64, 4, "NCA**R1**5"),
            (Reason.CLOSING_WRONG, 8, 72, 1, "SE*7*0001"),
            (Reason.CLOSING_WRONG, 8, 72, 2, "SE*8*0002"),
        )
        self.refused(Reason.NO_ROOM, 5, 50, 0, read, DATA, how=REPLY, level_room=2)

    def test_both_profiles_with_and_without_line_ends(self):
        reply, report = DATA.replace(b"~", b"~\r\n"), joined(W1).replace(b"~", b"~\r\n")
        # Two bytes behind each of the segments before the SE.
        self.assertEqual(read(reply, how=REPLY).bytes, 82 + 7 * 2)
        self.assertEqual(read(report).bytes, 78 + 6 * 2)
        self.refused(Reason.LEVEL_NOT_PERMITTED, 4, 47, 3, read, reply)
        self.refused(Reason.TOO_MANY, 3, 36, 4, read, report, how=REPLY)
        for how in (STRICT, STRICTLY):
            self.refused(Reason.BYTE_UNFIT, 2, 12, 0, read, reply, how=how)
            self.refused(Reason.BYTE_UNFIT, 2, 12, 0, read, report, how=how)
        self.refused(Reason.LEVEL_NOT_PERMITTED, 4, 41, 3, read, DATA, how=STRICT)
        self.refused(Reason.TOO_MANY, 3, 32, 4, read, joined(W1), how=STRICTLY)

    def test_rewriting(self):
        for how in (REPLY, STRICTLY):
            report, output = rewrite(DATA, NEW, how=how)
            self.assertEqual((report.segments, report.levels, report.bytes), (REPLY_RECORDS, REPLY_LEVELS, 82))
            wanted = b"ST|842|0001'BNR|11|NR7|20240301'HL|1||RP'HL|2||RB'HL|3||I'NCD|1'NCA||R1'SE|8|0001'"
            self.assertEqual(output, wanted)
            self.assertEqual(read(output, NEW, how), report)
            self.assertEqual(rewrite(output, Separators(), NEW, how), (report, DATA))
            self.refused(Reason.TOO_MANY, 3, 32, 4, rewrite, joined(W1), NEW, how=how)
            self.refused(Reason.BYTE_UNFIT, 2, 12, 0, rewrite, DATA.replace(b"~", b"~\n"), NEW, how=how)
            other = self.refused(Reason.ROW_NOT_IN_PROFILE, 8, 72, 0, rewrite, with_segments(8, "LM*DF"), NEW, how=how)
            self.assertEqual((other.segments, other.levels), (REPLY_RECORDS[:7], REPLY_LEVELS))
            short = self.refused(Reason.OUTPUT_TOO_SHORT, 0, 0, 0, rewrite, DATA, NEW, how=how, length=81)
            self.assertEqual((short.segments, short.levels), (REPLY_RECORDS, REPLY_LEVELS))
        for how in ({}, {"how": DEFAULT}, {"how": STRICT}):
            self.refused(Reason.LEVEL_NOT_PERMITTED, 4, 41, 3, rewrite, DATA, NEW, **how)

    def test_a_refusal_travels(self):
        refusal = self.refused(Reason.ROW_NOT_IN_PROFILE, 3, 32, 0, read, with_segments(3, "REF*TN*S17"), how=REPLY)
        self.assertEqual(str(refusal), "refused 24 segment 3 byte 32 element 0")
        self.assertEqual(pickle.loads(pickle.dumps(refusal)), refusal)


class Choices(unittest.TestCase):
    def test_names(self):
        self.assertEqual((How().profile, REPLY.profile), (Profile.NONCONFORMANCE, Profile.STORAGE_REPLY))
        self.assertEqual((STRICT.profile, REPLY.line_ends), (Profile.NONCONFORMANCE, LineEnds.SKIPPED))
        self.assertEqual(REPLY, How(LineEnds.SKIPPED, Profile.STORAGE_REPLY))
        self.assertEqual(len({DEFAULT, STRICT, REPLY, STRICTLY}), 4)

    def test_flags(self):
        self.assertEqual([flags_of("how", how) for how in (DEFAULT, STRICT, REPLY, STRICTLY)], [0, 1, 2, 3])

    def test_a_choice_is_fixed(self):
        with self.assertRaises(AttributeError):
            REPLY.profile = Profile.NONCONFORMANCE

    def test_pickle_and_copy(self):
        for other in (pickle.loads(pickle.dumps(REPLY)), copy.copy(REPLY), copy.deepcopy(REPLY)):
            self.assertEqual(other, REPLY)
            self.assertEqual(len(read(DATA, how=other).levels), 3)

    def test_numbers_of_reasons(self):
        self.assertEqual([int(reason) for reason in Reason], [*range(1, 20), 24])


if __name__ == "__main__":
    unittest.main()
