"""What a refusal leaves: the records that stand, no more and no fewer. What room there is."""

import pickle
import unittest

from stormhlaw import LONGEST, Reason, Refused, Separators, read, rewrite
from tests.reports import LEVELS, SEGMENTS, W1, joined, with_items, with_segment

REPORT = joined(W1)
NEW = Separators(b"|", b"^", b"'")


class Refusals(unittest.TestCase):
    def refusal(self, call, *arguments, **named):
        with self.assertRaises(Refused) as caught:
            call(*arguments, **named)
        return caught.exception.refusal

    def left(self, refusal, reason, segments, levels):
        """The refusal has that reason and leaves so many of W1's records."""
        self.assertIs(refusal.reason, reason)
        self.assertEqual((refusal.segments, refusal.levels), (SEGMENTS[:segments], LEVELS[:levels]))

    def test_1_and_2_leave_nothing(self):
        self.left(self.refusal(read, REPORT, Separators(element=b"A")), Reason.SEPARATORS_UNFIT, 0, 0)
        self.left(self.refusal(rewrite, REPORT, Separators(element=b"A")), Reason.SEPARATORS_UNFIT, 0, 0)
        self.left(self.refusal(read, REPORT.ljust(LONGEST + 1)), Reason.INPUT_TOO_LONG, 0, 0)
        self.left(self.refusal(rewrite, REPORT.ljust(LONGEST + 1), NEW), Reason.INPUT_TOO_LONG, 0, 0)

    def test_3_to_17_leave_what_stands_before(self):
        for call in (lambda data, **rooms: read(data, **rooms), lambda data, **rooms: rewrite(data, NEW, **rooms)):
            for length, segments, levels in ((0, 0, 0), (12, 1, 0), (42, 2, 0), (43, 3, 1), (54, 4, 2), (77, 6, 2)):
                self.left(self.refusal(call, REPORT[:length]), Reason.NO_TERMINATOR, segments, levels)
            for number, levels in enumerate((0, 0, 0, 1, 2, 2, 2), 1):
                data = with_segment(number, "XYZ*1")
                self.left(self.refusal(call, data), Reason.TAG_UNKNOWN, number - 1, levels)
            self.left(self.refusal(call, with_segment(7, "SE*6*0001")), Reason.CLOSING_WRONG, 6, 2)

    def test_17_leaves_what_there_is_room_for(self):
        for call in (lambda **rooms: read(REPORT, **rooms), lambda **rooms: rewrite(REPORT, NEW, **rooms)):
            for room, levels in enumerate((0, 0, 0, 1, 2, 2, 2)):
                self.left(self.refusal(call, segment_room=room), Reason.NO_ROOM, room, levels)
            self.left(self.refusal(call, level_room=0), Reason.NO_ROOM, 2, 0)
            self.left(self.refusal(call, level_room=1), Reason.NO_ROOM, 3, 1)
            call(segment_room=7, level_room=2)

    def test_18_and_19_leave_all(self):
        holds_bar = REPORT.replace(b"NR7", b"N|7")
        self.left(self.refusal(rewrite, holds_bar, NEW), Reason.DATA_EQUALS_SEPARATOR, 7, 2)
        self.left(self.refusal(rewrite, holds_bar + REPORT, NEW), Reason.DATA_EQUALS_SEPARATOR, 7, 2)
        exact = self.refusal(rewrite, holds_bar, NEW, segment_room=7, level_room=2)
        self.left(exact, Reason.DATA_EQUALS_SEPARATOR, 7, 2)
        for length in (0, 1, 77):
            self.left(self.refusal(rewrite, REPORT, NEW, length=length), Reason.OUTPUT_TOO_SHORT, 7, 2)
            self.left(self.refusal(rewrite, 9 * REPORT, NEW, length=length), Reason.OUTPUT_TOO_SHORT, 7, 2)
        self.assertEqual(len(rewrite(REPORT, NEW, length=78)[1]), 78)

    def test_the_same_place_each_time(self):
        """Old numbers in memory that is lent again count for nothing."""
        for _ in range(50):
            read(with_items(40))
            self.left(self.refusal(rewrite, 40 * REPORT, NEW, length=77), Reason.OUTPUT_TOO_SHORT, 7, 2)
            self.left(self.refusal(read, REPORT[:54].ljust(3000)), Reason.NO_TERMINATOR, 4, 2)

    def test_it_travels(self):
        for call in (lambda: read(REPORT[:54]), lambda: rewrite(REPORT, NEW, length=77)):
            with self.assertRaises(Refused) as caught:
                call()
            again = pickle.loads(pickle.dumps(caught.exception))
            self.assertEqual(again.refusal, caught.exception.refusal)
            self.assertEqual(str(again), str(caught.exception))


class Rooms(unittest.TestCase):
    def test_4096_levels_without_a_room(self):
        self.assertEqual(len(read(with_items(4095)).levels), 4096)
        self.assertEqual(len(rewrite(with_items(4095), NEW)[0].levels), 4096)
        for call in (lambda data: read(data), lambda data: rewrite(data, NEW)):
            with self.assertRaises(Refused) as caught:
                call(with_items(4096))
            refusal = caught.exception.refusal
            # The HL of the last item: ST, BNR, the report level, and two segments for each item before.
            self.assertEqual((refusal.reason, refusal.segment), (Reason.NO_ROOM, 3 + 2 * 4095 + 1))
            self.assertEqual(len(refusal.levels), 4096)

    def test_more_levels_for_who_says_so(self):
        data = with_items(4096)
        for room in (4097, LONGEST, 2**31):
            self.assertEqual(len(read(data, level_room=room).levels), 4097)
            self.assertEqual(len(rewrite(data, NEW, level_room=room)[0].levels), 4097)

    def test_segments_without_a_room(self):
        short = W1[:2] + ["HL*R**RP*1", "HL*1*R*I*0", "NCD*1"] + 209_690 * ["RC*4"]
        data = joined(short + [f"SE*{len(short) + 1}*0001"])
        self.assertEqual(len(read(data).segments), 209_696)
        self.assertEqual(len(rewrite(data, NEW)[0].segments), 209_696)


if __name__ == "__main__":
    unittest.main()
