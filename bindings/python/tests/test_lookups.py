"""The lookup: elements of a segment, component 0 being the whole element, and their components. Every number is
answered."""

import copy
import itertools
import pickle
import unittest

from stormhlaw import Segment, SegmentRecord, Separators, read
from tests.fuzzing import expected_span
from tests.reports import ATTACHED, SEGMENTS, W1, WITH_BIN, joined
from tests.test_buffers import KINDS

REPORT = joined(W1)
STANDARD = (b"*", b":", b"~")
NEW = Separators(b"|", b"^", b"'")
# Numbers past every element and component, as far as there are any.
FAR = (100, 1 << 40, 2**64 - 1)


def spans(segment, number, *parts):
    """Where these components of an element stand."""
    found = [segment.span(number, part) for part in parts]
    return [(span.start, span.stop) for span in found]


class Lookups(unittest.TestCase):
    def cut(self, data, *three):
        """The segment is cut as split() cuts it, in every way that it can be asked."""
        segment = Segment(data, Separators(*three))
        numbers = [*range(len(data) + 2), *FAR]
        for number, part in itertools.product(numbers, numbers):
            wanted = expected_span(data, three, number, part)
            self.assertEqual(segment.span(number, part), wanted, (segment, number, part))
            self.assertEqual(segment.component(number, part), data[wanted])

    def test_component_0_is_the_whole_element(self):
        hl = Segment(b"HL*2**I")
        self.assertEqual([hl.element(number) for number in range(6)], [b"HL", b"2", b"", b"I", b"", b""])
        self.assertEqual([hl.component(number, 0) for number in range(4)], [b"HL", b"2", b"", b"I"])
        self.assertEqual((hl.span(1), hl.span(2), hl.span(4)), (slice(3, 4), slice(5, 5), slice(7, 7)))
        nca = Segment(b"NCA**R1**5*EA:2:10")
        self.assertEqual((nca.tag, nca.element(5), nca.component(5, 0)), (b"NCA", b"EA:2:10", b"EA:2:10"))
        self.assertEqual(nca.span(5), nca.span(5, 0))

    def test_components(self):
        nca = Segment(b"NCA*EA:25::1*X")
        found = [nca.component(1, part) for part in range(6)]
        self.assertEqual(found, [b"EA:25::1", b"EA", b"25", b"", b"1", b""])
        self.assertEqual(spans(nca, 1, 0, 1, 2, 3, 4), [(4, 12), (4, 6), (7, 9), (10, 10), (11, 12)])
        self.assertEqual(spans(nca, 2, 0, 1, 2), [(13, 14), (13, 14), (14, 14)])
        self.assertEqual(spans(Segment(b"A*:*B"), 1, 0, 1, 2, 3), [(2, 3), (2, 2), (3, 3), (3, 3)])
        self.assertEqual(spans(Segment(b"HL*2**I"), 2, 0, 1, 2), [(5, 5), (5, 5), (5, 5)])

    def test_components_of_the_tag(self):
        odd = Segment(b"A:BC*1")
        self.assertEqual((odd.tag, odd.component(0, 1), odd.component(0, 2)), (b"A:BC", b"A", b"BC"))
        self.assertEqual(spans(odd, 0, 0, 1, 2, 3), [(0, 4), (0, 1), (2, 4), (4, 4)])

    def test_past_the_last(self):
        nca = Segment(b"NCA*EA:25::1*X")
        for part in (5, 6, *FAR):
            self.assertEqual(spans(nca, 0, part), [(3, 3)])
            # At the element's end.
            self.assertEqual(spans(nca, 1, part), [(12, 12)])
        for number, part in itertools.product((3, 4, *FAR), (0, 1, 2, *FAR)):
            # At the segment's end.
            self.assertEqual(spans(nca, number, part), [(14, 14)])
            self.assertEqual(nca.component(number, part), b"")

    def test_an_empty_segment(self):
        for number, part in itertools.product((0, 1, *FAR), (0, 1, 2, *FAR)):
            self.assertEqual(spans(Segment(b""), number, part), [(0, 0)])
            self.assertEqual(Segment(b"").component(number, part), b"")

    def test_every_short_segment_of_these_bytes(self):
        for length in range(5):
            for letters in itertools.product(b"*:A", repeat=length):
                self.cut(bytes(letters), *STANDARD)

    def test_other_separators(self):
        self.assertEqual(Segment(b"ST|842", NEW).element(1), b"842")
        self.assertEqual(spans(Segment(b"A|B^C|*:", NEW), 1, 0, 1, 2, 3), [(2, 5), (2, 3), (4, 5), (5, 5)])
        self.assertEqual(spans(Segment(b"A*B*C", Separators(b"*", b"*")), 1, 0, 1, 2), [(2, 3), (2, 3), (3, 3)])
        for byte in range(256):
            one = bytes([byte])
            for element, component in ((one, b":"), (b"*", one), (one, one), (b"A", one)):
                self.cut(b"A*:\x00A\xff", element, component, b"~")

    def test_numbers_that_are_none(self):
        segment = Segment(b"HL*2")
        for number in (-1, 1 << 64):
            self.assertRaises(ValueError, segment.element, number)
            self.assertRaises(ValueError, segment.component, number, 1)
            self.assertRaises(ValueError, segment.component, 1, number)
            self.assertRaises(ValueError, segment.span, 1, number)


class Bins(unittest.TestCase):
    def test_parts_of_a_whole_bin_are_one_component_each(self):
        data = b"BIN*12*:BIN*8*:~\x00\xff:"
        for byte in range(256):
            segment = Segment(data, Separators(component=bytes([byte])))
            self.assertEqual(spans(segment, 0, 0, 1, 2, *FAR), [(0, 3), (0, 3)] + 4 * [(3, 3)])
            self.assertEqual(spans(segment, 1, 0, 1, 2, *FAR), [(4, 6), (4, 6)] + 4 * [(6, 6)])
            self.assertEqual(spans(segment, 2, 0, 1, 2, *FAR), [(7, 19), (7, 19)] + 4 * [(19, 19)])
            self.assertEqual(spans(segment, 3, 0, 1, 2, *FAR), 6 * [(19, 19)])
        segment = Segment(data)
        self.assertEqual([segment.component(0, part) for part in range(3)], [b"BIN", b"BIN", b""])
        self.assertEqual([segment.component(1, part) for part in range(3)], [b"12", b"12", b""])
        self.assertEqual([segment.component(2, part) for part in range(3)], [data[7:], data[7:], b""])
        self.assertEqual(spans(Segment(b"BIN|2|^|", NEW), 2, 0, 1, 2), [(6, 8), (6, 8), (8, 8)])

    def test_any_other_bin_is_cut(self):
        short = Segment(b"BIN*8*" + ATTACHED[:7])
        self.assertEqual(spans(short, 2, 0, 1, 2), [(6, 7), (6, 7), (7, 7)])
        self.assertEqual(spans(short, 3, 0, 1, 2, 3), [(8, 13), (8, 8), (9, 13), (13, 13)])
        self.assertEqual(spans(Segment(b"BIN*2*:", Separators(component=b"I")), 0, 1, 2), [(0, 1), (2, 3)])
        for count, length in itertools.product(range(14), range(13)):
            data = b"BIN*%d*" % count + b":*~:BIN*1*:*"[:length]
            whole = count == length > 0
            components = [Segment(data).component(2, part) for part in (1, 2)]
            plain = data.split(b"*")[2].split(b":") + [b""]
            self.assertEqual(components, [data[-length:], b""] if whole else plain[:2])


class Segments(unittest.TestCase):
    def test_out_of_its_record(self):
        texts = [record.segment(REPORT) for record in read(REPORT)]
        self.assertEqual(texts, [Segment(text.encode()) for text in W1])
        other = REPORT.replace(b"*", b"|").replace(b"~", b"'")
        texts = [record.segment(other, NEW) for record in read(other, NEW)]
        self.assertEqual(texts, [Segment(text.replace("*", "|").encode(), NEW) for text in W1])
        self.assertEqual(read(WITH_BIN).segments[6].segment(WITH_BIN).element(2), ATTACHED)

    def test_out_of_every_kind_of_bytes(self):
        padded = REPORT.ljust(96, b"~")
        for kind, make in KINDS.items():
            with self.subTest(kind):
                found = SEGMENTS[3].segment(make(padded))
                self.assertEqual(found, Segment(b"HL*2*1*I*0"))
                self.assertIs(type(found.data), bytes)

    def test_a_record_of_other_data(self):
        for make in (bytes, bytearray, memoryview):
            self.assertEqual(SEGMENTS[-1].segment(make(REPORT[:77])).tag, b"SE")
            with self.assertRaises(ValueError) as caught:
                SEGMENTS[-1].segment(make(REPORT[:76]))
            self.assertEqual(str(caught.exception), "data: 77 bytes or more wanted, not 76")
        self.assertEqual(SegmentRecord(0, 0, 1, 0).segment(b"").data, b"")

    def test_it_stays_what_it_is(self):
        data = bytearray(b"HL*2*1*I*0")
        segment = Segment(data)
        data[3:4] = b"345"
        self.assertEqual((segment.data, segment.element(1)), (b"HL*2*1*I*0", b"2"))
        self.assertIs(type(segment.data), bytes)
        for field in ("data", "separators"):
            with self.assertRaises(AttributeError):
                setattr(segment, field, b"HL*3")

    def test_bytes_are_not_copied(self):
        data = b"HL*2*1*I*0"
        self.assertIs(Segment(data).data, data)

    def test_equality(self):
        self.assertEqual(Segment(b"HL*1"), Segment(bytearray(b"HL*1"), Separators()))
        self.assertNotEqual(Segment(b"HL*1"), Segment(b"HL*2"))
        self.assertNotEqual(Segment(b"HL*1"), Segment(b"HL*1", NEW))
        self.assertEqual(len({Segment(b"HL*1"), Segment(memoryview(b"HL*1")), Segment(b"HL*2")}), 2)

    def test_pickle_and_copy(self):
        segment = Segment(b"NCA|EA^25", NEW)
        for other in (pickle.loads(pickle.dumps(segment)), copy.copy(segment), copy.deepcopy(segment)):
            self.assertEqual(other, segment)
            self.assertEqual(other.component(1, 2), b"25")


if __name__ == "__main__":
    unittest.main()
