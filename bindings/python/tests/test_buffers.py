"""Every kind of bytes that is taken."""

import array
import ctypes
import mmap
import unittest

from stormhlaw import LONGEST, Reason, Refused, Segment, SegmentRecord, Separators, number, read, rewrite
from stormhlaw._lending import SMALL, lend
from tests.reports import LEVELS, SEGMENTS, W1, joined, with_items

REPORT = joined(W1)
NEW = Separators(b"|", b"^", b"'")
REWRITTEN = REPORT.replace(b"*", b"|").replace(b"~", b"'")
# As many bytes as views of every format need.
PADDED = REPORT.ljust(96, b"~")


class LyingBytes(bytes):
    """Bytes that tell a false type, a false length and false bytes."""

    __class__ = int

    def __add__(self, other):
        return 1

    def __len__(self):
        return 1 << 40

    def __getitem__(self, index):
        return b"?"


class LyingArray(bytearray):
    """An array that tells a false length and false bytes."""

    def __len__(self):
        return 1 << 40

    def __getitem__(self, index):
        return b"?"


class Structure(ctypes.Structure):
    _fields_ = [("a", ctypes.c_uint32), ("b", ctypes.c_uint64)]


def mapped(data):
    area = mmap.mmap(-1, len(data))
    area[:] = data
    return memoryview(area)


def spread(data):
    """The bytes with a byte between each two, seen without those."""
    return memoryview(bytes(byte for pair in zip(data, bytes(len(data))) for byte in pair))[::2]


KINDS = {
    "bytes": bytes,
    "subclass of bytes": LyingBytes,
    "bytearray": bytearray,
    "subclass of bytearray": LyingArray,
    "view of bytes": memoryview,
    "view of a part": lambda data: memoryview(b"before" + data + b"after")[6:-5],
    "view of bytearray": lambda data: memoryview(bytearray(data)),
    "read-only view of bytearray": lambda data: memoryview(bytearray(data)).toreadonly(),
    "view of a mapping": mapped,
    "view with gaps": spread,
    "view backwards": lambda data: memoryview(data[::-1])[::-1],
    "view of a view": lambda data: memoryview(memoryview(data)),
    "two dimensions": lambda data: memoryview(data).cast("B", (len(data) // 2, 2)),
    "two dimensions of numbers": lambda data: memoryview(bytearray(data)).cast("H", (len(data) // 4, 2)),
    "view of a structure": lambda data: memoryview((Structure * (len(data) // 16)).from_buffer_copy(data)),
    "view of ctypes numbers": lambda data: memoryview((ctypes.c_uint32 * (len(data) // 4)).from_buffer_copy(data)),
    **{f"view of format {form}": lambda data, form=form: memoryview(data).cast(form) for form in "cbB?hHiIlLqQnNfdP"},
    **{f"array of {form}": lambda data, form=form: memoryview(array.array(form, data)) for form in "bBhHiIlLqQfd"},
}


class Kinds(unittest.TestCase):
    def test_read_and_rewrite(self):
        for kind, make in KINDS.items():
            with self.subTest(kind):
                report = read(make(PADDED))
                self.assertEqual((report.segments, report.levels, report.bytes), (SEGMENTS, LEVELS, 78))
                self.assertEqual(rewrite(make(PADDED), NEW), (report, REWRITTEN))

    def test_lookup(self):
        for kind, make in KINDS.items():
            with self.subTest(kind):
                self.assertEqual(Segment(make(PADDED)).element(2), b"0001~BNR")
                self.assertEqual(Segment(make(PADDED), Separators(b"!", b"~")).component(0, 3), b"HL*1**RP*1")
                self.assertEqual(Segment(make(PADDED), Separators(b"!", b"!")).component(0, 1), PADDED)
                segment = Segment(make(PADDED))
                for found in (segment.data, segment.tag, segment.element(2), segment.component(2, 1)):
                    self.assertIs(type(found), bytes)

    def test_empty(self):
        view = memoryview(b"ab")
        for empty in (b"", bytearray(), memoryview(b""), view[1:1], view[::2][:0], memoryview(array.array("Q"))):
            with self.assertRaises(Refused) as caught:
                read(empty)
            self.assertEqual(str(caught.exception), "refused 3 segment 1 byte 0 element 0")
            segment = Segment(empty)
            self.assertEqual((segment.data, segment.tag, segment.component(1, 1)), (b"", b"", b""))
            self.assertEqual(SegmentRecord(0, 0, 1, 0).segment(empty), segment)
            self.assertIsNone(number(empty))


class Lending(unittest.TestCase):
    LARGE = with_items(5000)

    def test_bytes_are_lent_as_they_are(self):
        start, length, owner = lend("data", self.LARGE)
        self.assertIs(start, self.LARGE)
        self.assertIs(owner, self.LARGE)
        self.assertEqual(length, len(self.LARGE))

    def test_a_view_of_bytes_is_lent_as_it_is(self):
        held = bytes(7) + self.LARGE
        first, length, owner = lend("data", memoryview(held))
        self.assertIs(owner, held)
        part = memoryview(held)[7:].cast("B", (1, len(self.LARGE)))
        self.assertEqual(lend("data", part), (first + 7, length - 7, held))
        self.assertEqual(ctypes.string_at(first, length), held)

    def test_what_can_change_is_copied(self):
        for make in (bytearray, LyingArray, mapped, KINDS["view of bytearray"], KINDS["read-only view of bytearray"]):
            start, length, _ = lend("data", make(self.LARGE))
            self.assertIs(type(start), bytes)
            self.assertEqual((start, length), (self.LARGE, len(self.LARGE)))

    def test_what_others_declare_changes_nothing(self):
        function = ctypes.pythonapi.PyBytes_FromStringAndSize
        self.addCleanup(setattr, function, "argtypes", function.argtypes)
        function.argtypes = [ctypes.c_double]
        self.assertEqual(read(REPORT).bytes, 78)

    def test_large_views(self):
        self.assertGreater(len(self.LARGE), 2 * SMALL)
        report = read(self.LARGE, level_room=5001)
        for make in (memoryview, KINDS["view of a part"], bytearray, spread, mapped):
            self.assertEqual(read(make(self.LARGE), level_room=5001), report)
            self.assertEqual(rewrite(make(self.LARGE), Separators(), level_room=5001), (report, self.LARGE))
            segment = Segment(make(self.LARGE))
            self.assertEqual(segment.data, self.LARGE)
            self.assertEqual((segment.element(2), segment.element(1 << 40)), (b"0001~BNR", b""))
            last = report.segments[-1]
            self.assertEqual(last.segment(make(self.LARGE)).tag, b"SE")

    def test_nothing_is_held_after_a_call(self):
        data = bytearray(REPORT)
        read(data)
        segments = Segment(data), SegmentRecord(0, 11, 1, 0).segment(data)
        data += b"more"
        view = memoryview(self.LARGE)
        read(view, level_room=5001)
        segments += Segment(view), SegmentRecord(0, 11, 1, 0).segment(view)
        view.release()
        self.assertEqual([segment.element(1) for segment in segments], 4 * [b"842"])

    def test_nothing_is_held_after_an_error(self):
        area = mmap.mmap(-1, 2**31 + 1, prot=mmap.PROT_READ)
        try:
            with memoryview(area) as view:
                Segment(view)
        except ValueError:
            # The frames of the call still live.
            area.close()
        self.assertTrue(area.closed)

    def test_too_long(self):
        for make in (bytes, bytearray, memoryview, mapped, spread):
            with self.assertRaises(Refused) as caught:
                read(make(REPORT.ljust(LONGEST + 1, b"~")))
            self.assertIs(caught.exception.refusal.reason, Reason.INPUT_TOO_LONG)
            self.assertEqual(read(make(REPORT.ljust(LONGEST, b"~"))).bytes, 78)

    def test_too_long_to_copy(self):
        view = memoryview(mmap.mmap(-1, 2**31 + 1, prot=mmap.PROT_READ))
        for call, name in ((Segment, "data"), (number, "text")):
            with self.assertRaises(ValueError) as caught:
                call(view)
            wanted = f"{name}: at most 2**31 bytes wanted where they are copied, not 2147483649"
            self.assertEqual(str(caught.exception), wanted)
        # Of a long view no more than the segment is copied.
        self.assertEqual(SegmentRecord(2**31 - 2, 2, 1, 0).segment(view).data, bytes(2))
        for call in (read, lambda data: rewrite(data, NEW)):
            with self.assertRaises(Refused) as caught:
                call(view)
            self.assertIs(caught.exception.refusal.reason, Reason.INPUT_TOO_LONG)


if __name__ == "__main__":
    unittest.main()
