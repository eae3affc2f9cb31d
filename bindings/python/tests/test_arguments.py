"""Every argument that is refused at our edge, with the whole message."""

import unittest
from enum import IntEnum
from unittest.mock import Mock

from stormhlaw import STRICT, How, LineEnds, Profile, Segment, SegmentRecord, Separators, number, read, rewrite
from tests.reports import W1, joined

REPORT = joined(W1)
NO_BYTES = ((chr(298), "str"), ("*", "str"), (42, "int"), (None, "None"), (bytearray(b"*"), "bytearray"))
NEW = Separators(b"|", b"^", b"'")


class Unnamed(type):
    """The type of types that tell a false name."""

    @property
    def __name__(cls):
        raise RuntimeError("no name")


class Odd(metaclass=Unnamed):
    """An object that says that it is bytes."""

    __class__ = bytes


def released():
    view = memoryview(REPORT)
    view.release()
    return view


def tampered(value):
    """Separators that were written to behind their back."""
    separators = Separators()
    object.__setattr__(separators, "component", value)
    return separators


def written_to(value, field="line_ends"):
    """A choice that was written to behind its back."""
    how = How()
    object.__setattr__(how, field, value)
    return how


def overwritten(**fields):
    """A segment that was written to behind its back."""
    segment = Segment(b"HL*1")
    for name, value in fields.items():
        object.__setattr__(segment, name, value)
    return segment


class Arguments(unittest.TestCase):
    def refused(self, kind, message, call, *arguments, **named):
        with self.subTest(message), self.assertRaises(kind) as caught:
            call(*arguments, **named)
        self.assertEqual(str(caught.exception), message)
        self.assertIs(type(caught.exception), kind)

    def test_data(self):
        calls = (
            ("data", read, ()),
            ("data", rewrite, (NEW,)),
            ("data", Segment, ()),
            ("data", SegmentRecord(0, 2, 1, 0).segment, ()),
            ("data", read(REPORT).outline, ()),
            ("data", lambda data: overwritten(data=data).element(1), ()),
            ("text", number, ()),
        )
        kinds = (
            ("ST*842", "str"), (None, "None"), (7, "int"), (True, "bool"), (1.5, "float"), ([83, 84], "list"),
            (Separators(), "Separators"), (bytes, "type"), (Mock(spec=bytes), "Mock"), (Odd(), "Odd"),
        )  # fmt: skip
        for name, call, others in calls:
            for value, kind in kinds:
                message = f"{name}: bytes, bytearray or memoryview wanted, not {kind}"
                self.refused(TypeError, message, call, value, *others)
            message = f"{name}: bytes, bytearray or memoryview wanted, not a released memoryview"
            self.refused(ValueError, message, call, released(), *others)

    def test_separators_when_they_are_made(self):
        for field in ("element", "component", "terminator"):
            for value, kind in NO_BYTES:
                self.refused(TypeError, f"separators.{field}: bytes wanted, not {kind}", Separators, **{field: value})
            for value in (b"", b"**", b"\x00" * 70):
                message = f"separators.{field}: one byte wanted, not {len(value)} bytes"
                self.refused(ValueError, message, Separators, **{field: value})

    def test_separators_when_they_are_used(self):
        mock = Mock(spec=Separators)
        three = (b"*", b":", b"~")
        for value, kind in ((None, "None"), ("*:~", "str"), (b"*:~", "bytes"), (three, "tuple"), (mock, "Mock")):
            message = f"separators: Separators wanted, not {kind}"
            self.refused(TypeError, message, read, REPORT, value)
            self.refused(TypeError, message, rewrite, REPORT, NEW, value)
            self.refused(TypeError, message, Segment, b"HL*1", value)
            self.refused(TypeError, message, SegmentRecord(0, 2, 1, 0).segment, REPORT, value)
            self.refused(TypeError, message, read(REPORT).outline, REPORT, value)
            self.refused(TypeError, message, overwritten(separators=value).component, 1, 1)
            self.refused(TypeError, f"new: Separators wanted, not {kind}", rewrite, REPORT, value)
        message = "separators.component: one byte wanted, not 2 bytes"
        self.refused(ValueError, message, rewrite, REPORT, NEW, tampered(b"::"))
        self.refused(ValueError, message, Segment, b"HL*1", tampered(b"::"))
        for value, kind in NO_BYTES:
            message = f"component: bytes wanted, not {kind}"
            self.refused(TypeError, f"separators.{message}", read, REPORT, tampered(value))
            self.refused(TypeError, f"separators.{message}", Segment, b"HL*1", tampered(value))
            self.refused(TypeError, f"separators.{message}", overwritten(separators=tampered(value)).span, 1)
            self.refused(TypeError, f"new.{message}", rewrite, REPORT, tampered(value))

    def test_how(self):
        kinds = (
            (None, "None"), (0, "int"), (1, "int"), (7, "int"), (True, "bool"), ("strict", "str"),
            (LineEnds.STRICT, "LineEnds"), (Profile.STORAGE_REPLY, "Profile"), (Separators(), "Separators"),
            (How, "type"), (Mock(spec=How), "Mock"),
        )  # fmt: skip
        for value, kind in kinds:
            message = f"how: How wanted, not {kind}"
            self.refused(TypeError, message, read, REPORT, Separators(), value)
            self.refused(TypeError, message, read, REPORT, how=value)
            self.refused(TypeError, message, rewrite, REPORT, NEW, Separators(), value)
            self.refused(TypeError, message, rewrite, REPORT, NEW, how=value)

    def test_line_ends(self):
        kinds = (
            (None, "None"), (0, "int"), (1, "int"), (True, "bool"), ("strict", "str"), (STRICT, "How"),
            (Profile.STORAGE_REPLY, "Profile"), (Mock(spec=LineEnds.STRICT), "Mock"),
        )  # fmt: skip
        for value, kind in kinds:
            message = f"how.line_ends: LineEnds wanted, not {kind}"
            self.refused(TypeError, message, How, value)
            self.refused(TypeError, message, read, REPORT, how=written_to(value))
            self.refused(TypeError, message, rewrite, REPORT, NEW, how=written_to(value))

    def test_profile(self):
        kinds = (
            (None, "None"), (0, "int"), (2, "int"), (True, "bool"), ("storage reply", "str"), (How(), "How"),
            (LineEnds.STRICT, "LineEnds"), (Mock(spec=Profile.STORAGE_REPLY), "Mock"),
        )  # fmt: skip
        for value, kind in kinds:
            message = f"how.profile: Profile wanted, not {kind}"
            self.refused(TypeError, message, How, LineEnds.SKIPPED, value)
            self.refused(TypeError, message, How, profile=value)
            self.refused(TypeError, message, read, REPORT, how=written_to(value, "profile"))
            self.refused(TypeError, message, rewrite, REPORT, NEW, how=written_to(value, "profile"))

    def test_number_and_part(self):
        segment = Segment(b"HL*1")
        calls = (
            ("number", segment.element),
            ("number", segment.span),
            ("number", lambda value: segment.component(value, 1)),
            ("part", lambda value: segment.component(1, value)),
            ("part", lambda value: segment.span(1, value)),
        )
        for name, call in calls:
            for value, kind in ((None, "None"), (True, "bool"), (1.0, "float"), ("1", "str"), (b"1", "bytes")):
                self.refused(TypeError, f"{name}: a number wanted, not {kind}", call, value)
            for value in (-1, -(2**63), 2**64, 2**64 + 1):
                message = f"{name}: a number from 0 to 2**64 - 1 wanted, not {value}"
                self.refused(ValueError, message, call, value)
            for value in (1 << 20_000, -1 << 20_000):
                message = f"{name}: a number from 0 to 2**64 - 1 wanted, not one of 20001 bits"
                self.refused(ValueError, message, call, value)
            self.assertIn(call(2**64 - 1), (b"", slice(4, 4)))

    def test_records(self):
        for field, record in (("start", SegmentRecord("0", 2, 1, 0)), ("length", SegmentRecord(0, "0", 1, 0))):
            self.refused(TypeError, f"{field}: a number wanted, not str", record.segment, REPORT)
        for value in (-1, 2**31 + 1):
            wanted = f"a number from 0 to 2**31 wanted, not {value}"
            self.refused(ValueError, f"start: {wanted}", SegmentRecord(value, 2, 1, 0).segment, REPORT)
            self.refused(ValueError, f"length: {wanted}", SegmentRecord(0, value, 1, 0).segment, REPORT)
        for data, size in ((b"", 0), (bytearray(5), 5), (memoryview(bytes(6)), 6), (memoryview(bytes(6)).cast("H"), 6)):
            message = f"data: 7 bytes or more wanted, not {size}"
            self.refused(ValueError, message, SegmentRecord(4, 3, 1, 0).segment, data)

    def test_rooms_and_length(self):
        names = {read: ("segment_room", "level_room"), rewrite: ("segment_room", "level_room", "length")}
        for call, others in ((read, ()), (rewrite, (NEW,))):
            for name in names[call]:
                for value, kind in ((True, "bool"), (False, "bool"), (7.0, "float"), ("7", "str"), (b"", "bytes")):
                    message = f"{name}: a number or None wanted, not {kind}"
                    self.refused(TypeError, message, call, REPORT, *others, **{name: value})
                for value in (-1, 2**31 + 1, 2**64 + 7, -(2**64)):
                    message = f"{name}: a number from 0 to 2**31 wanted, not {value}"
                    self.refused(ValueError, message, call, REPORT, *others, **{name: value})
                call(REPORT, *others, **{name: 2**31})

    def test_numbers_of_other_kinds_of_int(self):
        class Number(IntEnum):
            SEVEN = 7

        class Lies(int):
            def __index__(self):
                return 1 << 80

            __int__ = __index__

            def __lt__(self, other):
                return False

        self.assertEqual(read(REPORT, segment_room=Number.SEVEN).bytes, 78)
        self.assertEqual(read(REPORT, segment_room=Lies(7), level_room=Lies(2)).bytes, 78)
        segment = SegmentRecord(Lies(0), Lies(4), 1, 0).segment(b"HL*1~")
        self.assertEqual((segment.element(Lies(1)), segment.component(Lies(1), Number.SEVEN)), (b"1", b""))
        message = "a number from 0 to 2**64 - 1 wanted, not -1"
        self.refused(ValueError, f"number: {message}", segment.element, Lies(-1))
        self.refused(ValueError, f"part: {message}", segment.component, 1, Lies(-1))


if __name__ == "__main__":
    unittest.main()
