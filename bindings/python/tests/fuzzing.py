"""Calls of every public function with arguments of every kind. Run: python3 -m tests.fuzzing SEED COUNT.

Each argument is known to fit or not. A call whose arguments all fit must answer as the library does when it is called
without the package, with tables as large as was asked for; a lookup, as Python's split() does, and in a BIN as its
count says; a segment out of its record, as a slice; a number, as a regular expression says; a walk, as a plain one in
Python; an outline, as that walk and the segments of the report say. Any other call must raise a TypeError or a
ValueError that names an argument that does not fit.
"""

import array
import ctypes
import mmap
import random
import re
import struct
import sys
from decimal import Decimal
from enum import IntEnum
from fractions import Fraction
from typing import Any, NamedTuple
from unittest.mock import Mock

import stormhlaw
from stormhlaw import (
    How,
    Levels,
    LineEnds,
    Profile,
    Refused,
    Segment,
    SegmentRecord,
    Separators,
    WalkRefused,
    number,
    read,
    rewrite,
    walk,
)
from stormhlaw._library import library
from tests.reports import ATTACHED, REPLY_SEGMENTS, STRAY, W1, WITH_BIN, joined, with_items, with_segment

UNFIT = object()


class Given(NamedTuple):
    """An argument, and what it stands for in plain bytes and numbers, or UNFIT."""

    value: Any
    plain: Any


class Liar:
    """An object that claims to be bytes, of some length, and a number."""

    __class__ = bytes

    def __len__(self):
        return 1 << 62

    def __index__(self):
        return 1

    def __bytes__(self):
        return b"ST"


class LyingBytes(bytes):
    __class__ = int

    def __add__(self, other):
        return 1

    def __len__(self):
        return 1 << 62

    def __getitem__(self, index):
        raise KeyError(index)


class LyingArray(bytearray):
    def __len__(self):
        return 1 << 62


class LyingInt(int):
    def __index__(self):
        return -(1 << 90)

    def __repr__(self):
        raise KeyError("no repr")

    __str__, __int__ = __repr__, __index__


class LyingSeparators(Separators):
    def numbers(self):
        return (1 << 70, None, "~")


class LyingHow(How):
    __class__ = int


class Seven(IntEnum):
    SEVEN = 7


class Nameless(type):
    @property
    def __name__(cls):
        raise KeyError("no name")


class Odd(metaclass=Nameless):
    pass


OBJECTS = (
    None, True, False, 1.5, float("nan"), float("inf"), 2j, Decimal(7), Fraction(7), "", "ST*842*0001~", "*", chr(298),
    "\udcff", [], [42], (), (b"*", b":", b"~"), {}, {b"*"}, range(7), object(), bytes, Separators, How, LineEnds,
    Profile, Liar(), Odd(), Mock(spec=bytes), Mock(spec=Separators), Mock(spec=How), Mock(spec=int),
    array.array("B", b"ST*842"), (ctypes.c_char * 6)(), mmap.mmap(-1, 16), ctypes.c_void_p(8), lambda: b"",
    NotImplemented,
)  # fmt: skip

NUMBERS = (0, 1, 2, 3, 5, 6, 7, 8, 16, 77, 78, 79, 255, 4096, 2**16, 2**20, 2**31 - 1, 2**31)
LARGE = (2**31 + 1, 2**32, 2**40, 2**62, 2**63 - 1, 2**63, 2**64 - 1)
HUGE = (-1, -2, -(2**31), -(2**63), 2**64, 2**64 + 7, 2**65, 10**30, 10**5000, -(10**5000))

REPORTS = [
    joined(W1), joined(W1) + b"\r\nGE*1*1~", 2 * joined(W1), joined(W1[:4]), with_segment(4, "HL*2*1*F*0"),
    with_segment(2, "BNR*11*N|7*20240301"), with_items(3), with_items(40), b"", WITH_BIN, b"BIN*8*" + ATTACHED,
    b"BIN|08|" + ATTACHED, joined(W1).replace(b"~", b"~\r\n"), WITH_BIN.replace(b"~", b"~\n", 5),
    with_items(3).replace(b"~", b"~\r"), joined(W1).replace(b"~", b"~\r\n\r\n", 3), joined(REPLY_SEGMENTS),
    joined(REPLY_SEGMENTS).replace(b"~", b"~\r\n"), joined(REPLY_SEGMENTS[:7] + ["LM*DF"]),
    joined(REPLY_SEGMENTS[:2] + ["REF*TN*S17"]), joined(REPLY_SEGMENTS[:4] + ["HL*3*1*I"]),
]  # fmt: skip
TREE = read(joined(STRAY))
LARGE_REPORTS = [with_items(1500), *(joined(W1).ljust(stormhlaw.LONGEST + more, b"~") for more in (0, 1))]


def any_object(chance):
    return Given(chance.choice(OBJECTS), UNFIT)


def any_number(chance, most):
    """A number that may be from 0 to `most`, or something else."""
    if chance.random() < 0.1:
        return any_object(chance)
    number = chance.choice(NUMBERS if chance.random() < 0.7 else LARGE + HUGE)
    value = LyingInt(number) if chance.random() < 0.1 else number
    if chance.random() < 0.05:
        value = number = Seven.SEVEN
    return Given(value, int(number) if 0 <= number <= most else UNFIT)


def any_place(chance):
    """The number of an element or a component."""
    return any_number(chance, 2**64 - 1)


def any_room(chance):
    """A room, or the start or the length of a segment."""
    return any_number(chance, 2**31)


def any_count(chance):
    """A room or a length, which need not be given."""
    given = any_room(chance)
    return Given(None, None) if given.value is None or chance.random() < 0.5 else given


def any_bytes(chance):
    """Bytes of a report, sound or damaged, or any bytes."""
    kind = chance.random()
    if kind < 0.02:
        return chance.choice(LARGE_REPORTS)
    if kind < 0.2:
        return bytes(chance.choices(b"ST*842:~|HL1\x00\xff ", k=chance.randrange(60)))
    data = bytearray(chance.choice(REPORTS))
    for _ in range(chance.choice((0, 0, 1, 3)) if data else 0):
        data[chance.randrange(len(data))] = chance.choice(b"*:~|A0 \r\n\x00\xff")
    return bytes(data)


def any_quantity(chance):
    """Bytes of a quantity, sound or damaged, or any bytes of such."""
    if chance.random() < 0.3:
        return bytes(chance.choices(b"-.E0123456789+e \x00", k=chance.randrange(9)))
    digits = bytearray(chance.choices(b"0123456789", k=chance.choice((1, 2, 3, 7, 8, 10, 14, 15, 16))))
    if chance.random() < 0.5:
        digits.insert(chance.randrange(len(digits) + 1), ord("."))
    exponent = chance.choice((b"", b"", b"E1", b"E-1", b"E99", b"E-07", b"E0", b"E", b"E+1", b"e1", b"E123"))
    data = bytearray(chance.choice((b"", b"-")) + digits + exponent)
    if chance.random() < 0.1:
        data[chance.randrange(len(data))] = chance.choice(b"-.E0+e \x00\xff")
    return bytes(data)


def padded(data, size):
    return data.ljust(-(-max(len(data), 1) // size) * size, b"~")


def cast_view(chance, data):
    data = padded(data, 8)
    return memoryview(chance.choice((bytes, bytearray))(data)).cast(chance.choice("cbB?hHiIlLqQnNfdP")), data


def shaped_view(chance, data):
    data = padded(data, 24)
    form, size = chance.choice((("B", 1), ("H", 2), ("I", 4), ("Q", 8)))
    return memoryview(data).cast(form, (len(data) // 24, 24 // size)), data


def stepped_view(chance, data):
    step = chance.choice((2, 3, -1, -2))
    view = memoryview(chance.choice((bytes, bytearray))(data))[::step]
    return view, bytes(data[::step])


def array_view(chance, data):
    data = padded(data, 8)
    return memoryview(array.array(chance.choice("bBhHiIlLqQfd"), data)), data


def ctypes_view(chance, data):
    data = padded(data, 8)
    return memoryview((ctypes.c_uint64 * (len(data) // 8)).from_buffer_copy(data)), data


def part_view(chance, data):
    before = chance.randrange(9)
    return memoryview(bytes(before) + data + bytes(3))[before : before + len(data)], data


def mapped_view(chance, data):
    data = padded(data, 1)
    area = mmap.mmap(-1, len(data))
    area[:] = data
    return memoryview(area), data


def plain(kind):
    return lambda chance, data: (kind(data), data)


KINDS = (
    plain(bytes), plain(bytes), plain(bytearray), plain(memoryview), plain(LyingBytes), plain(LyingArray),
    plain(lambda data: memoryview(bytearray(data)).toreadonly()), cast_view, shaped_view, stepped_view, array_view,
    ctypes_view, part_view, mapped_view,
)  # fmt: skip


def any_data(chance, make=any_bytes):
    """Something to read, with the bytes that are made."""
    kind = chance.random()
    if kind < 0.1:
        return any_object(chance)
    if kind < 0.12:
        return Given(chance.choice(NUMBERS + LARGE + HUGE), UNFIT)
    value, data = chance.choice(KINDS)(chance, make(chance))
    if kind < 0.15 and type(value) is memoryview:
        value.release()
        return Given(value, UNFIT)
    return Given(value, data)


def any_text(chance):
    """Something that may be a quantity."""
    return any_data(chance, any_quantity if chance.random() < 0.95 else any_bytes)


def any_table(chance):
    """Bytes of a level table, fit or damaged, or any bytes."""
    if chance.random() < 0.05:
        return any_bytes(chance)
    numbers = list(TREE.level_table[: 4 * chance.randrange(len(TREE.levels) + 1)])
    for _ in range(chance.choice((0, 0, 1, 2)) if numbers else 0):
        numbers[chance.randrange(len(numbers))] = chance.choice((0, 1, 2, 3, 4, 5, 6, 9, 2**63, 2**64 - 1))
    return struct.pack(f"{len(numbers)}Q", *numbers) + bytes(chance.choice((0, 0, 0, 1, 8, 31)))


def any_levels(chance):
    """Something to walk."""
    if chance.random() < 0.1:
        data = any_table(chance)
        data = data[: len(data) // 8 * 8]
        return Given(Levels(memoryview(data).cast("Q")), data)
    return any_data(chance, any_table)


def any_byte(chance):
    """Something to separate with."""
    kind = chance.random()
    if kind < 0.7:
        value = chance.choice((b"*", b":", b"~", b"|", b"^", b"'", b"A", b"\x00", b"\xff", b" "))
        return Given(LyingBytes(value) if kind < 0.05 else value, value)
    if kind < 0.8:
        return Given(chance.choice((b"", b"**", b"*" * 300, bytearray(b"*"), memoryview(b"*"), 42)), UNFIT)
    return any_object(chance)


def any_separators(chance):
    """Separators, fit for reading or not, made as they should be or written to afterwards."""
    kind = chance.random()
    if kind < 0.4:
        return Given(Separators(), (b"*", b":", b"~"))
    if kind < 0.6:
        return Given(Separators(b"|", b"^", b"'"), (b"|", b"^", b"'"))
    if kind < 0.65:
        return any_object(chance)
    fields = [any_byte(chance) for _ in range(3)]
    fit = all(field.plain is not UNFIT for field in fields)
    separators = chance.choice((Separators, LyingSeparators))()
    for name, field in zip(("element", "component", "terminator"), fields):
        object.__setattr__(separators, name, field.value)
    return Given(separators, tuple(field.plain for field in fields) if fit else UNFIT)


def any_choice(chance, kinds, others):
    """One of the choices of that enumeration, or something else."""
    kind = chance.random()
    if kind < 0.8:
        value = chance.choice(list(kinds))
        return Given(value, value)
    if kind < 0.9:
        return Given(chance.choice((0, 1, 2, How(), *others)), UNFIT)
    return any_object(chance)


def any_line_ends(chance):
    """What may become of line ends, or something else."""
    return any_choice(chance, LineEnds, ("strict", "STRICT", *Profile))


def any_profile(chance):
    """What a report may hold, or something else."""
    return any_choice(chance, Profile, ("storage reply", "STORAGE_REPLY", *LineEnds))


def any_how(chance):
    """A choice of how to read, made as it should be or written to afterwards; plainly, both of its fields."""
    kind = chance.random()
    if kind < 0.05:
        return any_object(chance)
    if kind < 0.1:
        return Given(chance.choice((*LineEnds, *Profile, Separators(), *NUMBERS, *HUGE)), UNFIT)
    if kind < 0.7:
        values = chance.choice(list(LineEnds)), chance.choice(list(Profile))
        return Given(How(*values), values)
    fields = any_line_ends(chance), any_profile(chance)
    how = chance.choice((How, LyingHow))()
    for name, field in zip(("line_ends", "profile"), fields):
        object.__setattr__(how, name, field.value)
    fit = all(field.plain is not UNFIT for field in fields)
    return Given(how, tuple(field.plain for field in fields) if fit else UNFIT)


def looked_up(data, separators, number, part):
    """A part of a segment, and where it stands."""
    segment = Segment(data, separators)
    found = segment.element(number) if part == 0 else segment.component(number, part)
    return segment.data, segment.span(number, part), found


def taken(start, length, data, separators):
    """A segment out of its record."""
    return SegmentRecord(start, length, 1, 0).segment(data, separators)


def outlined(data, separators):
    """The outline of a report, out of some data."""
    return list(TREE.outline(data, separators))


FUNCTIONS = {
    read: {
        "data": any_data, "separators": any_separators, "how": any_how, "segment_room": any_count,
        "level_room": any_count,
    },
    rewrite: {
        "data": any_data, "new": any_separators, "separators": any_separators, "how": any_how, "length": any_count,
        "segment_room": any_count, "level_room": any_count,
    },
    looked_up: {"data": any_data, "separators": any_separators, "number": any_place, "part": any_place},
    taken: {"start": any_room, "length": any_room, "data": any_data, "separators": any_separators},
    number: {"text": any_text},
    walk: {"levels": any_levels},
    outlined: {"data": any_data, "separators": any_separators},
    Separators: {"element": any_byte, "component": any_byte, "terminator": any_byte},
    How: {"line_ends": any_line_ends, "profile": any_profile},
}  # fmt: skip


def table(room, width):
    """A table with the room that is asked for, or with more than any report needs."""
    room = min(room, stormhlaw.LONGEST)
    return (ctypes.c_uint64 * (width * room + 1))(), width * room


def expected_reading(data, separators, how, segment_room, level_room, **rewriting):
    """The answer of the library, its tables and its output."""
    enough = len(data) // 5
    segments = table(enough if segment_room is None else segment_room, 4)
    levels = table(min(enough, 4096) if level_room is None else level_room, 4)
    answer = (ctypes.c_uint64 * 4)()
    old = [separator[0] for separator in separators]
    flags = (how[0] is LineEnds.STRICT) + 2 * (how[1] is Profile.STORAGE_REPLY)
    if not rewriting:
        library.stormhlaw_read(data, len(data), *old, flags, *segments, *levels, answer)
        return list(answer), segments[0], levels[0], None
    new = [separator[0] for separator in rewriting["new"]]
    length = rewriting["length"]
    room = len(data) if length is None else min(length, 2 * stormhlaw.LONGEST)
    output = ctypes.create_string_buffer(room + 1)
    library.stormhlaw_rewrite(data, len(data), *old, flags, *new, *segments, *levels, output, room, answer)
    return list(answer), segments[0], levels[0], output.raw


def check_report(report, output, expected):
    answer, segments, levels, written = expected
    assert [0, len(report.segments), len(report.levels), report.bytes] == answer, (report, answer)
    check_records(report, segments, levels)
    if output is not None:
        assert output == written[: report.bytes] and type(output) is bytes


def check_records(found, segments, levels):
    """The records are those of the tables, and as many as the segments say."""
    assert found.segments.table.tolist() == segments[: 4 * len(found.segments)]
    assert found.levels.table.tolist() == levels[: 4 * len(found.levels)]
    assert len(found.levels) == sum(segment.row == 18 for segment in found.segments)


def check_refusal(refusal, expected):
    answer, segments, levels, _ = expected
    assert [refusal.reason, refusal.segment, refusal.byte, refusal.element] == answer, (refusal, answer)
    check_records(refusal, segments, levels)
    if refusal.reason not in (18, 19):
        assert len(refusal.segments) == max(refusal.segment - 1, 0)
    else:
        assert [segment.row for segment in refusal.segments].index(79) == len(refusal.segments) - 1


def elements(segment, element, component):
    """The tag and the elements, as lists of their components, by Python's own split; of a whole BIN the count, and as
    many bytes as it says, with one component each."""
    if segment.startswith(b"BIN" + element):
        count, _, attached = segment[4:].partition(element)
        if re.fullmatch(b"[0-9]{1,15}", count) and int(count) == len(attached) > 0:
            return [[b"BIN"], [count], [attached]]
    return [piece.split(component) for piece in segment.split(element)]


def span_of(pieces, before, start, end):
    """Where the piece stands that has so many others before it, the first of which starts there; the end where there is
    none."""
    if before >= len(pieces):
        return slice(end, end)
    start += sum(len(piece) + 1 for piece in pieces[:before])
    return slice(start, start + len(pieces[before]))


def expected_span(segment, separators, number, part):
    """Where a part of a segment stands."""
    cut = elements(segment, *separators[:2])
    whole = span_of([separators[1].join(parts) for parts in cut], number, 0, len(segment))
    if part == 0 or number >= len(cut):
        return whole
    return span_of(cut[number], part - 1, whole.start, whole.stop)


def number_of(text):
    """The four numbers of a quantity by a regular expression, or None."""
    found = re.fullmatch(rb"(-?)([0-9]*)\.?([0-9]*)(?:E(-?[0-9]{1,2}))?", text)
    if not found or not 1 <= len(found[2] + found[3]) <= 15:
        return None
    value = int(found[2] + found[3])
    return -value if found[1] else value, len(found[3]), int(found[4] or 0), found[4] is not None


def expected_walk(table):
    """The levels of a table under their parents, or the first that is unfit."""
    records = list(struct.iter_unpack("4Q", table[: len(table) // 32 * 32]))
    paths = {0: ()}
    for number, (_, parent, depth, _) in enumerate(records, 1):
        if parent not in paths or depth > 4 or len(paths[parent]) + 1 != depth:
            return number
        paths[number] = (*paths[parent], number)
    return sorted(range(1, len(records) + 1), key=lambda number: paths[number])


def check_walk(wanted, call):
    try:
        found = call()
    except WalkRefused as refused:
        assert (refused.number, refused.level) == (20, wanted), (refused, wanted)
        return
    assert found == wanted, (found, wanted)


def check_outline(found, data, separators):
    """Each level comes in its turn, with the segments that belong to it and the element 1 of the first."""
    assert [level.number for level in found] == expected_walk(TREE.level_table.tobytes())
    for level in found:
        assert (level.segment, level.parent, level.depth, level.code) == TREE.levels[level.number - 1]
        assert level.segments == [record for record in TREE if record.level == level.number]
        start, length, *_ = TREE.segments[level.segment - 1]
        hl = data[start : start + length]
        assert (level.start, level.name) == (start, hl[expected_span(hl, separators, 1, 0)])


def check_answer(function, plain, call):
    """The call, whose arguments all fit, answers as it must."""
    if function is looked_up:
        data, span = plain["data"], expected_span(plain["data"], plain["separators"], plain["number"], plain["part"])
        assert call() == (data, span, data[span])
    elif function is taken:
        data, found = plain["data"][plain["start"] : plain["start"] + plain["length"]], call()
        assert (found.data, found.span(1, 1)) == (data, expected_span(data, plain["separators"], 1, 1))
    elif function is number:
        assert call() == number_of(plain["text"])
    elif function is walk:
        check_walk(expected_walk(plain["levels"]), call)
    elif function is outlined:
        check_outline(call(), **plain)
    elif function is Separators:
        assert call().numbers() == tuple(value[0] for value in plain.values())
    elif function is How:
        found = call()
        assert found.line_ends is plain["line_ends"] and found.profile is plain["profile"]
    else:
        check_reading(function, expected_reading(**plain), call)


def check_reading(function, expected, call):
    try:
        found = call()
    except Refused as refused:
        check_refusal(refused.refusal, expected)
        return
    report, output = found if function is rewrite else (found, None)
    check_report(report, output, expected)


def check_raises(names, call):
    """The call raises an error that names one of the arguments that do not fit."""
    try:
        call()
    except (TypeError, ValueError) as error:
        assert type(error) in (TypeError, ValueError), type(error)
        assert error.__cause__ is None
        field = r"(\.(element|component|terminator|line_ends|profile))?"
        found = re.fullmatch(rf"(\w+){field}: .+ wanted.*, not .+", str(error))
        assert found, str(error)
        assert found[1] in names or (found[1] in ("separators", "how") and found[3] in names), (str(error), names)
        return
    raise AssertionError(f"nothing was raised, but these do not fit: {names}")


def unfit_names(function, given):
    """The arguments that do not fit; of a record and of an outline, also data that do not go so far."""
    names = [name for name, one in given.items() if one.plain is UNFIT]
    if function is taken and not {"start", "length", "data"}.intersection(names):
        if given["start"].plain + given["length"].plain > len(given["data"].plain):
            names.append("data")
    if function is outlined and "data" not in names:
        if sum(TREE.segments[-1][:2]) > len(given["data"].plain):
            names.append("data")
    return names


def one_call(chance):
    function, makers = chance.choice(list(FUNCTIONS.items()))
    given = {name: make(chance) for name, make in makers.items()}
    values = {name: one.value for name, one in given.items()}
    unfit = unfit_names(function, given)
    if unfit:
        check_raises(unfit, lambda: function(**values))
        return False
    check_answer(function, {name: one.plain for name, one in given.items()}, lambda: function(**values))
    return True


def run(seed, count):
    """So many calls; how many of them had arguments that all fit."""
    fit = 0
    for number in range(count):
        chance = random.Random(f"{seed} {number}")
        try:
            fit += one_call(chance)
        except Exception as error:
            raise AssertionError(f"call {number} of seed {seed}") from error
    return fit


if __name__ == "__main__":
    print(f"{run(int(sys.argv[1]), int(sys.argv[2]))} calls had arguments that fit")
