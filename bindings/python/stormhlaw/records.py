"""The records of a report, and the sequences of them that see through to the tables of numbers."""

from __future__ import annotations

from abc import abstractmethod
from enum import IntEnum
from functools import partial
from struct import Struct
from typing import (
    Any,
    Callable,
    ClassVar,
    Iterator,
    List,
    NamedTuple,
    Optional,
    Sequence,
    Tuple,
    Type,
    TypeVar,
    Union,
    cast,
    overload,
)

from stormhlaw._checking import COUNT, number
from stormhlaw._lending import Data, taken
from stormhlaw._library import LEVEL_NUMBERS, SEGMENT_NUMBERS
from stormhlaw.lookup import Segment
from stormhlaw.separators import STANDARD, Separators


class Code(IntEnum):
    """What a level stands for; the value is the number in the level table, `text` is what HL03 says."""

    REPORT = 1
    ITEM = 2
    COMPONENT = 3
    PRODUCT_CHARACTERISTIC = 4
    SERIAL_NUMBER = 5
    # In storage-quality replies alone.
    RESPONSE = 6

    @property
    def text(self) -> str:
        """The code as HL03 says it."""
        return ("RP", "I", "F", "PC", "SN", "RB")[self - 1]


class SegmentRecord(NamedTuple):
    """Where a segment stands, which it is, and where it belongs."""

    start: int
    """The byte where it starts, from 0, behind the line end that was skipped before it."""
    length: int
    """How many bytes it has, without its terminator."""
    row: int
    """Its row in the table of 79, from 1."""
    level: int
    """The number of the level that it belongs to, from 1: that of the latest HL, or its own where it is an HL. 0 in the
    heading, before the first HL, and for the SE."""

    def segment(self, data: Data, separators: Separators = STANDARD) -> Segment:
        """The segment itself, out of the data that were read, to be cut by the separators that they were read by."""
        start, length = number("start", self.start, COUNT), number("length", self.length, COUNT)
        return Segment(taken("data", data, start, length), separators)


class Level(NamedTuple):
    """A level that an HL makes."""

    segment: int
    """The number of the HL's segment, from 1."""
    parent: int
    """The number of its parent's level, from 1; 0 for none, as in every storage-quality reply."""
    depth: int
    """Its depth, 1 to 4."""
    code: Code
    """What it stands for."""


Record = TypeVar("Record")


class Records(Sequence[Record]):
    """Records in a table of numbers. Each is made when it is asked for; `table` gives the numbers themselves.

    A sequence like a list that cannot be written to: it has a length, an index from either end, slices, which are of
    the same kind, and `in`. It equals a list, or another such sequence, of equal records.
    """

    __slots__ = ("_table",)
    _width: ClassVar[int]

    def __init__(self, table: memoryview) -> None:
        self._table = table

    @staticmethod
    @abstractmethod
    def _records(table: memoryview) -> Iterator[Record]:
        """The records of a table."""

    @property
    def table(self) -> memoryview:
        """The numbers of all records, one record behind the other; format `Q`, read only."""
        return self._table[:]

    def __len__(self) -> int:
        return len(self._table) // self._width

    def __iter__(self) -> Iterator[Record]:
        return self._records(self._table)

    @overload
    def __getitem__(self, index: int) -> Record: ...

    @overload
    def __getitem__(self, index: slice) -> Records[Record]: ...

    def __getitem__(self, index: Union[int, slice]) -> Union[Record, Records[Record]]:
        try:
            chosen: Union[int, range] = range(len(self))[index]
        except IndexError:
            raise IndexError(f"index out of range: there are {len(self)} records") from None
        if isinstance(chosen, int):
            return next(self._records(self._numbers_of(chosen)))
        if chosen.step == 1:
            return type(self)(self._table[self._width * chosen.start : self._width * chosen.stop])
        return type(self)(as_numbers(b"".join(map(self._numbers_of, chosen))))

    def _numbers_of(self, index: int) -> memoryview:
        """The numbers of one record."""
        return self._table[self._width * index : self._width * (index + 1)]

    def __eq__(self, other: object) -> bool:
        if not isinstance(other, (list, Records)):
            return NotImplemented
        if isinstance(other, Records) and type(other) is type(self):
            return bool(self._table == other._table)
        return len(self) == len(other) and all(mine == theirs for mine, theirs in zip(self, other))

    # As a list, which can equal it, has none.
    __hash__ = None  # type: ignore[assignment]

    def __repr__(self) -> str:
        shown = [repr(record) for record in self[:3]]
        more = [f".. {len(self) - 3} more"] if len(self) > 3 else []
        return f"{type(self).__name__}([{', '.join(shown + more)}])"

    def __reduce__(self) -> Tuple[Any, ...]:
        """For pickle and copy."""
        return _restored, (type(self), self._table.tobytes())


class Segments(Records[SegmentRecord]):
    """The segments of a report: four numbers each in the table."""

    __slots__ = ()
    _width = SEGMENT_NUMBERS

    @staticmethod
    def _records(table: memoryview) -> Iterator[SegmentRecord]:
        return map(_segment, _SEGMENT_STRUCT.iter_unpack(table))


class Levels(Records[Level]):
    """The levels of a report: four numbers each in the table."""

    __slots__ = ()
    _width = LEVEL_NUMBERS

    def of(self, segment: SegmentRecord) -> Optional[Level]:
        """The level that a segment of the same reading belongs to. None in the heading and for the SE."""
        return self[segment.level - 1] if segment.level else None

    @staticmethod
    def _records(table: memoryview) -> Iterator[Level]:
        numbers = _LEVEL_STRUCT.iter_unpack(table)
        return (Level(segment, parent, depth, _CODES[code - 1]) for segment, parent, depth, code in numbers)


_SEGMENT_STRUCT, _LEVEL_STRUCT = Struct(f"{SEGMENT_NUMBERS}Q"), Struct(f"{LEVEL_NUMBERS}Q")
_CODES: List[Code] = list(Code)
# What SegmentRecord._make does, in a third less time for a whole table.
_segment = cast(Callable[[Tuple[int, ...]], SegmentRecord], partial(tuple.__new__, SegmentRecord))


def as_numbers(table: bytes) -> memoryview:
    """The numbers in a table's bytes."""
    return memoryview(table).cast("Q")


def _restored(kind: Type[Records[Record]], table: bytes) -> Records[Record]:
    """The sequence of that kind over the table's bytes."""
    return kind(as_numbers(table))
