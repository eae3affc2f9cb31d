"""What a reading answers: a report, or a refusal."""

from __future__ import annotations

from dataclasses import dataclass
from enum import IntEnum
from typing import Iterator

from stormhlaw._lending import Data
from stormhlaw.outlining import OutlineLevel, outlined
from stormhlaw.records import Levels, SegmentRecord, Segments
from stormhlaw.separators import STANDARD, Separators


class Reason(IntEnum):
    """Why a report is refused; the value is the answer's number."""

    # A separator is unfit, or two of the three are the same. Element 1: the new set of a rewriting.
    SEPARATORS_UNFIT = 1
    # There are more than LONGEST bytes.
    INPUT_TOO_LONG = 2
    # No terminator from this byte on, or the data end inside a BIN.
    NO_TERMINATOR = 3
    # The tag is none of the 34.
    TAG_UNKNOWN = 4
    # A byte that is neither data nor a separator, in the element named; 0 is the tag. A line end that is not skipped is
    # such a byte. BIN02 may hold any byte.
    BYTE_UNFIT = 5
    # No element, or the last one is empty, or an element's last component is.
    EMPTY_AT_THE_END = 6
    # No row of the table fits here.
    NO_ROW_FITS = 7
    # The mandatory element named is missing.
    ELEMENT_MISSING = 8
    # The element named is the first that is too many. In a storage-quality reply HL02 and HL04 are too many.
    TOO_MANY = 9
    # Type or length of the element named does not fit, or ST01 is not 842; what a quantity may be says number(). Of a
    # BIN, element 1: BIN01 is no count, or no element separator follows it; element 2: no terminator stands where it is
    # due.
    VALUE_UNFIT = 10
    # All or none of some elements, at least one of some, or one that asks for others: the note's first is named.
    NOTE_BROKEN = 11
    # HL01 was used by an earlier level.
    LEVEL_USED_BEFORE = 12
    # HL02 names no earlier level.
    PARENT_UNKNOWN = 13
    # Element 3: no such code in this profile, or the level needs a parent. Element 2: it may not hang under that one.
    LEVEL_NOT_PERMITTED = 14
    # Element 2: the parent is marked 0. Element 4: the own mark does not fit. Element 0: a level marked 1 has no child.
    MARK_UNFIT = 15
    # Element 1: SE01 is not the number of segments. Element 2: SE02 is not ST02.
    CLOSING_WRONG = 16
    # Every rule holds so far, and there is no room for this segment's records.
    NO_ROOM = 17
    # Rewriting: a data byte, other than in BIN02, equals a new separator. The first such segment and element.
    DATA_EQUALS_SEPARATOR = 18
    # Rewriting: the output is shorter than the bytes that the transaction takes.
    OUTPUT_TOO_SHORT = 19
    # The segment has a row of the table, and it is no row of a storage-quality reply.
    ROW_NOT_IN_PROFILE = 24


@dataclass(frozen=True)
class Report:
    """An accepted report. `for record in report` goes through the records of its segments."""

    segments: Segments
    levels: Levels
    bytes: int
    """How many bytes the transaction takes, with the line ends between its segments and the terminator of its SE; what
    comes after was not looked at."""

    @property
    def segment_table(self) -> memoryview:
        """Four numbers a segment: start, length, row, level. Format `Q`, read only."""
        return self.segments.table

    @property
    def level_table(self) -> memoryview:
        """Four numbers a level: segment, parent, depth, code. Format `Q`, read only."""
        return self.levels.table

    def outline(self, data: Data, separators: Separators = STANDARD) -> Iterator[OutlineLevel]:
        """Its levels under their parents, in the order that walk() gives. `data` are those that were read, and
        `separators` what they were read by: each level has its HL01 from there."""
        return outlined(self.segments, self.levels, data, separators)

    def __iter__(self) -> Iterator[SegmentRecord]:
        return iter(self.segments)


@dataclass(frozen=True)
class Refusal:
    """Which rule is broken, and where."""

    reason: Reason
    segment: int
    """The segment that breaks it, from 1; 0 where no segment is meant (reasons 1, 2 and 19)."""
    byte: int
    """The byte where that segment starts, from 0, behind the line end that was skipped before it."""
    element: int
    """The element that is meant; 0 for the tag or for no element in particular."""
    segments: Segments
    """What was read before: nothing (reasons 1 and 2), the segments before the one that is refused (3 to 17 and 24), or
    all of them, since the reading was accepted (18 and 19)."""
    levels: Levels
    """The levels of those segments."""

    def __str__(self) -> str:
        return f"refused {int(self.reason)} segment {self.segment} byte {self.byte} element {self.element}"


class Refused(Exception):
    """The report is refused; `refusal` says why."""

    def __init__(self, refusal: Refusal) -> None:
        super().__init__(str(refusal))
        self.refusal = refusal
