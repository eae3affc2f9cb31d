"""The two tables that a reading fills, and what its answer tells of them."""

from __future__ import annotations

import sys
from typing import List, Optional, Tuple

from stormhlaw._checking import count
from stormhlaw._lending import unwritten
from stormhlaw._library import LEVEL_NUMBERS, LONGEST, SEGMENT_NUMBERS
from stormhlaw.answers import Reason, Refusal, Refused, Report
from stormhlaw.records import Levels, Segments, as_numbers

LEVEL_ROOM = 4096
"""How many levels there is room for where no room is named."""

TOO_LONG = bytes(LONGEST + 1)
"""Stands for any input that is too long: its bytes are not looked at."""

# How many bytes a record has.
_SEGMENT, _LEVEL = 8 * SEGMENT_NUMBERS, 8 * LEVEL_NUMBERS
# Where the row stands in a segment's record. It is at most 79: of its eight bytes one tells all.
_ROW = 16 if sys.byteorder == "little" else 23
_SE = 79
# Which of a segment's numbers is that of its level, from 0.
_LEVEL_OF_SEGMENT = 3


class Tables:
    """Tables for a reading of so many bytes, with room for so many records.

    A segment that breaks no rule has five bytes or more with its terminator: a tag of two, a separator, a byte. So an
    input of n bytes never has more than n // 5 segments to record, and no more levels: where there is room for that
    many, no segment lacks room, and more changes no answer. A larger room is cut to that.
    """

    def __init__(self, length: int, segment_room: Optional[int], level_room: Optional[int]) -> None:
        enough = min(length, LONGEST) // 5
        self.segment_room = count("segment_room", segment_room, enough)
        self.level_room = count("level_room", level_room, enough, LEVEL_ROOM)
        self._segments = unwritten(_SEGMENT * self.segment_room)
        self._levels = unwritten(_LEVEL * self.level_room)

    def lent(self) -> Tuple[bytes, int, bytes, int]:
        """Both tables, each with how many numbers it holds, as the library takes them."""
        return self._segments, SEGMENT_NUMBERS * self.segment_room, self._levels, LEVEL_NUMBERS * self.level_room

    def told(self, answer: List[int]) -> Report:
        """The report that the four numbers tell of, once the tables are filled; or its refusal, which is raised."""
        number, first, second, third = answer
        if number == 0:
            return Report(*self._records(first, second), third)
        left = self._segments_left(number, first)
        raise Refused(Refusal(Reason(number), first, second, third, *self._records(left, self._levels_of(left))))

    def _segments_left(self, number: int, segment: int) -> int:
        """How many segments a refusal leaves in the table: those before the segment that is refused; where only the
        rewriting is refused, all, up to the SE."""
        if number not in (Reason.DATA_EQUALS_SEPARATOR, Reason.OUTPUT_TOO_SHORT):
            return max(segment - 1, 0)
        rows = self._segments[_ROW::_SEGMENT]
        return rows.index(_SE) + 1

    def _levels_of(self, segments: int) -> int:
        """How many levels the first so many segments make: they are numbered in order, so the last segment that belongs
        to one tells."""
        numbers = as_numbers(self._segments)[: SEGMENT_NUMBERS * segments]
        return next(filter(None, reversed(numbers[_LEVEL_OF_SEGMENT::SEGMENT_NUMBERS])), 0)

    def _records(self, segments: int, levels: int) -> Tuple[Segments, Levels]:
        """So many records of each table. They are copied, so that a report holds no more memory than it needs."""
        return (
            Segments(as_numbers(self._segments[: _SEGMENT * segments])),
            Levels(as_numbers(self._levels[: _LEVEL * levels])),
        )
