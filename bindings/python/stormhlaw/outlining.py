"""The levels of a report under their parents, each with what belongs to it."""

from __future__ import annotations

from collections import Counter
from typing import Iterator, NamedTuple, cast

from stormhlaw._lending import Data, taken
from stormhlaw._library import SEGMENT_NUMBERS
from stormhlaw.records import Code, Levels, Segments
from stormhlaw.separators import Separators
from stormhlaw.walking import walk

# Which of a segment's numbers is that of its level, from 0.
_LEVEL = 3


class OutlineLevel(NamedTuple):
    """A level in an outline, and what belongs to it."""

    number: int
    """Its number, from 1: levels are numbered in file order."""
    parent: int
    """The number of its parent's level; 0 for none."""
    depth: int
    """Its depth, 1 to 4."""
    code: Code
    """What it stands for."""
    name: bytes
    """Its HL01."""
    segment: int
    """The number of its HL's segment, from 1."""
    start: int
    """The byte where its HL starts, from 0."""
    segments: Segments
    """The records of the segments that belong to it: from its HL, whose number is `segment`, up to before the next HL
    or the SE."""


def outlined(segments: Segments, levels: Levels, data: Data, separators: Separators) -> Iterator[OutlineLevel]:
    """The levels in the order of a walk. Everything is looked at before the first is given: what becomes of the data
    afterwards changes nothing."""
    end = segments[-1].start + segments[-1].length if segments else 0
    whole = taken("data", data, 0, end)
    in_file, sizes = list(levels), Counter(segments.table[_LEVEL::SEGMENT_NUMBERS])

    def at(number: int) -> OutlineLevel:
        segment, parent, depth, code = in_file[number - 1]
        own = cast(Segments, segments[segment - 1 : segment - 1 + sizes[number]])
        hl = own[0]
        name = hl.segment(whole, separators).element(1)
        return OutlineLevel(number, parent, depth, code, name, segment, hl.start, own)

    return iter([at(number) for number in walk(levels)])
