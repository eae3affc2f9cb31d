"""Bytes on a line of their own, and the mark under an element of a refused segment, to be read out."""

from __future__ import annotations

import re
from typing import Iterator

from stormhlaw.answers import Refusal
from stormhlaw.lookup import Segment

COLUMNS = 100
"""How long a line is at most."""

# What stands where a line is cut.
_CUT = "..."
# How much of an element is seen at least, if it has so much.
_ENOUGH = 80
# Every byte, or a dot where it is not printable.
_SHOWN = bytes(byte if 32 <= byte <= 126 else ord(".") for byte in range(256))
# How a BIN begins whose count may be one.
_COUNTED = re.compile(rb"BIN\*([0-9]{1,15})\*")


def shown(data: bytes) -> str:
    """The bytes as they are shown: those that are not printable ASCII as a dot."""
    return data.translate(_SHOWN).decode("ascii")


def shortened(data: bytes, columns: int) -> str:
    """The bytes as they are shown, in no more than so many columns."""
    text = shown(data)
    return text if len(text) <= columns else text[: columns - len(_CUT)] + _CUT


def marked(refusal: Refusal, data: bytes) -> Iterator[str]:
    """The line of the segment that is refused, and a line with a mark under each byte of the element that is meant;
    where that has no bytes, under the place where it would stand. No line where no segment is named, or where the data
    end."""
    if refusal.segment == 0 or refusal.byte >= len(data):
        return
    segment = Segment(_segment_at(data, refusal.byte))
    found = segment.span(refusal.element)
    mark = range(found.start, max(found.stop, found.start + 1))
    text = shown(segment.data)
    seen = _seen(max(len(text), mark.stop), mark)
    before = _CUT if seen.start > 0 else ""
    behind = _CUT if seen.stop < len(text) else ""
    yield f"{before}{text[seen.start : seen.stop]}{behind}\n"
    start, stop = max(mark.start, seen.start), min(mark.stop, seen.stop)
    yield " " * (len(before) + start - seen.start) + "^" * (stop - start) + "\n"


def _segment_at(data: bytes, start: int) -> bytes:
    """The bytes from there up to the next terminator; of a BIN those that it counts; or all that there are."""
    counted = _COUNTED.match(data, start)
    if counted and int(counted[1]) > 0:
        return data[start : counted.end() + int(counted[1])]
    return data[start:].partition(b"~")[0]


def _seen(length: int, mark: range) -> range:
    """Which of so many columns are seen, and the mark among them: all, or the first, or the last, or those around the
    mark."""
    if length <= COLUMNS:
        return range(length)
    at_an_end, between = COLUMNS - len(_CUT), COLUMNS - 2 * len(_CUT)
    stop = min(mark.stop, mark.start + _ENOUGH)
    if stop <= at_an_end:
        return range(at_an_end)
    start = (mark.start + stop - between) // 2
    if start >= length - at_an_end:
        return range(length - at_an_end, length)
    return range(start, start + between)
