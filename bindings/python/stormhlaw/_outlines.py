"""The lines of an outline, as the program prints them."""

from __future__ import annotations

from typing import Iterator

from stormhlaw._marks import COLUMNS, marked, shortened, shown
from stormhlaw.answers import Refusal, Report
from stormhlaw.outlining import OutlineLevel
from stormhlaw.records import Code

# The rows whose segments are shown below their level: nonconformances and actions.
_BELOW = {46: "NCD", 64: "NCA"}


def accepted(report: Report, data: bytes) -> Iterator[str]:
    """A line for each level of an accepted report, and lines for what is found at it."""
    for level in report.outline(data):
        yield from _level(level, data)


def refused(refusal: Refusal, data: bytes) -> Iterator[str]:
    """The answer, and the segment that is refused with its mark."""
    yield f"{refusal}\n"
    yield from marked(refusal, data)


def _level(level: OutlineLevel, data: bytes) -> Iterator[str]:
    """The line of a level, and those of its nonconformances and actions."""
    above = "  " * (level.depth - 1)
    place = f"segment {level.segment} byte {level.start} segments {len(level.segments)}"
    yield f"{above}{_words(level.code)} {level.code.text} {shown(level.name)} {place}\n"
    for number, record in enumerate(level.segments, level.segment):
        if record.row in _BELOW:
            head = f"{above}  {_BELOW[record.row]} segment {number} byte {record.start}: "
            yield f"{head}{shortened(record.segment(data).data, COLUMNS - len(head))}\n"


def _words(code: Code) -> str:
    """What a level stands for, in words."""
    return code.name.lower().replace("_", " ")
