"""Reading a report."""

from __future__ import annotations

from typing import Optional

from stormhlaw._lending import Data, lend
from stormhlaw._library import Answer, library
from stormhlaw._tables import TOO_LONG, Tables
from stormhlaw.answers import Report
from stormhlaw.how import DEFAULT, How, flags_of
from stormhlaw.separators import STANDARD, Separators, numbers_of


def read(
    data: Data,
    separators: Separators = STANDARD,
    how: How = DEFAULT,
    segment_room: Optional[int] = None,
    level_room: Optional[int] = None,
) -> Report:
    """Reads one transaction, ST to SE, from the start of `data`, and gives its segments and levels, or raises Refused.

    `data` is bytes, or a bytearray or memoryview, whose bytes are taken as they lie, whatever its format. Bytes, and
    a memoryview of bytes without gaps, are read where they are, and other threads run meanwhile; what can be written
    to is copied first.

    Line ends between segments are skipped; with `how=STRICT` they are refused. With `how=REPLY` the report is read as a
    storage-quality reply, and a How names both choices.

    `segment_room` and `level_room` are how many records there is room for; a report with more is refused with
    Reason.NO_ROOM. Without `segment_room` there is always enough. Without `level_room` there is room for 4,096 levels,
    and a caller who wants more says so: `level_room=LONGEST` is enough for any report.

    A large report takes 1 to 3 nanoseconds a byte, and each level some 50 more up to 1,000 levels, whatever order names
    and parents come in; 4,096 levels take up to 0.6 milliseconds in all, 20,000 up to 10.3 (AMD EPYC). Names that
    are made to fall together take longer, 3 nanoseconds for every two of them: 25 milliseconds at 4,096. The room bounds
    it.
    """
    start, size, _owner = lend("data", data, TOO_LONG)
    three, flags = numbers_of("separators", separators), flags_of("how", how)
    tables, answer = Tables(size, segment_room, level_room), Answer()
    library.stormhlaw_read(start, size, *three, flags, *tables.lent(), answer)
    return tables.told(answer[:])
