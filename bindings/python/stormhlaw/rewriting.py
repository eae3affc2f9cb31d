"""Writing a report again with other separators."""

from __future__ import annotations

from typing import Optional, Tuple

from stormhlaw._checking import count
from stormhlaw._lending import Data, lend, unwritten
from stormhlaw._library import LONGEST, Answer, library
from stormhlaw._tables import TOO_LONG, Tables
from stormhlaw.answers import Report
from stormhlaw.how import STRICT, How, flags_of
from stormhlaw.separators import STANDARD, Separators, numbers_of


def rewrite(
    data: Data,
    new: Separators,
    separators: Separators = STANDARD,
    how: How = STRICT,
    length: Optional[int] = None,
    segment_room: Optional[int] = None,
    level_room: Optional[int] = None,
) -> Tuple[Report, bytes]:
    """Reads one transaction as read() does, and gives it with the `new` separators beside what read() gives.

    Each separator of the old set becomes that of the new one, and every data byte stays. A data byte that equals a
    new separator is refused with Reason.DATA_EQUALS_SEPARATOR. The bytes of BIN02 stay too, whatever they are. `length`
    is how many bytes the output may have; a transaction that takes more is refused with Reason.OUTPUT_TOO_SHORT.
    Without it there is always enough. The other arguments are those of read().

    The reading is strict, whatever `how` says of line ends: a report that has them between its segments is refused with
    Reason.BYTE_UNFIT. It is by the profile that `how` names: `how=REPLY` for a storage-quality reply.
    """
    start, size, _owner = lend("data", data, TOO_LONG)
    three, flags, new_three = numbers_of("separators", separators), flags_of("how", how), numbers_of("new", new)
    # A transaction takes no more bytes than the input has, and an input no more than the longest.
    room = count("length", length, min(size, LONGEST))
    tables, answer, output = Tables(size, segment_room, level_room), Answer(), unwritten(room)
    library.stormhlaw_rewrite(start, size, *three, flags, *new_three, *tables.lent(), output, room, answer)
    report = tables.told(answer[:])
    return report, output[: report.bytes]
