"""What the program says beside an answer, where a report was perhaps not what its sender meant to send."""

from __future__ import annotations

import re
from typing import Optional

from stormhlaw.answers import Reason

# What a refused input may begin with, and what is said then.
_BEGINNINGS = (
    (rb"ISA", "a whole interchange (ISA): the gate reads one transaction, from its ST to the end of its SE"),
    (rb"GS", "a functional group (GS): the gate reads one transaction, from its ST to the end of its SE"),
    (rb"\xef\xbb\xbf|\xff\xfe|\xfe\xff", "a byte order mark comes first: a report begins with ST"),
)

# An ST whose separators are others: the first byte behind it that may serve as a separator and is neither * nor : is not ~.
_OTHERWISE_SEPARATED = rb"ST[*:A-Za-z0-9 .\-\x00\x7f-\xff]*[^~*:A-Za-z0-9 .\-\x00\x7f-\xff]"
_SEPARATORS = "its separators are not the standard * : ~ that this program reads; a caller of the library can name others"

_REASONS = {
    Reason.INPUT_TOO_LONG: "longer than the 65,536 bytes that this program reads; the library reads 1,048,576",
    Reason.NO_ROOM: "more than the 1,000 segments or 200 levels that this program has room for; "
    "a caller of the library can lend more",
}


def after_refusal(data: bytes, reason: Reason, segment: int) -> Optional[str]:
    """What an input that is refused at this segment is perhaps."""
    for beginning, hint in _BEGINNINGS:
        if re.match(beginning, data):
            return hint
    if segment == 1 and re.match(_OTHERWISE_SEPARATED, data):
        return _SEPARATORS
    return _REASONS.get(reason)


def after_acceptance(behind: bytes) -> Optional[str]:
    """What stands behind an accepted transaction, if it is more than line ends."""
    return f"bytes behind its SE that were not looked at: {len(behind)}" if behind.strip(b"\r\n") else None
