"""How a report is read."""

from __future__ import annotations

from dataclasses import dataclass
from enum import Enum
from typing import Any

from stormhlaw._checking import is_a, kind_of
from stormhlaw._library import REPLY_FLAG, STRICT_FLAG


class LineEnds(Enum):
    """What becomes of line ends between segments."""

    # Behind a terminator and before the next segment at most one CR and then at most one LF are skipped, each unless
    # it is itself a separator. What is skipped belongs to no segment; it counts among the bytes of the transaction.
    SKIPPED = "skipped"
    # Nothing is skipped: a line end belongs to the segment that it stands before, which is refused.
    STRICT = "strict"


class Profile(Enum):
    """What a report may hold."""

    # A nonconformance report: all 79 rows, and levels with the codes RP, I, F, PC and SN under their parents.
    NONCONFORMANCE = "nonconformance"
    # A storage-quality reply: rows 1, 2, 12, 17 to 19, 23 to 26, 30, 31, 46 to 49, 51, 56, 64, 71 and 79 alone, any
    # other being refused with Reason.ROW_NOT_IN_PROFILE; HL02 and HL04 absent; HL03 one of I, RB and RP. No level has a
    # parent, and all have depth 1.
    STORAGE_REPLY = "storage reply"


@dataclass(frozen=True)
class How:
    """How a report is read. By default line ends between segments are skipped, and it is a nonconformance report."""

    line_ends: LineEnds = LineEnds.SKIPPED
    profile: Profile = Profile.NONCONFORMANCE

    def __post_init__(self) -> None:
        flags_of("how", self)


def flags_of(name: str, value: Any) -> int:
    """The sum of the flags that the library is told. They are checked at each use: a frozen object can still be written
    to."""
    if not is_a(value, How):
        raise TypeError(f"{name}: How wanted, not {kind_of(value)}")
    line_ends, profile = value.line_ends, value.profile
    if not is_a(line_ends, LineEnds):
        raise TypeError(f"{name}.line_ends: LineEnds wanted, not {kind_of(line_ends)}")
    if not is_a(profile, Profile):
        raise TypeError(f"{name}.profile: Profile wanted, not {kind_of(profile)}")
    strict = STRICT_FLAG if line_ends is LineEnds.STRICT else 0
    return strict + REPLY_FLAG if profile is Profile.STORAGE_REPLY else strict


DEFAULT = How()
"""Line ends between segments are skipped, and it is a nonconformance report."""

STRICT = How(LineEnds.STRICT)
"""Nothing is skipped."""

REPLY = How(profile=Profile.STORAGE_REPLY)
"""A storage-quality reply."""
