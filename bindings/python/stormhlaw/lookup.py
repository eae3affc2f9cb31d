"""Looking up the parts of a segment."""

from __future__ import annotations

from dataclasses import dataclass
from typing import Tuple

from stormhlaw._checking import PLACE, number as checked_number
from stormhlaw._lending import Data, Lent, lend, part_of
from stormhlaw._library import Span, library
from stormhlaw.separators import STANDARD, Separators, numbers_of


@dataclass(frozen=True, init=False)
class Segment:
    """The bytes of one segment, without its terminator, and the separators that it is cut by. The bytes of a bytearray
    or a memoryview are copied.

    Its elements are numbered from 1, and number 0 is the tag. The components of each, of the tag too, are numbered from
    1, and 0 is the whole element. Every number has an answer: past the last component or element there are no bytes.

    Of a BIN element 1 is the count and element 2 all the bytes that it counts, where the count ends exactly with the
    segment, as it does in every accepted report. The tag, the count and these bytes are one component each, whatever
    bytes they hold. Any other segment is cut at every separator, whatever it begins with.
    """

    data: bytes
    """All its bytes."""
    separators: Separators
    """What it is cut by. Any byte may separate; the terminator is not looked at."""

    def __init__(self, data: Data, separators: Separators = STANDARD) -> None:
        lent = lend("data", data)
        numbers_of("separators", separators)
        # What can change is copied: the segment stays what it is.
        object.__setattr__(self, "data", part_of(lent, 0, lent[1]))
        object.__setattr__(self, "separators", separators)

    @property
    def tag(self) -> bytes:
        """The tag, which is element 0."""
        return self.element(0)

    def element(self, number: int) -> bytes:
        """The element of that number."""
        return self.component(number, 0)

    def component(self, number: int, part: int) -> bytes:
        """The component of that number, `part`, of the element `number`."""
        lent = lend("data", self.data)
        return part_of(lent, *self._place(lent, number, part))

    def span(self, number: int, part: int = 0) -> slice:
        """Where component() finds that part in the bytes. A part past the last is at the end of its element, and an
        element past the last at the end of the segment.

        The last element is the first that stops where the segment does, and the last component the first that stops
        where its element does."""
        start, length = self._place(lend("data", self.data), number, part)
        return slice(start, start + length)

    def _place(self, lent: Lent, number: int, part: int) -> Tuple[int, int]:
        """Start and length of a part. All is checked at each use: a frozen object can still be written to."""
        start, length, _ = lent
        element, component, _ = numbers_of("separators", self.separators)
        place, piece = checked_number("number", number, PLACE), checked_number("part", part, PLACE)
        span = Span()
        library.stormhlaw_lookup(start, length, element, component, place, piece, span)
        return span[0], span[1]
