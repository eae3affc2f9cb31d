"""The number of a quantity."""

from __future__ import annotations

from decimal import Decimal
from typing import NamedTuple, Optional

from stormhlaw._lending import Data, lend
from stormhlaw._library import Quantity, library


class Number(NamedTuple):
    """The number of a quantity. It is worth `value` times ten to the power of `exponent - places`, which is `decimal`.

    Two are equal where all four fields are: `1.0` and `1` are worth the same and are not equal, but their decimals are.
    """

    value: int
    """The digits before the exponent as one whole number, without the point and with the sign."""
    places: int
    """How many of these digits stand behind the point, 0 to 15."""
    exponent: int
    """The exponent, -99 to 99; 0 where none is written."""
    written: bool
    """Whether an exponent is written, be it 0."""

    @property
    def decimal(self) -> Decimal:
        """What the quantity is worth, exactly, whatever the decimal context is. A zero has no sign."""
        digits = tuple(map(int, str(abs(self.value))))
        return Decimal((int(self.value < 0), digits, self.exponent - self.places))


def number(text: Data) -> Optional[Number]:
    """The number of a quantity, or None where the text is no quantity.

    A quantity is an optional `-`; then digits, 1 to 15 with leading zeros counted, and at most one `.` before, among or
    behind them; then optionally an exponent, which is `E`, an optional `-` and one or two digits. NCA04 is one, and so
    are components 2, 3, 5, 6, 8, 9, 11, 12, 14 and 15 of NCA05: in an accepted report each of them that is not empty.

    `-0.50` has value -50 and 2 places; `5.E1` has value 5, no places and the exponent 1, which is written."""
    start, size, _owner = lend("text", text)
    five = Quantity()
    library.stormhlaw_number(start, size, five)
    fit, value, places, exponent, written = five
    return Number(value, places, exponent, bool(written)) if fit else None
