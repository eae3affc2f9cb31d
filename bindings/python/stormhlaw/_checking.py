"""Checks of arguments. A message names the argument, says what is wanted and what came.

Types are asked with issubclass(type(..)), which no object can answer for itself, and a value of a subclass is looked
at by the methods of the type itself, so that what is checked is what the library gets.
"""

from __future__ import annotations

from typing import Any, NamedTuple, Optional

_name_of: Any = vars(type)["__name__"].__get__


class Bound(NamedTuple):
    """The most that a number may be, and how that is written."""

    most: int
    written: str


COUNT = Bound(2**31, "2**31")
"""For counts of bytes and records."""

PLACE = Bound(2**64 - 1, "2**64 - 1")
"""For numbers of elements and components."""


def is_a(value: object, kind: type) -> bool:
    """Whether the value is of that type or of a subclass, whatever its __class__ says."""
    return issubclass(type(value), kind)


def kind_of(value: object) -> str:
    """What a message calls a value of a wrong type."""
    return "None" if value is None else str(_name_of(type(value)))


def _shown(number: int) -> str:
    """A number as a message shows it."""
    bits = number.bit_length()
    return str(number) if bits <= 128 else f"one of {bits} bits"


def number(name: str, value: Any, bound: Bound, wanted: str = "a number") -> int:
    """The number that is given, from 0 to the bound."""
    if not is_a(value, int) or type(value) is bool:
        raise TypeError(f"{name}: {wanted} wanted, not {kind_of(value)}")
    exact = int.__index__(value)
    if not 0 <= exact <= bound.most:
        raise ValueError(f"{name}: a number from 0 to {bound.written} wanted, not {_shown(exact)}")
    return exact


def count(name: str, value: Any, enough: int, default: Optional[int] = None) -> int:
    """The count that is given, but no more than is enough; where none is given, the default, or what is enough."""
    if value is None:
        return enough if default is None else min(default, enough)
    return min(number(name, value, COUNT, "a number or None"), enough)


def one_byte(value: Any, name: str, field: str = "") -> int:
    """The only byte of the bytes that are given, as a number. The argument is `name`, or its field."""
    if not is_a(value, bytes):
        raise TypeError(f"{name}{field}: bytes wanted, not {kind_of(value)}")
    size = bytes.__len__(value)
    if size != 1:
        raise ValueError(f"{name}{field}: one byte wanted, not {size} bytes")
    return bytes.__getitem__(value, 0)
