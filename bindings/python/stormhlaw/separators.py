"""The three separators of a transaction."""

from __future__ import annotations

from dataclasses import dataclass
from typing import Any, Tuple

from stormhlaw._checking import is_a, kind_of, one_byte


@dataclass(frozen=True)
class Separators:
    """The three separators of a transaction: each is one byte, given as bytes.

    A set that is unfit can be made; read() and rewrite() refuse it with Reason.SEPARATORS_UNFIT. Fit are three
    different bytes from 1 to 126 that are no letter, digit, space, `.` or `-`.
    """

    element: bytes = b"*"
    component: bytes = b":"
    terminator: bytes = b"~"

    def __post_init__(self) -> None:
        numbers_of("separators", self)

    def numbers(self) -> Tuple[int, int, int]:
        """The three bytes as numbers."""
        return numbers_of("separators", self)


def numbers_of(name: str, value: Any) -> Tuple[int, int, int]:
    """The three separators as numbers. They are checked at each use: a frozen object can still be written to."""
    if not is_a(value, Separators):
        raise TypeError(f"{name}: Separators wanted, not {kind_of(value)}")
    element, component, terminator = value.element, value.component, value.terminator
    # Mostly each is plain bytes of length 1, which is seen in a third of the time.
    if type(element) is type(component) is type(terminator) is bytes:
        if len(element) == len(component) == len(terminator) == 1:
            return element[0], component[0], terminator[0]
    return (
        one_byte(element, name, ".element"),
        one_byte(component, name, ".component"),
        one_byte(terminator, name, ".terminator"),
    )


STANDARD = Separators()
"""`*`, `:` and `~`."""
