"""The order of levels that are listed under their parents."""

from __future__ import annotations

from typing import Any, List, Union

from stormhlaw._checking import is_a, kind_of
from stormhlaw._lending import Data, lend, part_of, unwritten
from stormhlaw._library import LEVEL_NUMBERS, Walked, library
from stormhlaw.records import Levels, as_numbers


class WalkRefused(Exception):
    """The level table is refused: `number` is the answer's, which is 20, and `level` the first level that is unfit."""

    def __init__(self, number: int, level: int) -> None:
        super().__init__(number, level)
        self.number = number
        self.level = level

    def __str__(self) -> str:
        return f"refused {self.number} level {self.level}"


def walk(levels: Union[Levels, Data]) -> List[int]:
    """The numbers of the levels as they are listed under their parents: each level without a parent, and under it its
    children, each followed by its own children. Every level appears exactly once. Children of one parent, and levels
    without one, come in file order.

    `levels` are those of a report, or a level table: bytes, or a bytearray or memoryview, whose bytes are taken as they
    lie. They are numbers of eight bytes, four a level, as `level_table` has them. What is less than a level at the end
    is not looked at.

    A table may be anyone's, and WalkRefused is raised unless each of its levels is fit: its parent is 0 and its depth
    1, or its parent is an earlier level and its depth one more than the parent's; and its depth is at most 4. Segments
    and codes are not looked at.
    """
    table = _table_of(levels)
    # Each number has eight bytes.
    numbers = len(table) // 8
    count = numbers // LEVEL_NUMBERS
    order, answer = unwritten(8 * count), Walked()
    library.stormhlaw_walk(table, numbers, count, order, count, answer)
    number, level = answer
    if number != 0:
        raise WalkRefused(number, level)
    return as_numbers(order).tolist()


def _table_of(levels: Any) -> bytes:
    """The bytes of the table. A part of other bytes is copied: it may start where no number may."""
    if not any(is_a(levels, kind) for kind in (Levels, bytes, bytearray, memoryview)):
        raise TypeError(f"levels: Levels, bytes, bytearray or memoryview wanted, not {kind_of(levels)}")
    lent = lend("levels", levels.table if is_a(levels, Levels) else levels)
    return part_of(lent, 0, lent[1])
