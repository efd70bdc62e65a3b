"""Finds the positions of a day in a journal whose commands are not in the order of their days.

The days of one policy's commands never decrease, but the commands of different policies may have been posted in any order.
Therefore there may be no position that has exactly the commands up to a day. *The first* position is the last one up to which
every command is of the day or an earlier one; it lacks the commands of such days that were posted after a command of a later day.
*The last* position is that of the last command of the day or an earlier one; it includes commands of later days.

The caller gives the days as numbers in the order of the commands; the value for an upgrade, which has no day, is ignored.
"""
from __future__ import annotations

from array import array
from typing import NamedTuple, Union

from life_tools.common.arrays import Array, np


class OnDay(NamedTuple):
    """The first position of a day and the positions it lacks; the last one and the positions before it that are of later days."""

    first: int
    last: int
    lacked: list[int]
    ahead: list[int]

    def at(self, is_last: bool) -> int:
        return self.last if is_last else self.first

    def astray(self, is_last: bool) -> list[int]:
        """Returns the positions of the commands that this position wrongly lacks or wrongly includes."""
        return self.ahead if is_last else self.lacked

    def told(self, is_last: bool, day: str) -> str:
        """Returns a sentence that says how many commands the position wrongly lacks or includes."""
        many = len(self.astray(is_last))
        if is_last:
            return f"position {self.last} has commands of days after {day}: {many}"
        return f"position {self.first} lacks commands of {day} or before, which were posted after one of a later day: {many}"


def on_day(days: Union[Array, array[int]], day: int, upgrade: int = 0) -> OnDay:
    """Returns the first and the last position of a day; `upgrade` is the position of the upgrade, or 0."""
    later = np.asarray(days) > day
    before = ~later
    if upgrade:
        later[upgrade - 1] = before[upgrade - 1] = False
    first = int(later.argmax()) if later.any() else len(later)
    lacked = (np.flatnonzero(before[first:]) + first + 1).tolist()
    last = lacked[-1] if lacked else first
    ahead = (np.flatnonzero(later[first:last]) + first + 1).tolist()
    return OnDay(first, last, lacked, ahead)
