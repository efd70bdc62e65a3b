"""Keeps columns of what a book was at each of its positions: the latest day so far, what was insured, and what was booked.

A column has one value for each posting, in their order, so that a value at a position is found without reading the earlier
postings again.
"""
from __future__ import annotations

from dataclasses import dataclass, fields

from life_tools.common.arrays import Array, Cents, np
from life_tools.common.formats import demand
from life_tools.journal.columns import Columns
from life_tools.journal.day_columns import anniversaries
from life_tools.journal.policy_columns import is_insured
from life_tools.journal.positions import OnDay, on_day
from life_tools.journal.records import ALTER, CLAIM, ISSUE, LAPSE, MATURE, PAIDUP, PREMIUM, REINSTATE, UPGRADE
from life_tools.journal.replays import stable_order

# the kinds of postings after which a policy is insured, and those after which it no longer is; other kinds do not change this
BEGINS, ENDS = (ISSUE, REINSTATE), (LAPSE, CLAIM, MATURE)
SETS_AMOUNT, SETS_PREMIUM = (ISSUE, ALTER, PAIDUP), (ISSUE, ALTER)
# earlier than every day; used for an upgrade, which has no day
NO_DAY = np.int32(-2**31)
# a day to come is far ahead if it is so many days after today and after the last posting before it
FAR = 366


@dataclass(frozen=True)
class History:
    """The columns of a book's history, with one value for each position.

    They are: the latest day so far; the policy's place; the kind of the posting, its day, and the cents that it booked; how many
    premiums it paid, and the day on which the first of them was due; the number of insured policies and the amount insured after
    it.
    """

    latest: Array
    place: Array
    kind: Array
    day: Array
    booked: Cents
    paid: Array
    due: Array
    lives: Array
    insured: Cents

    def __len__(self) -> int:
        return len(self.kind)

    def days(self) -> Array:
        """Returns the days of the postings that have one."""
        found: Array = self.day[self.day != NO_DAY]
        return found

    def last_day(self, today: int) -> int | None:
        """Returns the last day that has a posting, or None. A day far ahead, which somebody may have mistyped, does not count,
        nor does any later day."""
        days = self.days()
        past, to_come = days[days <= today], days[days > today]
        some = (np.flatnonzero(np.bincount(to_come - today)) + today).tolist()
        last = int(past.max()) if len(past) else None
        for day in some:
            if last is not None and day - max(last, today) > FAR:
                break
            last = day
        return last

    def on_day(self, day: int) -> OnDay:
        """Returns the first and the last position of a day, and what each of them lacks or has too much."""
        upgrades = np.flatnonzero(self.kind == UPGRADE)
        return on_day(self.day, day, int(upgrades[0]) + 1 if len(upgrades) else 0)

    def position_on(self, day: int) -> int:
        """Returns the last position up to which every posting is of the day or an earlier one."""
        return int(np.searchsorted(self.latest, day, "right"))


def carried(values: Array, is_set: Array, begins: Array) -> Array:
    """Returns for each row the value of the last row that sets one.

    The rows are sorted by policy, and each policy begins with a row that sets a value.
    """
    at = np.where(is_set | begins, np.arange(len(values), dtype=np.int32), 0)
    found: Array = values[np.maximum.accumulate(at)]
    return found


def before(values: Array, begins: Array) -> Array:
    """Returns for each row the value of the row before it, or 0 for the first row of a policy."""
    found: Array = np.concatenate([values[:1] * 0, values[:-1]])
    found[begins] = 0
    return found


def added_within(values: Array, begins: Array) -> Array:
    """Returns for each row the sum of the earlier values of the same policy."""
    total = np.cumsum(values, dtype=np.int64) - values
    found: Array = total - carried(total, begins, begins)
    return found


def history_of(book: Columns) -> History:
    """Returns the history of a book, and checks that what is insured at its end equals what its policies say."""
    records = book.records
    day = np.where(book.place >= 0, records.day, NO_DAY)
    lives, insured = np.zeros(book.count, np.int32), np.zeros(book.count, np.int64)
    pays, due = np.zeros(book.count, np.int16), np.zeros(book.count, np.int32)
    order = stable_order(book.place)
    order = order[book.place[order] >= 0]
    place, kind = book.place[order], records.kind[order]
    begins = np.diff(place, prepend=-1) != 0
    amount = carried(records.amount[order], np.isin(kind, SETS_AMOUNT), begins)
    status = carried(np.isin(kind, BEGINS).astype(np.int8), np.isin(kind, (*BEGINS, *ENDS)), begins)
    lives[order] = status - before(status, begins)
    insured[order] = status * amount - before(status * amount, begins)
    premium = carried(records.premium[order], np.isin(kind, SETS_PREMIUM), begins)
    paid = np.where(kind == PREMIUM, 1, np.where(kind == REINSTATE, records.amount[order] // np.maximum(premium, 1), 0))
    pays[order] = paid
    due[order] = anniversaries(book.policies.issued[place], np.minimum(added_within(paid, begins), 199))
    found = History(np.maximum.accumulate(day), book.place, records.kind, day, book.booked, pays, due,
                    np.cumsum(lives, dtype=np.int32), np.cumsum(insured))
    demand_same(found, book)
    return found


def demand_same(found: History, book: Columns) -> None:
    """Raises Wrong unless the sums over all postings equal what the policies say at the end."""
    is_covered = is_insured(book.policies)
    wanted = int(np.count_nonzero(is_covered)), int(book.policies.amount[is_covered].sum())
    made = (int(found.lives[-1]), int(found.insured[-1])) if len(found) else (0, 0)
    demand(made == wanted, f"the postings leave {made} insured, and the policies say {wanted}")


NAMES = tuple(column.name for column in fields(History))
