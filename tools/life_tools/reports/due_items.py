"""Finds what is due on a day among the policies of a book: premiums, lapses, maturities, reinstatements and settlements."""
from __future__ import annotations

from typing import NamedTuple

from life_tools.common.arrays import Array, Cents, np
from life_tools.journal.day_columns import LAST
from life_tools.journal.policy_columns import Policies, is_insured, missed_by
from life_tools.rules.tables import GRACE_DAYS, LAPSED, NEVER, TERM, reinstatement_limit

WHATS = ("premium", "grace", "lapse", "mature", "reinstate", "settle")
PREMIUM, IN_GRACE, LAPSE, MATURE, REINSTATE, SETTLE = range(len(WHATS))
SENT = ("lapse", "mature")
MOST_DAYS = 366


class Due(NamedTuple):
    """Items as columns: index in WHATS; day; policy; last day or NEVER; cents; the first day on which its line is accepted."""

    what: Array
    day: Array
    number: Array
    until: Array
    cents: Cents
    first: Array


class Items:
    """Finds what is due for policies from a first to a last day; no policy accepts a line before its own first day."""

    def __init__(self, policies: Policies, day: int, within: int) -> None:
        self.last = min(day + within, LAST)
        first = np.maximum(policies.last, day)
        taking = first <= self.last
        self.of, self.first, self.due = policies.at(taking), first[taking], policies.due[taking]
        self.found: list[Due] = []

    def find(self, what: int, chosen: Array, day: Array, until: Array | int, cents: Cents, first: Array) -> None:
        """Adds an item for each policy that `chosen` marks; the other arguments have values for all policies."""
        count = int(np.count_nonzero(chosen))
        until = until[chosen] if isinstance(until, np.ndarray) else np.full(count, until, np.int32)
        self.found.append(Due(np.full(count, what), day[chosen], self.of.number[chosen], until, cents[chosen], first[chosen]))

    def find_all(self) -> Due:
        of, insured = self.of, is_insured(self.of)
        self.paying(insured & (self.due != NEVER))
        self.find(SETTLE, of.outstanding > 0, of.last, NEVER, of.outstanding, self.first)
        self.lapsed(of.status == LAPSED)
        items = Due(*(np.concatenate(column) for column in zip(*self.found)))
        # kind, day and number together are unique
        order = np.lexsort((items.number, items.day, items.what))
        return Due(*(column[order] for column in items))

    def paying(self, paying: Array) -> None:
        """Finds the items of policies with a premium to come, which `paying` marks, and the maturities of all insured
        policies."""
        of, first, due = self.of, self.first, self.due
        grace_end = np.where(paying, due, 0) + GRACE_DAYS
        self.find(LAPSE, paying & (first > grace_end), due, grace_end, of.premium, first)
        paying &= (first <= grace_end) & (due <= self.last)
        self.find(PREMIUM, paying & (first <= due), due, grace_end, of.premium, due)
        self.find(IN_GRACE, paying & (first > due) & (first < of.end), due, grace_end, of.premium, first)
        ended = np.maximum(of.end, first)
        self.find(LAPSE, paying & (ended > grace_end) & (grace_end < self.last), due, grace_end, of.premium, grace_end + 1)
        # policies that take no further premium, or whose cover ends within the grace of one
        ending = (paying & (ended <= grace_end)) | (is_insured(of) & (due == NEVER))
        self.find(MATURE, ending & (ended <= self.last), of.end, NEVER, np.where(of.plan == TERM, 0, of.amount), ended)

    def lapsed(self, lapsed: Array) -> None:
        """Finds the policies that can be reinstated, for the premiums missed up to their first day."""
        of = self.of
        until = np.minimum(reinstatement_limit(of), of.end - 1)
        self.find(REINSTATE, lapsed & (self.first <= until), of.last, until, missed_by(of, self.first) * of.premium, self.first)
