"""Finds what is due on a day, by kind, among the policies of a position as `due` does, and keeps it for the pages of its
lists."""
from __future__ import annotations

import datetime
from dataclasses import dataclass
from typing import Iterator

from life_tools.common.arrays import Array, np
from life_tools.journal.day_columns import day_at, number_at
from life_tools.common.formats import money
from life_tools.journal.policy_columns import Policies, policies_in
from life_tools.reports.due_items import SENT, WHATS, Due, Items
from life_tools.rules.policies import Policy
from life_tools.rules.tables import NEVER
from life_tools.window.jobs import Job
from life_tools.window.kept_columns import keep, kept
from life_tools.window.views import View

# the kinds whose lines to send need an amount as well as the day
WITH_AMOUNT = ("premium", "grace", "reinstate", "settle")
KIND_OF = {"grace": "premium"}
TITLES = {"premium": "Premiums due", "grace": "In the days of grace", "lapse": "To be lapsed", "mature": "Maturities",
          "reinstate": "May be reinstated", "settle": "To be settled"}
SAYS = {
    "premium": "Due on the day or within the days asked for.",
    "grace": "Was due before the day, and can still be paid on it.",
    "lapse": "No premium can be paid any more: the policy is in arrears.",
    "mature": "The insurance has ended, or ends within the days asked for.",
    "reinstate": "Lapsed, and can be put in force on the day for the amount.",
    "settle": "What is still to be paid of a claim or a maturity.",
}
SORTED = {"policy": "number", "day": "day", "until": "until", "amount": "cents"}


@dataclass
class DueOn:
    """What is due: the folder with the items, and for each kind their number and their sum."""

    path: str
    day: datetime.date
    within: int
    sums: dict[str, tuple[int, int]]

    def items(self, what: str) -> Due:
        """Returns the items of a kind."""
        found = Due(*kept(self.path, Due._fields))
        chosen = np.flatnonzero(found.what == WHATS.index(what))
        return Due(*(column[chosen] for column in found))


@dataclass(frozen=True)
class Item:
    """One item: the policy, the day, the last day or None, and the cents."""

    policy: int
    day: datetime.date
    until: datetime.date | None
    cents: int
    first: datetime.date


def due_on(book: View, day: datetime.date, within: int) -> DueOn:
    # what an earlier position needs is made first, and not as part of this work
    policies = book.policies()
    found = book.kept(("due", day, within, book.at), f"what is due on {day}", lambda job: made(book, policies, day, within, job))
    assert isinstance(found, DueOn)
    return found


def made(book: View, policies: Policies, day: datetime.date, within: int, job: Job) -> DueOn:
    job.at("looking through the policies")
    items = Items(policies, number_at(day), within).find_all()
    sums = {}
    for code, what in enumerate(WHATS):
        cents = items.cents[items.what == code]
        sums[what] = len(cents), int(cents.sum())
    path = book.copy.new_file()
    keep(path, Due._fields, items)
    return DueOn(path, day, within, sums)


def items_in(found: Due, places: Array) -> Iterator[Item]:
    columns = (column[places].tolist() for column in (found.number, found.day, found.until, found.cents, found.first))
    for number, day, until, cents, first in zip(*columns):
        yield Item(number, day_at(day), None if until == NEVER else day_at(until), cents, day_at(first))


def page_of(it: DueOn, what: str, sort: str, is_falling: bool, page: int, size: int) -> list[Item]:
    found = it.items(what)
    order = np.lexsort((found.number, getattr(found, SORTED[sort])))
    order = order[::-1] if is_falling else order
    return list(items_in(found, order[(page - 1) * size:page * size]))


def csv_rows(it: DueOn, what: str) -> Iterator[list[str]]:
    """Yields the rows as `due` prints them."""
    found = it.items(what)
    yield ["what", "policy", "day", "until", "amount"]
    for item in items_in(found, np.arange(len(found.what))):
        yield [what, str(item.policy), str(item.day), str(item.until or ""), money(item.cents)]


def lines_to_send(it: DueOn, what: str) -> Iterator[str]:
    """Yields lines of a script.

    Lines of a kind that brings or takes money are true only once the money has come in or gone out.
    """
    found = it.items(what)
    for item in items_in(found, np.lexsort((found.number, found.first))):
        amount = [money(item.cents)] if what in WITH_AMOUNT else []
        yield ",".join(["1", KIND_OF.get(what, what), str(item.policy), str(item.first), *amount])


def is_sent_as_it_stands(what: str) -> bool:
    return what in SENT


def of_policy(policy: Policy, day: datetime.date) -> list[tuple[str, Item]]:
    """Returns what is due for one policy on a day."""
    found = Items(policies_in([policy]), number_at(day), 0).find_all()
    return [(WHATS[what], item) for what, item in zip(found.what.tolist(), items_in(found, np.arange(len(found.what))))]
