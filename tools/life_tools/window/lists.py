"""Finds lists of policies by conditions, in an order, fifty on a page."""
from __future__ import annotations

import sqlite3
from dataclasses import dataclass
from typing import Any, NamedTuple

from life_tools.common.arrays import np
from life_tools.common.formats import MOST_COMMANDS, PLANS, STATUSES
from life_tools.valuations.groups import added
from life_tools.journal.policy_columns import Policies
from life_tools.window.asked import Asked

A_PAGE = 50
SORTED = {"policy": "policy", "status": "status", "plan": "plan", "age": "age", "amount": "amount_cents",
          "premium": "premium_cents", "issued": "issued", "paid": "premiums_paid", "paid_to": "paid_to", "next_due": "next_due",
          "outstanding": "outstanding_cents", "last": "last_posted"}
WORDS = ("number", "from", "to", "plan", "status", "sort", "order", "page")
MOST_DIGITS = 10


@dataclass(frozen=True)
class Sought:
    """What is looked for; an empty field means any."""

    number: str
    issued_from: str
    issued_to: str
    plan: str
    status: str
    sort: str
    is_falling: bool
    page: int

    def words(self) -> dict[str, str]:
        """Returns the conditions as arguments of a request."""
        found = {"number": self.number, "from": self.issued_from, "to": self.issued_to, "plan": self.plan, "status": self.status,
                 "sort": self.sort if self.sort != "policy" else "", "order": "down" if self.is_falling else "",
                 "page": str(self.page) if self.page > 1 else ""}
        return {name: text for name, text in found.items() if text}


@dataclass(frozen=True)
class Found:
    """A page of a list: its rows, and the number of all rows."""

    rows: list[sqlite3.Row]
    count: int

    @property
    def pages(self) -> int:
        return max(-(-self.count // A_PAGE), 1)


def sought_in(asked: Asked) -> Sought:
    first, last = asked.day_or_none("from"), asked.day_or_none("to")
    return Sought(asked.digits("number", MOST_DIGITS), str(first or ""), str(last or ""),
                  asked.one_of("plan", list(PLANS.values())), asked.one_of("status", STATUSES),
                  asked.one_of("sort", SORTED, "policy"), asked.one_of("order", ("up", "down")) == "down",
                  asked.number("page", 1, MOST_COMMANDS, 1))


def condition(sought: Sought, position: int) -> tuple[str, list[Any]]:
    """Returns the condition of a query and its parameters; texts of a request are only ever parameters."""
    parts, given = ["since <= ?", "until > ?"], [position, position]
    values: list[Any] = list(given)
    if sought.number:
        parts.append("cast(policy as text) like ?")
        values.append(f"%{sought.number}%")
    for text, part in ((sought.issued_from, "issued >= ?"), (sought.issued_to, "issued <= ?"), (sought.plan, "plan = ?"),
                       (sought.status, "status = ?")):
        if text:
            parts.append(part)
            values.append(text)
    return " and ".join(parts), values


def made_order(database: sqlite3.Connection, column: str) -> str:
    """Returns the clause that uses an index on this column, or "".

    The indexes are made after the first page is shown, so one may not exist yet.
    """
    name = f"policy_by_{column}"
    made = database.execute("select 1 from sqlite_master where type = 'index' and name = ?", (name,)).fetchone()
    return f"indexed by {name}" if made else ""


def found_in(database: sqlite3.Connection, sought: Sought, position: int) -> Found:
    """Returns a page; a page in the second half of a long list is read from the end, which is as fast as from the beginning."""
    where, values = condition(sought, position)
    count: int = database.execute(f"select count(*) from policy where {where}", values).fetchone()[0]
    pages = max(-(-count // A_PAGE), 1)
    page = min(sought.page, pages)
    begin = (page - 1) * A_PAGE
    size = max(min(A_PAGE, count - begin), 0)
    is_back = begin > count // 2
    falling = sought.is_falling != is_back
    column, way = SORTED[sought.sort], "desc" if falling else "asc"
    order = f"{column} {way}" if column == "policy" else f"{column} {way}, policy {way}"
    skipped = count - begin - size if is_back else begin
    # only the rowids of skipped rows are read
    places = f"select rowid from policy {made_order(database, column)} where {where} order by {order} limit ? offset ?"
    rows = database.execute(f"select * from policy where rowid in ({places}) order by {order}", [*values, size, skipped])
    found = rows.fetchall()
    return Found(found[::-1] if is_back else found, count)


def has_policy(database: sqlite3.Connection, number: int, position: int) -> bool:
    row = database.execute("select 1 from policy where policy = ? and since <= ? and until > ?", (number, position, position))
    return row.fetchone() is not None


class Kind(NamedTuple):
    """Policies of one plan and status: their number, and their amounts."""

    plan: str
    status: str
    policies: int
    cents: int


def kinds_of(policies: Policies) -> list[Kind]:
    """Returns the number of policies and their amounts by plan and status, if there are any."""
    code = policies.plan.astype(np.int64) * (len(STATUSES) + 1) + policies.status
    most = (len(PLANS) + 1) * (len(STATUSES) + 1)
    counts, cents = np.bincount(code, minlength=most).tolist(), added(code, most, policies.amount)
    names = ((number * (len(STATUSES) + 1) + state, plan, status)
             for number, plan in PLANS.items() for state, status in enumerate(STATUSES, 1))
    return [Kind(plan, status, counts[place], cents[place]) for place, plan, status in names if counts[place]]
