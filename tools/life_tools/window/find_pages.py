"""Makes the lists of policies."""
from __future__ import annotations

from typing import Any

from life_tools.common.formats import PLANS, STATUSES
from life_tools.reports.report_pages import money
from life_tools.reports.wording import STATUS_WORDS
from life_tools.window.asked import Asked
from life_tools.window.lists import A_PAGE, SORTED, WORDS, Sought, found_in, has_policy, sought_in
from life_tools.window.views import View, paged_words, turns
from life_tools.window.parts import RIGHT, Answer, Cell, Elsewhere, Head, Page, Table, sorting_head

COLUMNS = (("policy", "policy", RIGHT), ("status", "status", ""), ("plan", "plan", ""), ("age", "age at issue", RIGHT),
           ("issued", "issued", ""), ("amount", "amount insured", RIGHT), ("premium", "premium", RIGHT),
           ("paid", "premiums paid", RIGHT), ("next_due", "next due", ""), ("outstanding", "outstanding", RIGHT),
           ("last", "last posting", ""))
MONEY = ("amount_cents", "premium_cents", "outstanding_cents")


def policy_cell(book: View, number: int | None) -> Cell:
    return Cell(str(number), book.link("policy", number=number)) if number else Cell("")


def find(book: View, asked: Asked) -> Answer:
    """Returns a list of policies; if the number sought finds only one, its page; if a policy has exactly this number, a link to
    it."""
    asked.only(("at", *WORDS))
    sought = sought_in(asked)
    with book.lists() as database:
        found = found_in(database, sought, book.at)
        is_one = bool(sought.number) and found.count > 1 and has_policy(database, int(sought.number), book.at)
    if found.count == 1 and sought.number:
        return Elsewhere(book.link("policy", number=found.rows[0]["policy"]))
    table = Table("Policies", [head(book, sought, *column) for column in COLUMNS],
                  [[cell(book, row, name) for name, _, _ in COLUMNS] for row in found.rows], kind="list")
    page = min(sought.page, found.pages)
    first = (page - 1) * A_PAGE
    exact = book.link("policy", number=int(sought.number)) if is_one else ""
    values = {"table": table, "sought": sought, "exact": exact, "count": found.count, "page": page, "pages": found.pages,
              "turns": turns(lambda to: book.link("find", **paged_words(sought.words(), to)), page, found.pages),
              "first": first + 1 if found.count else 0, "last": first + len(found.rows), "plans": list(PLANS.values()),
              "statuses": [(each, STATUS_WORDS[each]) for each in STATUSES],
              "sorts": [(name, says) for name, says, _ in COLUMNS]}
    return Page("find.html", "Find a policy", values)


def head(book: View, sought: Sought, name: str, says: str, kind: str) -> Head:
    way = ("descending" if sought.is_falling else "ascending") if sought.sort == name else ""
    words = {**sought.words(), "sort": name, "page": ""}
    return sorting_head(says, kind, way, lambda order: book.link("find", **{**words, "order": order}))


def cell(book: View, row: Any, name: str) -> Cell:
    column = SORTED[name]
    value = row[column]
    if name == "policy":
        return policy_cell(book, value)
    if name == "status":
        return Cell(STATUS_WORDS[value])
    if column in MONEY:
        return Cell(money(value) if value or name != "outstanding" else "")
    return Cell("" if value is None else str(value))
