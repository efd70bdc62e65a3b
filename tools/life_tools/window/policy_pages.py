"""Makes the page of a policy."""
from __future__ import annotations

import datetime
import os
from typing import Any

from life_tools.common.formats import MEASURES, MOST_NUMBER
from life_tools.valuations.printed_books import ValuedRow
from life_tools.reports.report_pages import money
from life_tools.reports.wording import NO_VALUE, STATUS_WORDS
from life_tools.rules.policies import completed
from life_tools.tables.basis import read_basis
from life_tools.window import pictures
from life_tools.window.asked import Asked, BadRequest
from life_tools.window.due_lists import of_policy
from life_tools.window.formulas import Explained, explained
from life_tools.window.views import View
from life_tools.window.parts import RIGHT, Answer, Cell, Head, Page, Table, cells, heads
from life_tools.window.policies import Known, curve_of, due_words, policy_at, standing_of, terms_of
from life_tools.window.valuations import kept_valuation, row_of

WORDS = ("at", "number", "on", "day", "measure")
MEASURE_WORDS = {"terminal": "terminal", "mean": "mean", "deficiency": "with the minimum (deficiency)"}


def policy(book: View, asked: Asked) -> Answer:
    """Returns what a policy is, what was posted, what is due, and its reserve if a day is chosen."""
    asked.only(WORDS)
    number = asked.number("number", 1, MOST_NUMBER, 0)
    if not number:
        raise BadRequest("Number of the policy: type the number of a policy")
    day, on = asked.day("day", book.today), asked.day_or_none("on")
    measure = asked.one_of("measure", MEASURES, "terminal")
    known = policy_at(book, number)
    if known is None:
        raise BadRequest(f"Number of the policy: there is no policy {number} at position {book.at:,}")
    reserve = reserve_of(book, known, on, measure) if on else {}
    values = {"policy": known.policy, "terms": terms_of(known.policy), "standing": standing_of(known.policy),
              "postings": postings_of(known), "day": day, "on": on, "measure": measure,
              "due": [(what, due_words(what, it)) for what, it in of_policy(known.policy, day)],
              "measures": [(each, MEASURE_WORDS[each]) for each in MEASURES], **picture_of(book, known, on), **reserve,
              "anniversaries": anniversaries_near(known, book, day, measure)}
    return Page("policy.html", f"Policy {number}", values)


def postings_of(known: Known) -> Table:
    rows = []
    for step in known.steps:
        it = step.command
        booked = ", ".join(f"{account} {money(cents)}" for account, cents in step.booked.items())
        rows.append([*cells((step.position,)), Cell(str(it.day)), Cell(it.kind), Cell(money(it.amount) if it.amount else ""),
                     Cell(money(it.premium) if it.premium else ""), Cell(booked or "nothing")])
    names = [Head("position", RIGHT), Head("day"), Head("posting"), Head("amount", RIGHT), Head("premium", RIGHT)]
    return Table("Postings", [*names, Head("booked", "says")], rows)


def anniversaries_near(known: Known, book: View, day: datetime.date, measure: str) -> list[tuple[str, str]]:
    """Returns days for which the reserve is likely to be asked: the ends of the last years that the postings reach."""
    first, last = known.policy.issued.year, max(known.policy.last.year, known.policy.issued.year)
    years = [year for year in range(last, last - 3, -1) if year >= first]
    words: dict[str, object] = {"number": known.policy.number, "day": day, "measure": measure if measure != "terminal" else ""}
    return [(f"{year}-12-31", book.link("policy", **words, on=f"{year}-12-31")) for year in sorted(years)]


def reserve_of(book: View, known: Known, on: datetime.date, measure: str) -> dict[str, Any]:
    """Returns the printed row of the whole book's valuation, and the same row worked out."""
    valuation = kept_valuation(book, on, measure)
    row = row_of(valuation, known.policy.number)
    if row is None:
        raise BadRequest(f"Number of the policy: the valuation has no row of policy {known.policy.number}")
    printed: ValuedRow = row
    names = ("lower bound", "upper bound", "minimum, lower", "minimum, upper")
    basis = read_basis(os.path.join(book.desk, book.basis.name))
    key = "why", book.basis.name, known.policy.number, book.at, on, measure
    worked = book.kept(key, f"the reserve of policy {known.policy.number}, worked out",
                       lambda job: explained(known.policy, book.at, on, basis, measure, printed))
    assert isinstance(worked, Explained)
    rates = Table("Rates of death", heads(("year", "age", "rate"), 0), [cells((it[0] + 1, *it[1:])) for it in worked.rates])
    bounds = [(name, money(cents)) for name, cents in zip(names, row.bounds)]
    others = book.other_bases() if measure != "deficiency" else []
    return {"row": row, "no_value": NO_VALUE.get(row.word, ""), "status": STATUS_WORDS[row.status], "bounds": bounds,
            "worked": worked, "rates": rates, "other_bases": others}


def picture_of(book: View, known: Known, on: datetime.date | None) -> dict[str, Any]:
    it = known.policy
    if it.status not in ("inforce", "paidup"):
        return {"picture": "", "curve": None}
    curve = curve_of(book, known)
    points = [(place, row.bounds[1], str(day)) for place, (day, row) in enumerate(curve.rows) if not row.word]
    if len(points) < 2:
        return {"picture": "", "curve": None}
    chosen = min(completed(it.issued, on), points[-1][0]) if on and on >= it.issued else None
    says = f"The reserve of policy {it.number} by policy years, from {money(points[0][1])} to {money(points[-1][1])}"
    names = [Head("year", RIGHT), Head("anniversary"), Head("lower bound", RIGHT), Head("upper bound", RIGHT)]
    table = Table("The reserve on each anniversary", names,
                  [[*cells((place,)), Cell(str(day)), *cells(map(money, row.bounds) if not row.word else (row.word, ""))]
                   for place, (day, row) in enumerate(curve.rows)])
    drawn = pictures.Curve(points, chosen, says)
    return {"picture": drawn.svg(), "curve": table}
