"""Makes a statement, its facts and its sheets, for one book between two moments or for several books together."""
from __future__ import annotations

from dataclasses import dataclass
from typing import Sequence

from life_tools.common.arrays import np
from life_tools.reports.basis_sheet import basis_sheet
from life_tools.reports.claim_sheet import Claims, claim_sheet
from life_tools.reports.exhibits import LifeExhibit, exhibit_sheet
from life_tools.common.formats import demand
from life_tools.reports.increase_sheet import Increase, increase_sheet, increases_added
from life_tools.reports.periods import Asked, Period, period_of
from life_tools.reports.posted_steps import steps_of
from life_tools.reports.premium_sheet import Collected, Uncollected, premium_sheet
from life_tools.common.progress import Progress
from life_tools.reports.reserve_cases import Cases, cases_of
from life_tools.reports.sheets import Sheet, added


@dataclass
class Statement:
    """What the statement is of, by name (days, positions, bases, the measure), and its sheets."""

    facts: dict[str, str]
    sheets: list[Sheet]


def facts_of(asked: Asked) -> dict[str, str]:
    return {"from": f"{asked.on1} at position {asked.first}", "to": f"{asked.on2} at position {asked.last}",
            "reserves": asked.reserves(), "basis": ", ".join(asked.bases.names)}


def sheets_of(period: Period) -> list[Sheet]:
    """Returns all sheets, and raises NotWhole if a sum is not what the program printed."""
    cases = cases_of(period.closing.policies, period.row, period.rows)
    exhibit, increase, claims, collected = LifeExhibit(), Increase(period, cases), Claims(), Collected()
    for steps in steps_of(period):
        exhibit.take(steps)
        increase.take(steps)
        claims.take(steps)
        collected.take(steps)
    increase.close()
    uncollected = Uncollected(period, cases)
    price(cases, period.asked.measure, increase, uncollected)
    return [exhibit_sheet(period, exhibit), basis_sheet(period), premium_sheet(period, collected, uncollected),
            increase_sheet(period, increase), claim_sheet(period, claims)]


def price(cases: Cases, measure: str, *priced: Increase | Uncollected) -> None:
    """Computes what 1 of each needed case is worth, once for all sheets."""
    wanted = np.unique(np.concatenate([each.cases for each in priced])).tolist()
    progress = Progress("reserves", len(wanted))
    for place, case in enumerate(wanted):
        units = cases.units(case, measure)
        for each in priced:
            each.price(case, units)
        progress.at(place)
    progress.end()


def statement_of(asked: Asked) -> Statement:
    """Returns the statement of a book.

    Raises Wrong if it cannot be made, and NotWhole, which is a kind of Wrong, if it does not add up.
    """
    return Statement(facts_of(asked), sheets_of(period_of(asked)))


def of_books(names: Sequence[str], statements: Sequence[Statement]) -> Statement:
    """Returns the statement of several books together, which must be of the same days and measure."""
    first = statements[0]
    for name, statement in zip(names, statements):
        alike = all(days(statement.facts[key]) == days(first.facts[key]) for key in ("from", "to", "reserves"))
        demand(alike, f"the statement of {name} is of other days or reserves than that of {names[0]}")
    facts = {"from": days(first.facts["from"]), "to": days(first.facts["to"]), "reserves": first.facts["reserves"],
             "books": ", ".join(names)}
    return Statement(facts, [together(sheets) for sheets in zip(*(statement.sheets for statement in statements))])


def together(sheets: Sequence[Sheet]) -> Sheet:
    return added(sheets) if sheets[0].exact is None else increases_added(sheets)


def days(fact: str) -> str:
    return fact.partition(" at position ")[0]
