"""Checks a printed valuation: each row must enclose the exact value, computed independently, and the total must be their sum."""
from __future__ import annotations

import datetime
from fractions import Fraction
from typing import Sequence

from life_tools.common.formats import Wrong, day_in, demand, measure_of, money, printed_cents
from life_tools.reserves.exact import Known, minimum_worth, worth
from life_tools.rules.policies import Policy
from life_tools.tables.basis import BasisRow

# a lower and an upper bound are at most so many cents apart
WIDEST = 2
# and the bounds of a net premium of 1 are at most this far apart
WIDEST_PREMIUM = Fraction(100_000, 10**16)


class Totals:
    """The sums of the bounds of the rows so far, and the number of rows with a word."""

    def __init__(self, measure: str) -> None:
        self.sums = [0] * (4 if measure == "deficiency" else 2)
        self.words = 0

    def add(self, bounds: Sequence[int]) -> None:
        self.sums = [one + other for one, other in zip(self.sums, bounds)]

    def line(self) -> list[str]:
        return ["total", *(money(cents) for cents in self.sums), str(self.words)]


def demand_encloses(lower: int, upper: int, exact: Fraction, row: list[str]) -> None:
    demand(lower <= exact <= upper <= lower + WIDEST,
           f"{','.join(row)} doesn't enclose the exact value, which is {float(exact / 100):.6f}")


def check_minimum(row: list[str], bounds: Sequence[int], minimum: tuple[Fraction, Fraction] | None, policy: Policy) -> None:
    """Raises Wrong unless the minimum bounds and the last word are right for the policy's premium."""
    word = row[-1]
    if minimum is None:
        is_right = word == "enough" and bounds[:2] == bounds[2:]
        demand(is_right, f"{','.join(row)}: no premium of policy {policy.number} is to come")
        return
    exact, above = minimum
    demand_encloses(bounds[2], bounds[3], exact, row)
    demand(bounds[0] <= bounds[2] and bounds[1] <= bounds[3], f"{','.join(row)}: the minimum is below the ordinary reserve")
    tests = {"short": above < 0, "enough": above >= 0, "close": abs(above) <= policy.amount * WIDEST_PREMIUM}
    demand(tests.get(word), f"{','.join(row)}: the premium is above the net premium by {float(above / 100):.13f}")


def check_row(row: list[str], policy: Policy, basis: Sequence[BasisRow], on: datetime.date, measure: str,
              known: Known) -> list[int]:
    """Raises Wrong unless a printed row is right for the policy: its year, and bounds that enclose the exact values, or the word.

    Returns the bounds in cents, or an empty list if the row has a word.
    """
    year, exact = worth(policy, basis, on, known, measure)
    is_policy = row[:4] == ["row", str(policy.number), policy.status, str(year)]
    demand(is_policy, f"{','.join(row)} isn't that of policy {policy.number}, {policy.status}, year {year}")
    if isinstance(exact, str):
        demand(row[4:] == [exact], f"{','.join(row)}: policy {policy.number} has the word {exact}")
        return []
    fields = 9 if measure == "deficiency" else 6
    demand(len(row) == fields, f"{','.join(row)}: policy {policy.number} has a value, which is {float(exact / 100):.6f}")
    bounds = [printed_cents(field) for field in row[4:8]]
    demand_encloses(bounds[0], bounds[1], exact, row)
    if measure == "deficiency":
        check_minimum(row, bounds, minimum_worth(policy, basis, on, known), policy)
    return bounds


def demand_policies(head: list[str], policies: Sequence[Policy]) -> None:
    """Raises Wrong unless a valuation's first line states the number of policies."""
    demand(head[4] == str(len(policies)), f"{','.join(head)}: there are {len(policies)} policies")


def check_block(rows: list[list[str]], policies: Sequence[Policy], basis: Sequence[BasisRow], known: Known,
                measure: str = "terminal") -> None:
    """Checks the lines of a valuation by a measure against the policies at its position."""
    head, *middle, total = rows
    demand(measure_of(head) == measure, f"{','.join(head)} isn't of the measure {measure}")
    demand_policies(head, policies)
    demand(len(middle) == len(policies), f"there are {len(policies)} policies, and {len(middle)} rows before the last line")
    on, totals = day_in(head[2]), Totals(measure)
    for row, policy in zip(middle, policies):
        bounds = check_row(row, policy, basis, on, measure, known)
        totals.words += not bounds
        totals.add(bounds or [0] * 4)
    demand(total == totals.line(), f"{','.join(total)} isn't {','.join(totals.line())}")


def check_sample(lines: list[list[str]], policies: Sequence[Policy], basis: Sequence[BasisRow], measure: str) -> int:
    """Checks some rows of a valuation, in any order, after its first line, and returns their number. A total is skipped."""
    head, *rest = lines
    rows = [row for row in rest if row[0] != "total"]
    demand_policies(head, policies)
    left = {str(policy.number): policy for policy in policies}
    known: Known = {}
    for row in rows:
        policy = left.pop(row[1], None) if len(row) > 1 else None
        if policy is None:
            raise Wrong(f"{','.join(row)}: no policy has this number, or its row stood above")
        check_row(row, policy, basis, day_in(head[2]), measure, known)
    return len(rows)
