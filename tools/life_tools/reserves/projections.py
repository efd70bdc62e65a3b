"""Computes exactly what policies are expected to pay and to be paid in each year, from the standards
(docs/explanation/reserves.md).

Rates are whole multiples of 10^-9, so the expected amount of a year is a whole number over a power of 10^9, and no sum here has
to find a common denominator.
"""
from __future__ import annotations

import datetime
from dataclasses import dataclass, field
from fractions import Fraction
from typing import Sequence

from life_tools.common.formats import Wrong, day_in, demand, number_of, printed_cents, printed_rows
from life_tools.common.formats import MOST_COMMANDS, MOST_YEARS
from life_tools.reserves.exact import Terms, is_insured, terms_of
from life_tools.rules.policies import Policy, completed
from life_tools.tables.basis import FINEST, BasisRow

# the amounts of a year: premiums, payments for deaths, and payments to those who survive the last year of their cover
KINDS_OF_CASH = ("premiums", "deaths", "maturities")


@dataclass
class Year:
    """The expected amounts of year j in cents, as numerators over 10^9 to the power j + 1."""

    sums: list[int] = field(default_factory=lambda: [0, 0, 0])

    def exact(self, j: int, kind: int) -> Fraction:
        return Fraction(self.sums[kind], FINEST ** (j + 1))


@dataclass
class Expected:
    """What is expected of some policies, and how many of them have a word in place of a value."""

    years: list[Year]
    words: int = 0

    def add(self, policy: Policy, basis: Sequence[BasisRow], on: datetime.date) -> None:
        if not is_insured(policy, on):
            return
        terms = terms_of(policy, basis)
        if isinstance(terms, str):
            self.words += 1
            return
        self.add_by(policy, terms, completed(policy.issued, on))

    def add_by(self, policy: Policy, terms: Terms, now: int) -> None:
        """Adds a policy that is in policy year `now`; after the last year of its cover nothing is expected."""
        rates = terms.table.rates[policy.age - terms.table.first:]
        owes = policy.status == "inforce"
        alive = 1
        for j, year in enumerate(self.years[:max(terms.years - now, 0)]):
            t = now + j
            dying = int(rates[t] * FINEST)
            if owes and policy.paid <= t < terms.payments:
                year.sums[0] += policy.premium * alive * FINEST
            year.sums[1] += policy.amount * alive * dying
            alive *= FINEST - dying
            if terms.matures and t + 1 == terms.years:
                year.sums[2] += policy.amount * alive


def expected_of(policies: Sequence[Policy], basis: Sequence[BasisRow], on: datetime.date, years: int) -> Expected:
    found = Expected([Year() for _ in range(years)])
    for policy in policies:
        found.add(policy, basis, on)
    return found


# --- a printed projection ---

@dataclass(frozen=True)
class Printed:
    """A printed projection; `years` has for each year the lower and the upper bound in cents of each kind of payment."""

    day: datetime.date
    position: int
    policies: int
    years: list[list[tuple[int, int]]]
    words: int


def numbers_in(row: list[str], most: int = MOST_COMMANDS) -> list[int]:
    numbers = [number_of(text, 0, most) for text in row]
    if any(number is None for number in numbers):
        raise Wrong(f"{','.join(row)}: one of these is no number up to {most}")
    return [number for number in numbers if number is not None]


def year_of(row: list[str], j: int) -> list[tuple[int, int]]:
    """Returns the bounds on a year's line, and raises Wrong if it is not the line of year j."""
    demand(len(row) == 8 and row[:2] == ["year", str(j)], f"{','.join(row)} isn't the line of year {j}")
    cents = [printed_cents(text) for text in row[2:]]
    return list(zip(cents[::2], cents[1::2]))


def printed_projection(text: str) -> Printed:
    """Returns the projection of a text, which must be what `life project` prints and nothing else."""
    rows = printed_rows(text)
    is_one = bool(rows) and rows[0][0] == "project" and len(rows[0]) == 5
    demand(is_one, "this isn't what life project prints: its first line is `project,ON,POSITION,POLICIES,YEARS`")
    position, policies, years = numbers_in(rows[0][2:])
    demand(1 <= years <= MOST_YEARS, f"{years} is no number of years from 1 to {MOST_YEARS}")
    demand(len(rows) == years + 2, f"a projection of {years} years has {years + 2} lines, and this one {len(rows)}")
    is_ended = len(rows[-1]) == 2 and rows[-1][0] == "unvalued"
    demand(is_ended, f"{','.join(rows[-1])} isn't its last line, `unvalued,N`")
    return Printed(day_in(rows[0][1]), position, policies, [year_of(row, j) for j, row in enumerate(rows[1:-1])],
                   *numbers_in(rows[-1][1:]))
