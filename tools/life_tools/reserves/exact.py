"""Computes the exact reserve of a policy on a day in fractions, from the public standards alone.

These are the Commissioners Reserve Valuation Method and the minimum reserves of NAIC Model 820, and the sums of Dickson, Hardy
and Waters (docs/explanation/reserves.md).
"""
from __future__ import annotations

import datetime
from dataclasses import dataclass
from fractions import Fraction
from typing import Dict, Sequence, Tuple, Union

from life_tools.rules.policies import Policy, completed
from life_tools.tables.basis import BasisRow, Table

RENEWAL_PREMIUMS = 19
HIGHEST_FIRST_RATE = Fraction(1, 2)
# the policy year of the reserve, and its exact value in cents, or the word that says why there is none
Worth = Tuple[int, Union[Fraction, str]]


class Cover:
    """What is insured by a table: from an age for a number of years, with a number of yearly premiums."""

    def __init__(self, table: Table, age: int, years: int, payments: int, matures: bool, discount: Fraction) -> None:
        self.rates: Sequence[Fraction] = table.rates[age - table.first:]
        self.years, self.payments, self.matures, self.discount = years, payments, matures, discount
        self.known: Dict[int, tuple[Fraction, Fraction]] = {}

    def values_at(self, year: int) -> tuple[Fraction, Fraction]:
        """Returns the values at the start of a policy year of two streams.

        The first is 1 paid at the end of the year of death, and at the end of the cover if the policy matures; the second is 1
        paid at the start of each premium year.
        """
        if year not in self.known:
            self.known[year] = self.summed(year)
        return self.known[year]

    def summed(self, year: int) -> tuple[Fraction, Fraction]:
        benefits = annuity = Fraction(0)
        alive = Fraction(1)
        for k in range(self.years - year):
            if year + k < self.payments:
                annuity += alive
            benefits += alive * self.discount * self.rates[year + k]
            alive *= self.discount * (1 - self.rates[year + k])
        return benefits + (alive if self.matures else 0), annuity


class InForce:
    """A policy's cover with its premiums, for an amount of 1: the modified net premium, the excess in it, and the reserves.

    `table` is the table of the issue age that is one year higher.
    """

    def __init__(self, table: Table, cover: Cover, age: int) -> None:
        self.cover = cover
        benefits, annuity = cover.values_at(0)
        self.first_year = cover.discount * cover.rates[0]
        self.renewal = (benefits - self.first_year) / (annuity - 1)
        # the level premium (A) may not exceed the premium of whole life at an issue age that is one year higher
        left = table.last - age
        self.limit = type(cover)(table, age + 1, left, min(RENEWAL_PREMIUMS, left), True, cover.discount)
        whole_benefits, whole_annuity = self.limit.values_at(0)
        self.most = whole_benefits / whole_annuity
        self.excess = max(min(self.renewal, self.most) - self.first_year, Fraction(0))
        self.modified = (benefits + self.excess) / annuity

    def counting_on(self, premium: Fraction, year: int) -> Fraction:
        """Returns the reserve of 1 if `premium` is received at the start of each premium year."""
        benefits, annuity = self.cover.values_at(year)
        return max(benefits - premium * annuity, Fraction(0))

    def terminal(self, year: int) -> Fraction:
        return self.counting_on(self.modified, year)

    def minimum(self, gross: Fraction, year: int) -> Fraction:
        """Returns the minimum reserve of 1: it counts on no more than the gross premium, and is not below the terminal
        reserve."""
        return max(self.terminal(year), self.counting_on(min(self.modified, gross), year))

    def net_premium(self, year: int) -> Fraction:
        """Returns the net premium of a year: in the first year without the excess, and 0 after the last premium."""
        if year == 0:
            return self.modified - self.excess
        return self.modified if year < self.cover.payments else Fraction(0)


class PaidUp:
    """The cover of a paid-up policy, for an amount of 1: no premium is charged, and none is deducted."""

    def __init__(self, cover: Cover) -> None:
        self.cover = cover

    def terminal(self, year: int) -> Fraction:
        return self.cover.values_at(year)[0]

    def net_premium(self, year: int) -> Fraction:
        return Fraction(0)


Insured = Union[InForce, PaidUp]
# what was computed for an amount of 1, by the day of the basis row and the terms of the policy that matter
Known = Dict[Tuple[datetime.date, int, int, int, bool, bool], Insured]


def exact_value(insured: Insured, year: int, measure: str) -> Fraction:
    """Returns the exact reserve of 1 by the measure `terminal` or `mean`; at the end of the cover both are the terminal
    reserve."""
    if measure != "mean" or year == insured.cover.years:
        return insured.terminal(year)
    return (insured.terminal(year) + insured.net_premium(year) + insured.terminal(year + 1)) / 2


def row_for(basis: Sequence[BasisRow], day: datetime.date) -> BasisRow | None:
    """Returns the basis row for a day of issue: the last row whose day is not after it, or None."""
    return next((row for row in reversed(basis) if row.day <= day), None)


@dataclass(frozen=True)
class Terms:
    """The terms by which a policy is valued: basis row, tables of its issue age and of the next, years of cover, number of
    premiums."""

    row: BasisRow
    table: Table
    later: Table
    years: int
    payments: int
    matures: bool


def terms_of(policy: Policy, basis: Sequence[BasisRow]) -> Terms | str:
    """Returns the terms by which a policy is valued, or the word that says why it has no value."""
    row = row_for(basis, policy.issued)
    if row is None:
        return "nobasis"
    age = policy.age
    table = row.table.along(age)
    if table is None or age < table.first:
        return "belowtable"
    later = row.table.along(age + 1)
    to_end = table.last + 1 - age
    years = to_end if policy.plan in ("whole", "limited") else policy.years
    payments = {"whole": to_end, "limited": min(policy.years, to_end)}.get(policy.plan, policy.years)
    if years > to_end or years < 2 or later is None or not later.holds(age + 1):
        return "pasttable"
    if table.rates[age - table.first] > HIGHEST_FIRST_RATE:
        return "ratehigh"
    return Terms(row, table, later, years, payments, policy.plan != "term")


def insured_by(terms: Terms, age: int, is_paid_up: bool, kind: type[Cover] = Cover) -> Insured:
    """Returns what the reserve of 1 is computed from; `kind` is the class that computes the cover's values."""
    cover = kind(terms.table, age, terms.years, terms.payments, terms.matures, terms.row.discount)
    return PaidUp(cover) if is_paid_up else InForce(terms.later, cover, age)


def is_insured(policy: Policy, on: datetime.date) -> bool:
    return policy.status in ("inforce", "paidup") and policy.issued <= on


def insured_on(policy: Policy, basis: Sequence[BasisRow], on: datetime.date, known: Known) -> tuple[int, Insured | str | None]:
    """Returns the policy year and what the reserve of 1 is computed from.

    In place of that it returns the word that says why the policy has no value, or None if nothing is insured.
    """
    if not is_insured(policy, on):
        return 0, None
    terms = terms_of(policy, basis)
    if isinstance(terms, str):
        return 0, terms
    is_paid_up = policy.status == "paidup"
    case = terms.row.day, policy.age, terms.years, terms.payments, terms.matures, is_paid_up
    if case not in known:
        known[case] = insured_by(terms, policy.age, is_paid_up)
    return min(completed(policy.issued, on), terms.years), known[case]


def worth(
    policy: Policy, basis: Sequence[BasisRow], on: datetime.date, known: Known | None = None, measure: str = "terminal"
) -> Worth:
    """Returns the policy year, and the exact value in cents by a measure or the word that says why there is none.

    For `deficiency` this is the ordinary value, the terminal reserve. `known` keeps results for further policies of the same
    basis.
    """
    year, insured = insured_on(policy, basis, on, {} if known is None else known)
    if insured is None:
        return year, Fraction(0)
    return year, insured if isinstance(insured, str) else policy.amount * exact_value(insured, year, measure)


def minimum_worth(
    policy: Policy, basis: Sequence[BasisRow], on: datetime.date, known: Known | None = None
) -> tuple[Fraction, Fraction] | None:
    """Returns the exact minimum reserve in cents, and by how many cents the gross premium exceeds the net premium.

    Returns None if the policy has no premium to come or no value: then the ordinary reserve is the minimum.
    """
    year, insured = insured_on(policy, basis, on, {} if known is None else known)
    if not isinstance(insured, InForce) or year >= insured.cover.payments:
        return None
    gross = Fraction(policy.premium, policy.amount)
    return policy.amount * insured.minimum(gross, year), policy.premium - policy.amount * insured.modified
