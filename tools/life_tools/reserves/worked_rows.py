"""Writes out one row of a valuation for a colleague: the inputs, the formulas with their numbers, and the exact result."""
from __future__ import annotations

import datetime
from fractions import Fraction
from typing import Sequence

from life_tools.common.formats import money
from life_tools.reserves.exact import (Cover, InForce, Insured, PaidUp, Terms, exact_value, insured_on, is_insured, row_for,
                                       terms_of)
from life_tools.rules.policies import Policy, completed
from life_tools.tables.basis import BasisRow

PLACES = 9
# of a longer exact fraction only the number of digits is shown
SHORT = 40
RATES_A_LINE = 5
WORDS = {
    "nobasis": "the policy was issued before the first day of the basis",
    "belowtable": "the age at issue is below the table's first age",
    "pasttable": "the cover ends after the table's last age, or lasts fewer than two years by it",
    "ratehigh": "the rate of death in the first year is above one half, so the modified premium isn't bounded",
}


def decimal(value: Fraction, places: int = PLACES) -> str:
    """Returns a fraction as a decimal, rounded to the nearest, without floating point."""
    scaled = abs(value) * 10**places
    units = (scaled.numerator * 2 + scaled.denominator) // (scaled.denominator * 2)
    whole, part = divmod(units, 10**places)
    digits = f"{part:0{places}}".rstrip("0")
    return f"{'-' if value < 0 else ''}{whole}{'.' + digits if digits else ''}"


def fraction_words(exact: Fraction, whole: bool) -> str:
    """Returns an exact fraction; or, if it is long and not wanted in full, the number of digits of its two parts."""
    text = str(exact)
    if whole or len(text) <= SHORT:
        return text
    return f"a fraction of {len(str(exact.numerator))} by {len(str(exact.denominator))} digits"


def cents_about(exact: Fraction) -> tuple[int, int]:
    """Returns the greatest whole cent that is not above an exact amount in cents, and the least that is not below it."""
    return exact.numerator // exact.denominator, -(-exact.numerator // exact.denominator)


class Worked:
    """The lines of one worked row. `exact` is the value in cents by the measure, or None if the policy has a word."""

    def __init__(self, policy: Policy, position: int, on: datetime.date, basis: Sequence[BasisRow], measure: str,
                 whole_fractions: bool = False) -> None:
        self.policy, self.on, self.basis, self.measure, self.whole = policy, on, basis, measure, whole_fractions
        self.lines: list[str] = []
        self.exact: Fraction | None = None
        self.minimum: Fraction | None = None
        self.word = ""
        self.tell_policy(position)
        if not is_insured(policy, on):
            self.tell_nothing_insured()
            return
        self.year, insured = insured_on(policy, basis, on, {})
        if isinstance(insured, str) or insured is None:
            self.word = insured or ""
            self.say(f"no value: {self.word}: {WORDS[self.word]}")
            return
        terms = terms_of(policy, basis)
        assert isinstance(terms, Terms)
        self.tell_basis(terms)
        self.tell_rates(terms, insured)
        self.tell_premium(insured)
        self.tell_reserve(insured)

    def say(self, line: str) -> None:
        self.lines.append(line)

    def tell_policy(self, position: int) -> None:
        policy = self.policy
        years = "to the table's end" if policy.plan == "whole" else f"{policy.years} years"
        self.say(f"policy {policy.number}, as it stood after the first {position} postings: {policy.plan}, "
                 f"age {policy.age} at issue, {years}")
        self.say(f"  issued {policy.issued}, {policy.status}, {policy.paid} premiums paid, last posting on {policy.last}")
        self.say(f"  amount {money(policy.amount)}, premium {money(policy.premium)} a year, "
                 f"outstanding {money(policy.outstanding)}")

    def tell_nothing_insured(self) -> None:
        policy = self.policy
        why = f"it is issued after {self.on}" if policy.issued > self.on else f"a policy that is {policy.status} has no reserve"
        self.exact = Fraction(0)
        self.say(f"reserve on {self.on}: 0.00, since {why}")

    def tell_basis(self, terms: Terms) -> None:
        row = row_for(self.basis, self.policy.issued)
        assert row is not None
        number = list(self.basis).index(row) + 1
        self.say(f"basis row {number}: from {row.day}, {row.name}, {row.points} basis points: "
                 f"v = 10000 / {10000 + row.points} = {decimal(row.discount)}")
        years = completed(self.policy.issued, self.on)
        cut = f", of which the cover has {terms.years}" if years > terms.years else ""
        self.say(f"on {self.on}: {years} completed years{cut}: year {self.year} of {terms.years}, "
                 f"{terms.payments} premiums, {'an' if terms.matures else 'no'} amount at the end")

    def tell_rates(self, terms: Terms, insured: Insured) -> None:
        kind = "select and ultimate rates of issue age" if terms.table is not terms.later else "rates by age from"
        self.say(f"{kind} {self.policy.age}:")
        told = [f"{self.policy.age + year}: {decimal(insured.cover.rates[year])}" for year in range(terms.years)]
        for first in range(0, len(told), RATES_A_LINE):
            self.say("  " + "  ".join(f"{each:<16}" for each in told[first:first + RATES_A_LINE]).rstrip())

    def tell_premium(self, insured: Insured) -> None:
        if isinstance(insured, PaidUp):
            self.say("paid up: no premium is to come, so none is taken off")
            return
        benefits, annuity = insured.cover.values_at(0)
        first = insured.first_year
        self.say(f"at issue, of 1: benefits {decimal(benefits)}, premiums of 1 a year {decimal(annuity)}")
        self.say(f"  (B) the first year's net premium: v * {decimal(insured.cover.rates[0])} = {decimal(first)}")
        self.say(f"  (A) the level premium for what follows: ({decimal(benefits)} - {decimal(first)}) / "
                 f"({decimal(annuity)} - 1) = {decimal(insured.renewal)}")
        self.tell_limit(insured)
        self.say(f"  excess of (A) over (B): {decimal(insured.excess)}")
        self.say(f"  beta = ({decimal(benefits)} + {decimal(insured.excess)}) / {decimal(annuity)} = {decimal(insured.modified)}")

    def tell_limit(self, insured: InForce) -> None:
        limit: Cover = insured.limit
        benefits, annuity = limit.values_at(0)
        taken = "which is less, so (A) is this" if insured.most < insured.renewal else "which isn't less"
        self.say(f"  its limit, whole life at age {self.policy.age + 1} on {limit.payments} premiums: {decimal(benefits)} / "
                 f"{decimal(annuity)} = {decimal(insured.most)}, {taken}")

    def tell_reserve(self, insured: Insured) -> None:
        worth = self.tell_terminal(insured, self.year)
        if self.measure == "mean":
            worth = self.tell_mean(insured)
        self.exact = self.policy.amount * worth
        self.tell_amount("reserve", self.exact)
        if self.measure == "deficiency":
            self.tell_minimum(insured)

    def tell_terminal(self, insured: Insured, year: int) -> Fraction:
        benefits, annuity = insured.cover.values_at(year)
        worth = insured.terminal(year)
        if isinstance(insured, PaidUp):
            self.say(f"at year {year}, of 1: V = benefits = {decimal(benefits)}")
        else:
            taken = benefits - insured.modified * annuity
            less = ", which is below 0, so V = 0" if taken < 0 else ""
            self.say(f"at year {year}, of 1: V = benefits - beta * premiums = {decimal(benefits)} - "
                     f"{decimal(insured.modified)} * {decimal(annuity)} = {decimal(taken)}{less}")
        return worth

    def tell_mean(self, insured: Insured) -> Fraction:
        worth = exact_value(insured, self.year, "mean")
        if self.year == insured.cover.years:
            self.say("mean reserve at the end of the cover: the reserve itself")
            return worth
        ends = self.tell_terminal(insured, self.year + 1)
        starts, net = insured.terminal(self.year), insured.net_premium(self.year)
        self.say(f"mean reserve of year {self.year}: (V({self.year}) + net premium + V({self.year + 1})) / 2 = "
                 f"({decimal(starts)} + {decimal(net)} + {decimal(ends)}) / 2 = {decimal(worth)}")
        return worth

    def tell_minimum(self, insured: Insured) -> None:
        if isinstance(insured, PaidUp) or self.year >= insured.cover.payments:
            self.say("minimum: no premium is to come, so it is the reserve")
            self.minimum = self.exact
            return
        gross = Fraction(self.policy.premium, self.policy.amount)
        above = gross - insured.modified
        self.say(f"premium charged, of 1: {money(self.policy.premium)} / {money(self.policy.amount)} = {decimal(gross)}, "
                 f"{'short of' if above < 0 else 'not below'} beta by {decimal(abs(above))}")
        counted = min(gross, insured.modified)
        benefits, annuity = insured.cover.values_at(self.year)
        self.say(f"  counting on the lesser of both: {decimal(benefits)} - {decimal(counted)} * {decimal(annuity)} = "
                 f"{decimal(benefits - counted * annuity)}; the minimum isn't below the reserve")
        self.minimum = self.policy.amount * insured.minimum(gross, self.year)
        self.tell_amount("minimum reserve", self.minimum)

    def tell_amount(self, name: str, exact: Fraction) -> None:
        low, high = cents_about(exact)
        self.say(f"{name}: {money(self.policy.amount)} * {decimal(exact / self.policy.amount)} = {decimal(exact / 100)}, "
                 f"exactly {fraction_words(exact, self.whole)} cents: {money(low)} and {money(high)}")
