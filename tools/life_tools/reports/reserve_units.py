"""Computes what a reserve of 1 consists of, year by year: net premiums, interest, the cost of insurance.

The formulas are those of `reserves`. Only the values of benefits and premiums are computed differently: year by year back from
the end of the cover, in forty decimals, so that all years of all policies are available. The results keep thirty decimals; errors
in the last of them are far below a cent even for millions of policies.
"""
from __future__ import annotations

from dataclasses import dataclass
from fractions import Fraction
from typing import Sequence

from life_tools.reports.periods import demand_whole
from life_tools.reserves.exact import Cover, InForce, Insured
from life_tools.tables.basis import FINEST, Table

ONE, FINE = 10**30, 10**40
# the errors of values in forty decimals are less than this many units of the thirtieth decimal
NOISE = 10**5


class Column(Cover):
    """A cover whose values for all years are computed at once, from its end back to its beginning, in units of 10^-40."""

    def __init__(self, table: Table, age: int, years: int, payments: int, matures: bool, discount: Fraction) -> None:
        super().__init__(table, age, years, payments, matures, discount)
        self.benefits, self.annuities = [0] * years + [FINE if matures else 0], [0] * (years + 1)
        by, parts = discount.numerator, discount.denominator * FINEST
        for year in range(years - 1, -1, -1):
            dying = finest(self.rates[year])
            self.benefits[year] = by * (dying * FINE + (FINEST - dying) * self.benefits[year + 1]) // parts
            due = FINE if year < payments else 0
            self.annuities[year] = due + by * (FINEST - dying) * self.annuities[year + 1] // parts

    def values_at(self, year: int) -> tuple[Fraction, Fraction]:
        return Fraction(self.benefits[year], FINE), Fraction(self.annuities[year], FINE)


def finest(rate: Fraction) -> int:
    """Returns a rate in units of 10^-9, of which a table's rates are whole multiples."""
    return rate.numerator * (FINEST // rate.denominator)


def whole(value: Fraction) -> int:
    """Returns a value in units of 10^-30, rounded down."""
    return value.numerator * ONE // value.denominator


@dataclass(frozen=True)
class Units:
    """For 1 insured, values at each policy year from 0 to the end of the cover, in units of 10^-30.

    `reserve` is the reserve by the measure. The others are what made it since the issue: net premiums, interest, the cost of
    insurance, and what was added so that no reserve is below 0. `net` is the net premium of each year.
    """

    reserve: list[int]
    premiums: list[int]
    interest: list[int]
    cost: list[int]
    held: list[int]
    net: list[int]

    @property
    def years(self) -> int:
        return len(self.reserve) - 1


class Years:
    """For each year of a cover: its net premium, and the interest and the cost that lead to the reserve at its end."""

    def __init__(self, insured: Insured) -> None:
        cover = insured.cover
        assert isinstance(cover, Column)
        years, a_year = range(cover.years), 1 / cover.discount - 1
        values, parts = values_of(insured, cover)
        self.terminal = [max(value, 0) * ONE // parts for value in values]
        self.net = [whole(insured.net_premium(year)) for year in years]
        self.interest = [(self.terminal[year] + self.net[year]) * a_year.numerator // a_year.denominator for year in years]
        self.cost = [finest(cover.rates[year]) * (ONE - self.terminal[year + 1]) // FINEST for year in years]
        self.held = [self.terminal[year + 1] - self.terminal[year] - self.net[year] - self.interest[year] + self.cost[year]
                     for year in years]
        is_low = [year > 0 and value < 0 for year, value in enumerate(values)]
        for year in years:
            is_right = is_low[year] or is_low[year + 1] or abs(self.held[year]) < NOISE
            demand_whole(is_right, f"year {year}: net premium, interest and cost don't lead from one reserve to the next")


def values_of(insured: Insured, cover: Column) -> tuple[list[int], int]:
    """Returns at each year the benefits less the net premiums to come, even if below 0, and how many units make 1."""
    modified = insured.modified if isinstance(insured, InForce) else Fraction(0)
    values = [benefits * modified.denominator - modified.numerator * annuity
              for benefits, annuity in zip(cover.benefits, cover.annuities)]
    return values, FINE * modified.denominator


def summed(steps: Sequence[int]) -> list[int]:
    """Returns the running sums of the steps, beginning with 0."""
    found = [0]
    for step in steps:
        found.append(found[-1] + step)
    return found


def halves(steps: Sequence[int]) -> list[int]:
    """Returns the sums up to the middle of each year, and at the end of the last year."""
    ends = summed(steps)
    return [*(ends[year] + step // 2 for year, step in enumerate(steps)), ends[-1]]


def units_of(insured: Insured, measure: str) -> Units:
    """Returns the units of a cover by a measure.

    By `terminal`, a year's premium, interest and cost count when the year is over. By `mean`, the premium counts when the year
    begins, and half of the interest and cost.
    """
    years = Years(insured)
    if measure != "mean":
        return Units(years.terminal, summed(years.net), summed(years.interest), summed(years.cost), summed(years.held), years.net)
    begun = summed(years.net)
    premiums = [*begun[1:], begun[-1]]
    interest, cost, held = (halves(steps) for steps in (years.interest, years.cost, years.held))
    reserve = [premiums[year] + interest[year] - cost[year] + held[year] for year in range(len(premiums))]
    shift = years.terminal[0]
    return Units([each + shift for each in reserve], premiums, interest, cost, held, years.net)


def cents(scaled: int) -> int:
    """Returns an amount in 10^-30 cents, rounded to the nearest cent."""
    return (2 * scaled + ONE) // (2 * ONE)
