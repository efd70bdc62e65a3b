"""Groups policies with the same basis row, plan, age and years, so that what 1 of them is worth is computed only once.

Each such group makes two cases: with premiums to come, and paid up. The units of a case are made when they are needed and then
forgotten, so that a book of many cases needs no more memory than a book of few.
"""
from __future__ import annotations

from dataclasses import dataclass
from typing import Sequence

from life_tools.common.arrays import Array, np
from life_tools.valuations.class_columns import PlacedRow
from life_tools.journal.policy_columns import Policies
from life_tools.reports.reserve_units import Column, Units, units_of
from life_tools.reserves.exact import Terms, insured_by, terms_of
from life_tools.rules.policies import Policy


@dataclass(frozen=True)
class Cases:
    """For each policy the number of its terms, from 0; for each terms what they are, the age at issue, and the years of cover.

    The years are -1 if the terms give no value.
    """

    of: Array
    terms: list[Terms | str]
    ages: list[int]
    years: Array

    @property
    def count(self) -> int:
        return 2 * len(self.terms)

    def units(self, case: int, measure: str) -> Units:
        """Returns the units of a case, whose number is twice that of its terms, plus one if it is paid up."""
        terms = self.terms[case // 2]
        assert isinstance(terms, Terms)
        return units_of(insured_by(terms, self.ages[case // 2], case % 2 == 1, Column), measure)


def terms_by(policy: Policy, rows: Sequence[PlacedRow], place: int) -> Terms | str:
    return terms_of(policy, [rows[place - 1].row] if place else [])


def cases_of(policies: Policies, place: Array, rows: Sequence[PlacedRow]) -> Cases:
    """Returns the cases of policies; `place` has for each policy the number of its basis row, or 0."""
    code = ((place * 256 + policies.plan) * 256 + policies.age) * 256 + policies.years
    _, first, of = np.unique(code, return_index=True, return_inverse=True)
    found = [(policies.policy(at), int(place[at])) for at in first.tolist()]
    terms = [terms_by(policy, rows, row) for policy, row in found]
    years = np.array([-1 if isinstance(each, str) else each.years for each in terms], np.int16)
    return Cases(of, terms, [policy.age for policy, _ in found], years)
