"""Checks a printed projection: each pair of bounds must enclose the expected amount, computed independently, and be narrow."""
from __future__ import annotations

from fractions import Fraction
from typing import Sequence

from life_tools.common.formats import demand, money
from life_tools.reserves.projections import KINDS_OF_CASH, Printed, expected_of
from life_tools.rules.policies import Policy
from life_tools.tables.basis import BasisRow


def demand_encloses(bounds: tuple[int, int], exact: Fraction, policies: int, what: str) -> None:
    lower, upper = bounds
    demand(lower <= exact <= upper,
           f"{what}: {money(lower)} to {money(upper)} doesn't enclose what is expected, which is {float(exact / 100):.6f}")
    # the bounds may be two cents apart, and one cent more for each thousand policies
    demand(1000 * (upper - lower) <= 2000 + policies, f"{what}: {money(lower)} and {money(upper)} lie too far apart")


def check_years(printed: Printed, policies: Sequence[Policy], basis: Sequence[BasisRow]) -> None:
    """Checks a projection against the policies at its position."""
    demand(printed.policies == len(policies), f"there are {len(policies)} policies, and not {printed.policies}")
    found = expected_of(policies, basis, printed.day, len(printed.years))
    for j, (bounds, year) in enumerate(zip(printed.years, found.years)):
        for kind, name in enumerate(KINDS_OF_CASH):
            demand_encloses(bounds[kind], year.exact(j, kind), len(policies), f"year {j}, {name}")
    demand(printed.words == found.words, f"{found.words} policies have a word, and not {printed.words}")
