"""Joins the rows of a valuation with their policies, and adds them up exactly by what policies have in common."""
from __future__ import annotations

from dataclasses import dataclass, field
from typing import Callable, NamedTuple, Sequence

from life_tools.common.arrays import Array, Cents, np
from life_tools.valuations.class_columns import BasisColumn
from life_tools.journal.day_columns import FIRST_YEAR, LAST_YEAR, years_at
from life_tools.common.formats import PLANS, STATUSES, Wrong, demand, money
from life_tools.valuations.printed_columns import ColumnState, ColumnValuation, P, Rows, StatePolicies
from life_tools.rules.tables import CODE_OF_STATUS

AGES_IN_A_BAND = 10
# so many low bits of the cents of 4,000,000 policies can be added up in floats without rounding
LOW_BITS = 26


class Joined(NamedTuple):
    """The rows with their policies, and for each the number of its basis row among the names; number 0 means none."""

    rows: Rows
    policies: StatePolicies
    basis: Array
    names: list[str]


def age_band(age: int) -> str:
    first = age // AGES_IN_A_BAND * AGES_IN_A_BAND
    return f"{first:03}-{first + AGES_IN_A_BAND - 1:03}"


# what policies may be grouped by: for each key, the code of each policy and the names of all codes; ages are those at issue
KEYS: dict[str, Callable[[Joined], tuple[Array, Sequence[str]]]] = {
    "plan": lambda it: (it.policies.plan, ["", *PLANS.values()]),
    "status": lambda it: (it.rows.status, ["", *STATUSES]),
    "issue-year": lambda it: (years_at(it.policies.issued) - FIRST_YEAR, [str(year) for year in range(FIRST_YEAR, LAST_YEAR)]),
    "age-band": lambda it: (it.policies.age // AGES_IN_A_BAND, [age_band(age) for age in range(0, 256, AGES_IN_A_BAND)]),
    "basis-row": lambda it: (it.basis, it.names),
}


def demand_same(valuation: ColumnValuation, state: ColumnState[P]) -> None:
    """Raises Wrong unless each row is that of the policy at the same place in the state."""
    rows, policies = valuation.rows, state.policies
    demand(valuation.position == state.count, f"the valuation is of position {valuation.position}, the state of {state.count}")
    demand(len(rows) == len(policies), "the valuation and the state have another number of policies")
    other = np.flatnonzero((rows.number != policies.number) | (rows.status != policies.status))
    if len(other):
        place = int(other[0])
        row = rows.row(place)
        found = f"{policies.number[place]}, {STATUSES[policies.status[place] - 1]}"
        raise Wrong(f"the row of policy {row.number}, {row.status}, stands where the state has {found}")


def joined(valuation: ColumnValuation, state: ColumnState[StatePolicies], basis: BasisColumn) -> Joined:
    """Returns each row with its policy, which is at the same place in the state."""
    demand_same(valuation, state)
    return Joined(valuation.rows, state.policies, *basis)


@dataclass
class Sums:
    """The sums for some policies: their number, how many are in force or paid up and for what amounts, bounds, rows with a
    word."""

    policies: int = 0
    insured: int = 0
    amount: int = 0
    bounds: list[int] = field(default_factory=list)
    words: int = 0

    def cells(self) -> list[str]:
        bounds = [money(each) for each in self.bounds]
        return [str(self.policies), str(self.insured), money(self.amount), *bounds, str(self.words)]


Groups = dict[tuple[str, ...], Sums]


def added(groups: Array, count: int, cents: Cents) -> list[int]:
    """Returns the sum of each group's cents; floats add them up in two parts, and both parts stay exact."""
    low, high = cents & ((1 << LOW_BITS) - 1), cents >> LOW_BITS
    above, below = (np.bincount(groups, part, count).astype(np.int64) for part in (high, low))
    found: list[int] = ((above << LOW_BITS) + below).tolist()
    return found


def sums_by(it: Joined, groups: Array, count: int) -> list[Sums]:
    """Returns the sums of the groups; `groups` has the number of each policy's group."""
    insured = (it.rows.status == CODE_OF_STATUS["inforce"]) | (it.rows.status == CODE_OF_STATUS["paidup"])
    amounts = added(groups, count, np.where(insured, it.policies.amount, 0))
    counts: list[int] = np.bincount(groups[insured], minlength=count).tolist()
    bounds = [added(groups, count, it.rows.bounds[:, place]) for place in range(it.rows.bounds.shape[1])]
    policies: list[int] = np.bincount(groups, minlength=count).tolist()
    words: list[int] = np.bincount(groups[it.rows.word > 0], minlength=count).tolist()
    return [Sums(policies[place], counts[place], amounts[place], [each[place] for each in bounds], words[place])
            for place in range(count)]


def grouped(it: Joined, keys: Sequence[str]) -> Groups:
    """Returns the sums of each group that occurs, in the order of the groups' names."""
    code: Array = np.zeros(len(it.rows), np.int64)
    names: list[tuple[str, ...]] = [()]
    for key in keys:
        codes, texts = KEYS[key](it)
        found, code = np.unique(code * len(texts) + codes, return_inverse=True)
        names = [(*names[each // len(texts)], texts[each % len(texts)]) for each in found.tolist()]
    return dict(sorted(zip(names, sums_by(it, code, len(names)))))


def whole(it: Joined) -> Sums:
    return sums_by(it, np.zeros(len(it.rows), np.int64), 1)[0]


def demand_whole(groups: Groups, keys: Sequence[str], valuation: ColumnValuation) -> None:
    """Raises Wrong unless the groups add up to what the program printed: its sums, its policies, its rows with a word."""
    by = ",".join(keys)
    sums = [0] * len(valuation.total)
    for each in groups.values():
        sums = [one + other for one, other in zip(sums, each.bounds)]
    demand(tuple(sums) == valuation.total, f"the groups by {by} add up to {[money(each) for each in sums]}, not to the total")
    demand(sum(each.policies for each in groups.values()) == len(valuation.rows), f"the groups by {by} lack policies")
    demand(sum(each.words for each in groups.values()) == valuation.words, f"the groups by {by} lack rows with a word")
