"""Goes through the postings between two moments, many at once, with each one's policy before and after it.

The policies that the program printed at the first position are carried on by the rules, and must end up as those that it printed
at the second position.
"""
from __future__ import annotations

from dataclasses import dataclass, fields
from typing import Iterator

from life_tools.common.arrays import Array, Cents, np
from life_tools.rules.commands import CODES
from life_tools.common.formats import KINDS
from life_tools.journal.records import ISSUE, Records
from life_tools.reports.periods import Period, demand_carried
from life_tools.journal.policy_columns import Policies, change, issued_by, policies_in, together
from life_tools.common.progress import Progress
from life_tools.journal.replays import Rounds, stable_order
from life_tools.rules.policies import changed
from life_tools.rules.tables import Line

# kinds that a policy can have many times in a row, and that change nothing of what is insured
REPEATED = ("premium", "settle")
# columns of a policy that are not printed
UNPRINTED = ("last",)
# number of postings that are processed at once
AT_ONCE = 1 << 15


@dataclass(frozen=True)
class Steps:
    """Postings of one kind: for each, its policy's place, its day and amount, and the policy before and after it.

    Each posting is of a different policy, except for premiums and settlements. For an issue, `before` and `after` are both the
    policy that it opens.
    """

    kind: str
    place: Array
    day: Array
    amount: Cents
    before: Policies
    after: Policies

    def __len__(self) -> int:
        return len(self.place)

    def some(self, chosen: Array) -> Steps:
        return Steps(self.kind, self.place[chosen], self.day[chosen], self.amount[chosen], self.before.at(chosen),
                     self.after.at(chosen))


def steps_of(period: Period) -> Iterator[Steps]:
    """Yields all postings, those of each policy in their order, and raises NotWhole unless the policies end up as printed."""
    first = period.asked.first
    records, place = period.records, period.place
    issues = np.flatnonzero(records.kind[first:] == ISSUE) + first
    policies = together(period.opening.policies, issued_by(records, issues))
    for where in blocks_of(issues):
        opened = policies.at(place[where])
        yield Steps("issue", place[where], records.day[where], records.amount[where], opened, opened)
    others = np.flatnonzero((place[first:] >= 0) & (records.kind[first:] != ISSUE)) + first
    order = others[stable_order(place[others])]
    progress, done = Progress("postings", len(order)), 0
    for steps in carried(policies, records, order, place):
        yield steps
        done += len(steps)
        progress.at(done)
    progress.end()
    demand_printed(policies, period.closing.policies)


def blocks_of(places: Array) -> Iterator[Array]:
    return (places[start:start + AT_ONCE] for start in range(0, len(places), AT_ONCE))


def carried(policies: Policies, records: Records, order: Array, place: Array) -> Iterator[Steps]:
    """Carries policies on by commands that are sorted by policy."""
    counts = np.bincount(place[order], minlength=len(policies))
    ends = np.cumsum(counts)
    left = Rounds(order, ends - counts, ends)
    for where, places in left.rounds():
        kinds = records.kind[where]
        for kind in np.unique(kinds).tolist():
            for some in blocks_of(np.flatnonzero(kinds == kind)):
                yield step(policies, records, kind, where[some], places[some])
    for one, where in left.alone():
        yield from carried_alone(policies, records, one, where)


def step(policies: Policies, records: Records, kind: int, where: Array, places: Array) -> Steps:
    """Applies one command to each of some policies."""
    before, day, amount = policies.at(places), records.day[where], records.amount[where]
    change(policies, places, before, kind, Line(day, amount, records.premium[where]))
    return Steps(KINDS[kind], places, day, amount, before, policies.at(places))


def carried_alone(policies: Policies, records: Records, place: int, where: Array) -> Iterator[Steps]:
    """Applies all commands of one policy, one after the other."""
    policy, kinds = policies.policy(place), records.kind[where]
    before, after = [], []
    for command in records.commands(where):
        before.append(policy)
        policy = changed(policy, command)
        after.append(policy)
    policies.put(place, policy)
    repeated = np.isin(kinds, [CODES[kind] for kind in REPEATED])
    groups = [np.flatnonzero(kinds == CODES[kind]) for kind in REPEATED]
    groups += [np.array([at]) for at in np.flatnonzero(~repeated).tolist()]
    for at in groups:
        if len(at):
            yield Steps(KINDS[int(kinds[at[0]])], np.full(len(at), place), records.day[where[at]], records.amount[where[at]],
                        policies_in([before[each] for each in at.tolist()]), policies_in([after[each] for each in at.tolist()]))


def demand_printed(policies: Policies, printed: Policies) -> None:
    same = np.ones(len(printed), bool)
    for column in fields(printed):
        if column.name not in UNPRINTED:
            same &= getattr(policies, column.name) == getattr(printed, column.name)
    demand_carried(printed.number, same)
