"""Applies the tables of rules to columns of policies at once; each row decides one command on a policy of its own.

`rules/policies.py` applies the same tables to a single command, and a test compares the two on drawn and damaged journals. This
module only finds that a command is refused; `policies.decide` gives the reason.
"""
from __future__ import annotations

from dataclasses import dataclass, fields
from functools import cached_property
from typing import NamedTuple, Sequence, Union

from life_tools.common.arrays import Array, Cents, np
from life_tools.common.formats import KINDS, PLANS, STATUSES
from life_tools.journal.day_columns import anniversaries, completed_years, day_at, number_at
from life_tools.journal.records import Records
from life_tools.rules import tables
from life_tools.rules.policies import Policy
from life_tools.rules.tables import CHANGES, CHECKS, CODE_OF_STATUS, INFORCE, PLAN_CODES, Line


class OfColumns:
    """What the tables of rules ask of columns of policies."""

    issued: Array
    either = staticmethod(np.where)

    def anniversary(self, years: Array) -> Array:
        return anniversaries(self.issued, years)

    def years_since_issue(self, day: Array) -> Array:
        return completed_years(self.issued, day)


@dataclass(frozen=True)
class Policies(OfColumns):
    """Policies in order of issue, at places from 0.

    Plans and statuses are codes, days count from 1970-01-01, amounts are in cents.
    """

    number: Array
    plan: Array
    age: Array
    years: Array
    issued: Array
    # the years of cover, the number of yearly premiums, and the day on which the cover ends
    cover: Array
    payments: Array
    end: Array
    # the columns that commands change
    amount: Cents
    premium: Cents
    last: Array
    status: Array
    paid: Array
    outstanding: Cents

    def __len__(self) -> int:
        return len(self.number)

    def at(self, places: Array | slice) -> Policies:
        return Policies(*(getattr(self, column.name)[places] for column in fields(self)))

    def policy(self, place: int) -> Policy:
        """Returns the policy at a place as an object."""
        return Policy(int(self.number[place]), PLANS[int(self.plan[place])], int(self.age[place]), int(self.years[place]),
                      int(self.amount[place]), int(self.premium[place]), day_at(self.issued[place]), day_at(self.last[place]),
                      STATUSES[int(self.status[place]) - 1], int(self.paid[place]), int(self.outstanding[place]))

    def put(self, place: int, policy: Policy) -> None:
        """Writes the policy of a place back after its commands."""
        self.amount[place], self.premium[place] = policy.amount, policy.premium
        self.last[place], self.status[place] = number_at(policy.last), CODE_OF_STATUS[policy.status]
        self.paid[place], self.outstanding[place] = policy.paid, policy.outstanding

    @property
    def due(self) -> Array:
        return due_of(self)


class Chosen(OfColumns):
    """The policies at some places. A column is selected when it is first asked for, and only then."""

    def __init__(self, policies: Policies, places: Array) -> None:
        self.policies, self.places = policies, places

    def __getattr__(self, name: str) -> Array:
        column: Array = getattr(self.policies, name)[self.places]
        setattr(self, name, column)
        return column

    @cached_property
    def due(self) -> Array:
        return due_of(self)


Some = Union[Policies, Chosen]


def due_of(of: Some) -> Array:
    """Returns the day on which the next premium is due, or NEVER if all are paid or the policy is paid up."""
    due: Array = tables.due_of(of)
    return due


def missed_by(of: Some, day: Array) -> Array:
    """Returns how many unpaid premiums fell due up to and including the day."""
    missed: Array = tables.missed_by(of, day)
    return missed


def is_insured(of: Some) -> Array:
    insured: Array = tables.is_insured(of)
    return insured


class IssueTerms(NamedTuple):
    """The terms of issues, and what follows from them: the years of cover, the number of yearly premiums, the end of the
    cover."""

    plan: Array
    age: Array
    years: Array
    issued: Array
    cover: Array
    payments: Array
    end: Array


def issue_terms(plan: Array, age: Array, years: Array, issued: Array) -> IssueTerms:
    # 131 less an age has to fit, whatever the age
    cover, payments = tables.cover_of(plan, age.astype(np.int16), years, np.where)
    return IssueTerms(plan, age, years, issued, cover, payments, anniversaries(issued, cover))


def issued_by(records: Records, places: Array) -> Policies:
    """Returns the policies as the issues at these places leave them."""
    terms = issue_terms(*(column[places] for column in (records.plan, records.age, records.years, records.day)))
    count = len(places)
    return Policies(records.number[places], *terms, records.amount[places], records.premium[places], terms.issued.copy(),
                    np.full(count, INFORCE, np.uint8), np.zeros(count, np.int16), np.zeros(count, np.int64))


def policies_in(of: Sequence[Policy]) -> Policies:
    """Returns the columns of policies that are given as objects."""
    def column(name: str, kind: type) -> Array:
        return np.array([getattr(policy, name) for policy in of], kind)

    plan = np.array([PLAN_CODES[policy.plan] for policy in of], np.uint8)
    issued, last = (np.array([number_at(getattr(policy, name)) for policy in of], np.int32) for name in ("issued", "last"))
    status = np.array([CODE_OF_STATUS[policy.status] for policy in of], np.uint8)
    return Policies(column("number", np.uint32), *issue_terms(plan, column("age", np.uint8), column("years", np.uint8), issued),
                    column("amount", np.int64), column("premium", np.int64), last, status, column("paid", np.int16),
                    column("outstanding", np.int64))


def together(one: Policies, other: Policies) -> Policies:
    """Returns the policies of `one` followed by those of `other`."""
    return Policies(*(np.concatenate([getattr(one, column.name), getattr(other, column.name)]) for column in fields(one)))


# --- a command on each policy ---

def is_refused(of: Some, kind: int, day: Array, amount: Cents) -> Array:
    """Returns for each policy whether the rules refuse a command of this kind, which is neither an issue nor an upgrade."""
    first, *others = CHECKS[KINDS[kind]]
    refused: Array = first.applies(of, day, amount)
    for check in others:
        refused |= check.applies(of, day, amount)
    return refused


def change(policies: Policies, places: Array, of: Some, kind: int, line: Line) -> dict[str, Array]:
    """Writes the effect of accepted commands of one kind into the policies at these places, and returns the changed columns; `of`
    has the present ones."""
    changes = CHANGES[KINDS[kind]](of, line)
    policies.last[places] = line.day
    for name, column in changes.items():
        getattr(policies, name)[places] = column
    return changes
