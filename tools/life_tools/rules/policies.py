"""Decides by the tables of rules what a command makes of a policy or why it is refused; keeps the book and the accounts.

The rules themselves stand in `tables.py`. Here each command is judged alone, which gives the reason of a refusal.
"""
from __future__ import annotations

import datetime
from dataclasses import dataclass, replace
from functools import cached_property, lru_cache
from typing import Any, Callable, Iterable, Iterator, NamedTuple, Union

from life_tools.common.formats import MOST_COMMANDS, STATUSES, Wrong, money
from life_tools.rules import tables
from life_tools.rules.commands import Command, day_at, number_at
from life_tools.rules.tables import (ACCOUNTS, BOOKINGS, CHANGES, CHECKS, CODE_OF_STATUS, EARLY_DAYS, GRACE_DAYS, NEVER,
                                     PLAN_CODES, Check, Line)

GRACE = datetime.timedelta(GRACE_DAYS)
EARLY = datetime.timedelta(EARLY_DAYS)
Value = Union[datetime.date, int, str, None]


@dataclass(frozen=True, slots=True)
class Policy:
    """A policy at one moment: amounts are in cents, `paid` is the number of premiums paid, `last` the day of its last command."""

    number: int
    plan: str
    age: int
    years: int
    amount: int
    premium: int
    issued: datetime.date
    last: datetime.date
    status: str = "inforce"
    paid: int = 0
    outstanding: int = 0


class Refusal(NamedTuple):
    """The first reason that applies, and its value: a day, an amount in cents, a status, or None."""

    word: str
    value: Value = None

    def words(self) -> list[str]:
        if self.value is None:
            return [self.word]
        return [self.word, money(self.value) if isinstance(self.value, int) else str(self.value)]


# --- days of a policy ---

def anniversary(day: datetime.date, years: int) -> datetime.date:
    """Returns the anniversary after so many years; for a 29 February it is the 28th in a year that is not a leap year."""
    try:
        return day.replace(year=day.year + years)
    except ValueError:
        return day.replace(year=day.year + years, day=28)


def completed(issued: datetime.date, on: datetime.date) -> int:
    """Returns the number of whole years from a day to a later one."""
    years = on.year - issued.year
    return years if anniversary(issued, years) <= on else years - 1


def either(truth: object, one: Any, other: Any) -> Any:
    return one if truth else other


@lru_cache(maxsize=None)
def cover_of(plan: str, age: int, years: int) -> tuple[int, int]:
    """Returns the years of cover of a plan, and the number of its yearly premiums."""
    return tables.cover_of(PLAN_CODES[plan], age, years, either)


def years_of(policy: Policy) -> int:
    return cover_of(policy.plan, policy.age, policy.years)[0]


def payments_of(policy: Policy) -> int:
    return cover_of(policy.plan, policy.age, policy.years)[1]


def end_of(policy: Policy) -> datetime.date:
    return anniversary(policy.issued, years_of(policy))


def due_of(policy: Policy) -> datetime.date | None:
    """Returns the day on which the next premium is due, or None if all are paid or the policy is paid up."""
    due = Numbers(policy).due
    return None if due == NEVER else day_at(due)


def missed_by(policy: Policy, day: datetime.date) -> int:
    """Returns how many unpaid premiums fell due up to and including the day."""
    missed: int = tables.missed_by(Numbers(policy), number_at(day))
    return missed


class Numbers:
    """One policy as the tables of rules take it: days, plan and status are numbers."""

    either = staticmethod(either)

    def __init__(self, policy: Policy) -> None:
        self.policy, self.status, self.plan = policy, CODE_OF_STATUS[policy.status], PLAN_CODES[policy.plan]
        self.amount, self.premium, self.paid, self.outstanding = policy.amount, policy.premium, policy.paid, policy.outstanding

    @property
    def payments(self) -> int:
        return payments_of(self.policy)

    @property
    def last(self) -> int:
        return number_at(self.policy.last)

    @property
    def end(self) -> int:
        return number_at(end_of(self.policy))

    @cached_property
    def due(self) -> int:
        due: int = tables.due_of(self)
        return due

    def anniversary(self, years: int) -> int:
        return number_at(anniversary(self.policy.issued, years))

    def years_since_issue(self, day: int) -> int:
        return completed(self.policy.issued, day_at(day))


# --- decisions ---

# what a refusal shows, by the kind of its value
SHOWN: dict[str, Callable[[Any], Value]] = {"day": day_at, "status": lambda code: STATUSES[code - 1], "cents": int}


def refusal_by(check: Check, of: Numbers, day: int) -> Refusal:
    """Returns the refusal of a check that applies."""
    if check.value is None:
        return Refusal(check.reason)
    return Refusal(check.reason, SHOWN[check.shown_as](check.value(of, day)))


def changed(policy: Policy, command: Command) -> Policy:
    """Returns the policy after an accepted command."""
    return changed_by(Numbers(policy), command, number_at(command.on))


def changed_by(of: Numbers, command: Command, day: int) -> Policy:
    changes = CHANGES[command.kind](of, Line(day, command.amount, command.premium))
    if "status" in changes:
        changes["status"] = STATUSES[changes["status"] - 1]
    return replace(of.policy, last=command.on, **changes)


def issued(command: Command) -> Policy:
    """Returns the policy that an issue opens."""
    day = command.on
    return Policy(command.number, command.plan, command.age, command.years, command.amount, command.premium, day, day)


def decide(policy: Policy | None, command: Command) -> Refusal | Policy:
    """Returns the first reason to refuse the command, or the policy after it. `policy` is None if there is none yet.

    An upgrade is not decided here.
    """
    if command.kind == "issue":
        return Refusal("taken") if policy else issued(command)
    if policy is None:
        return Refusal("unknown")
    of, day = Numbers(policy), number_at(command.on)
    for check in CHECKS[command.kind]:
        if check.applies(of, day, command.amount):
            return refusal_by(check, of, day)
    return changed_by(of, command, day)


def refused_by_upgrade(kind: str, upgrade: int) -> Refusal | None:
    """Returns the refusal of a command after an upgrade at this position, or after none if it is 0, if the upgrade decides it."""
    if kind == "upgrade" and upgrade:
        return Refusal("upgraded", str(upgrade))
    return Refusal("notupgraded") if kind == "paidup" and not upgrade else None


# --- the book and the accounts ---

@dataclass(frozen=True)
class Upgraded:
    """What an accepted upgrade leaves: no policy."""


class Book:
    """The accepted commands, the policies after them in order of issue, and the position of the upgrade, or 0."""

    def __init__(self, commands: Iterable[Command] = ()) -> None:
        self.commands: list[Command] = []
        self.policies: dict[int, Policy] = {}
        self.upgrade = 0
        for command in commands:
            self.post(command)

    def judge(self, command: Command) -> Refusal | Policy | Upgraded:
        """Returns what the rules reply: it checks what depends on the upgrade, and otherwise what the policy's rules decide."""
        refusal = refused_by_upgrade(command.kind, self.upgrade)
        if refusal:
            return refusal
        return Upgraded() if command.kind == "upgrade" else decide(self.policies.get(command.number), command)

    def decide(self, command: Command) -> Refusal | Policy | Upgraded:
        answer = self.judge(command)
        if not isinstance(answer, Refusal) and len(self.commands) >= MOST_COMMANDS:
            return Refusal("full", str(MOST_COMMANDS))
        return answer

    def take(self, command: Command, after: Policy | Upgraded) -> None:
        """Keeps an accepted command and the policy after it."""
        self.commands.append(command)
        if isinstance(after, Policy):
            self.policies[command.number] = after
        else:
            self.upgrade = len(self.commands)

    def post(self, command: Command) -> None:
        """Posts a command that must be accepted, and raises Wrong if it is refused."""
        answer = self.decide(command)
        if isinstance(answer, Refusal):
            raise Wrong(f"command {len(self.commands) + 1} can't follow: {','.join(answer.words())}")
        self.take(command, answer)


def booking_of(command: Command, after: Policy | None) -> dict[str, int]:
    """Returns what an accepted command books on each account, in cents; `after` is the policy after it, if it has one."""
    booking = BOOKINGS.get(command.kind)
    if after is None or booking is None:
        return {}
    cents = command.amount if booking.is_of_line else after.outstanding
    return {booking.first: booking.sign * cents, booking.second: -booking.sign * cents} if cents else {}


def bookings(commands: Iterable[Command]) -> Iterator[tuple[Command, dict[str, int]]]:
    """Yields each command of a journal with what it books."""
    book = Book()
    for command in commands:
        book.post(command)
        yield command, booking_of(command, book.policies.get(command.number))


def balances_of(commands: Iterable[Command]) -> dict[str, int]:
    balances = dict.fromkeys(ACCOUNTS, 0)
    for _, booked in bookings(commands):
        for account, cents in booked.items():
            balances[account] += cents
    return balances
