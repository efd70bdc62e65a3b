"""Policies and books by the rules of docs/reference/rules.md.

A posting may be any object with the fields of `Posting`. Amounts are in cents.
"""
from __future__ import annotations

import datetime
from dataclasses import dataclass, replace
from typing import Any, Callable, Iterable, NamedTuple, Protocol, Union

from tests.rules.page import BOOKED, CHECKS, MOST_COMMANDS, REASONS

LAST_AGE = 131
GRACE = datetime.timedelta(31)
EARLY = datetime.timedelta(90)
REINSTATEMENT_YEARS = 3
ACCOUNTS = ("cash", "premiums", "incurred", "payable")
Value = Union[datetime.date, int, str, None]


class Posting(Protocol):
    """The fields of a command; those that its kind does not have are empty or 0."""

    @property
    def kind(self) -> str: ...
    @property
    def number(self) -> int: ...
    @property
    def on(self) -> datetime.date: ...
    @property
    def plan(self) -> str: ...
    @property
    def age(self) -> int: ...
    @property
    def years(self) -> int: ...
    @property
    def amount(self) -> int: ...
    @property
    def premium(self) -> int: ...


def anniversary(day: datetime.date, years: int) -> datetime.date:
    """Returns the same day of a later year; of 29 February, the 28th in a year that has no 29th."""
    year = day.year + years
    is_leap = year % 4 == 0 and (year % 100 != 0 or year % 400 == 0)
    return datetime.date(year, 2, 28) if (day.month, day.day) == (2, 29) and not is_leap else day.replace(year=year)


def completed(issued: datetime.date, day: datetime.date) -> int:
    """Returns the number of anniversaries after the day of issue up to a day."""
    return sum(anniversary(issued, years) <= day for years in range(1, day.year - issued.year + 1))


@dataclass(frozen=True)
class Policy:
    """A policy: its terms; its last day; its status; and how many premiums are paid, and how much of a benefit is not."""

    number: int
    plan: str
    age: int
    years: int
    amount: int
    premium: int
    issued: datetime.date
    last: datetime.date
    status: str = "inforce"
    paid: int = 0
    outstanding: int = 0

    @property
    def end(self) -> datetime.date:
        """The end of cover."""
        return anniversary(self.issued, self.years if self.plan in ("term", "endowment") else LAST_AGE - self.age)

    @property
    def premiums(self) -> int:
        """The number of premiums."""
        return LAST_AGE - self.age if self.plan == "whole" else self.years

    def due_day(self, k: int) -> datetime.date:
        """The due day of the k-th premium, counted from 0."""
        return anniversary(self.issued, k)

    @property
    def due(self) -> datetime.date | None:
        """The due day of the next premium; a paid-up policy owes none."""
        is_owed = self.status != "paidup" and self.paid < self.premiums
        return self.due_day(self.paid) if is_owed else None

    @property
    def reinstatement_end(self) -> datetime.date:
        return anniversary(self.issued, self.paid + REINSTATEMENT_YEARS)

    def missed(self, day: datetime.date) -> int:
        """The missed premiums by a day."""
        return sum(self.due_day(k) <= day for k in range(self.paid, self.premiums))


# --- the checks: whether each refuses the line, and the value of the refusal ---

def is_late(of: Policy, day: datetime.date) -> bool:
    """Returns whether a premium is due, and the day is more than 31 days after its due day."""
    return of.due is not None and day > of.due + GRACE


WHEN: dict[str, Callable[[Policy, Posting], tuple[bool, Value]]] = {
    "last day": lambda of, it: (it.on < of.last, of.last),
    "in force": lambda of, it: (of.status != "inforce", of.status),
    "lapsed": lambda of, it: (of.status != "lapsed", of.status),
    "insured status": lambda of, it: (of.status not in ("inforce", "paidup"), of.status),
    "claimed or matured": lambda of, it: (of.status not in ("claimed", "matured"), of.status),
    "term": lambda of, it: (it.on >= of.end, of.end),
    "nothing due": lambda of, it: (of.paid == of.premiums, None),
    "too early": lambda of, it: (of.due is not None and it.on < of.due - EARLY, of.due),
    "grace": lambda of, it: (is_late(of, it.on), of.due),
    "amount": lambda of, it: (it.amount != of.premium, of.premium),
    "reduction": lambda of, it: (it.amount >= of.amount, of.amount),
    "arrears": lambda of, it: (not is_late(of, it.on), of.due),
    "too late": lambda of, it: (it.on > of.reinstatement_end, of.reinstatement_end),
    "sum": lambda of, it: (it.amount != of.missed(it.on) * of.premium, of.missed(it.on) * of.premium),
    "outstanding": lambda of, it: (it.amount > of.outstanding, of.outstanding),
    "end": lambda of, it: (it.on < of.end, of.end),
}
# checks that a book makes, and not a policy
OF_BOOK = ("number never used", "upgrade", "none before it")


class Refusal(NamedTuple):
    """A reason of docs/reference/refusals.md and its value: a day, an amount, a status, a position, or None."""

    word: str
    value: Value = None

    def words(self) -> list[str]:
        if isinstance(self.value, int):
            return [self.word, f"{self.value // 100}.{self.value % 100:02}"]
        return [self.word] if self.value is None else [self.word, str(self.value)]


# --- what each command changes ---

def issued(it: Posting) -> Policy:
    return Policy(it.number, it.plan, it.age, it.years, it.amount, it.premium, it.on, it.on)


def settled(of: Policy, it: Posting) -> Policy:
    left = of.outstanding - it.amount
    return replace(of, outstanding=left, status=of.status if left else "settled")


def matured(of: Policy, it: Posting) -> Policy:
    return replace(of, status="expired") if of.plan == "term" else replace(of, status="matured", outstanding=of.amount)


CHANGED: dict[str, Callable[[Policy, Posting], Policy]] = {
    "premium": lambda of, it: replace(of, paid=of.paid + 1),
    "alter": lambda of, it: replace(of, amount=it.amount, premium=it.premium),
    "lapse": lambda of, it: replace(of, status="lapsed"),
    "reinstate": lambda of, it: replace(of, status="inforce", paid=of.paid + of.missed(it.on)),
    "claim": lambda of, it: replace(of, status="claimed", outstanding=of.amount),
    "settle": settled,
    "mature": matured,
    "paidup": lambda of, it: replace(of, status="paidup", amount=it.amount),
}


def decide(policy: Policy | None, it: Posting) -> Refusal | Policy:
    """Returns the first reason to refuse a posting other than an upgrade, or the policy after it."""
    if it.kind == "issue":
        return issued(it) if policy is None else Refusal(REASONS["number never used"])
    if policy is None:
        return Refusal(REASONS["(any other command)"])
    for check in CHECKS[it.kind]:
        if check not in OF_BOOK:
            is_refused, value = WHEN[check](policy, it)
            if is_refused:
                return Refusal(REASONS[check], value)
    return replace(CHANGED[it.kind](policy, it), last=it.on)


def booking_of(it: Posting, after: Policy | None) -> dict[str, int]:
    """Returns what an accepted posting books on each account; a benefit books the policy's amount, unless it expired."""
    if after is None or after.status == "expired":
        return {}
    cents = after.amount if it.kind in ("claim", "mature") else it.amount
    return {account: sign * cents for account, sign in BOOKED[it.kind].items()}


# --- a book ---

class Upgraded:
    """What an accepted upgrade leaves: no policy."""


class Book:
    """The accepted postings, the policies after them in order of issue, and the position of the upgrade, or 0."""

    def __init__(self, postings: Iterable[Posting] = ()) -> None:
        self.commands: list[Any] = []
        self.policies: dict[int, Policy] = {}
        self.upgrade = 0
        for posting in postings:
            self.post(posting)

    def judge(self, it: Posting) -> Refusal | Policy | Upgraded:
        if it.kind == "upgrade":
            return Refusal(REASONS["none before it"], str(self.upgrade)) if self.upgrade else Upgraded()
        if "upgrade" in CHECKS[it.kind] and not self.upgrade:
            return Refusal(REASONS["upgrade"])
        return decide(self.policies.get(it.number), it)

    def decide(self, it: Posting) -> Refusal | Policy | Upgraded:
        """Returns the first reason to refuse a posting, or what it leaves; a full book refuses what has no other reason."""
        answer = self.judge(it)
        is_full = len(self.commands) >= MOST_COMMANDS and not isinstance(answer, Refusal)
        return Refusal(REASONS["(every posting)"], str(MOST_COMMANDS)) if is_full else answer

    def take(self, it: Posting, after: Policy | Upgraded) -> None:
        self.commands.append(it)
        if isinstance(after, Policy):
            self.policies[it.number] = after
        else:
            self.upgrade = len(self.commands)

    def post(self, it: Posting) -> dict[str, int]:
        """Posts what the rules must accept, and returns what it books."""
        answer = self.decide(it)
        assert not isinstance(answer, Refusal), f"posting {len(self.commands) + 1} can't follow: {','.join(answer.words())}"
        self.take(it, answer)
        return booking_of(it, answer if isinstance(answer, Policy) else None)


def balances_of(postings: Iterable[Posting]) -> dict[str, int]:
    book, balances = Book(), dict.fromkeys(ACCOUNTS, 0)
    for posting in postings:
        for account, cents in book.post(posting).items():
            balances[account] += cents
    return balances
