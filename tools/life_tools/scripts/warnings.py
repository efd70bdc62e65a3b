"""Warns of what may be wrong with a script's postings before they are sent, although each of them is a valid line."""
from __future__ import annotations

import datetime
from typing import Callable, Iterable, Iterator

from life_tools.rules.commands import Command, command_in
from life_tools.rules.deaths import standing
from life_tools.common.formats import money
from life_tools.journal.file import gate_of
from life_tools.rules.remedies import remedy_of
from life_tools.rules.policies import GRACE, Book, Policy, Refusal, anniversary, due_of, end_of
from life_tools.scripts.lines import Line

# a posting whose day is farther from what came before it gets a warning
FAR = datetime.timedelta(400)


class Desk:
    """The policies that a script names, in the state in which each row meets them; accepted rows change them."""

    def __init__(self, today: datetime.date) -> None:
        self.book, self.today = Book(), today
        self.positions: dict[Command, int] = {}
        self.days: dict[int, datetime.date] = {}
        self.reinstated: dict[int, datetime.date] = {}
        # for each policy, its accepted commands in order
        self.taken: dict[int, list[Command]] = {}

    def read(self, data: bytes, upgrade: int, places: Iterable[int]) -> None:
        """Takes the commands at these places of a file's records, which the program has judged, and the position of the
        upgrade."""
        self.book.upgrade = upgrade
        for place in places:
            self.take(command_in(data[gate_of(place) + 1:gate_of(place + 1)]), place + 1)

    def warnings(self, line: Line, command: Command) -> list[str]:
        """Returns what may be wrong with the next posting of its lane."""
        policy = self.book.policies.get(command.number)
        found = [text for look in LOOKS for text in look(self, line, command, policy)]
        if command.day:
            self.days[line.lane] = command.day
        return found

    def take(self, command: Command, position: int) -> None:
        """Keeps a posting that was accepted."""
        after = self.book.judge(command)
        if isinstance(after, Policy):
            self.book.policies[command.number] = after
        elif not isinstance(after, Refusal):
            self.book.upgrade = position
        self.positions.setdefault(command, position)
        self.taken.setdefault(command.number, []).append(command)
        if command.kind == "reinstate":
            self.reinstated[command.number] = command.on

    def advice(self, line: Line, refused: list[str]) -> list[str]:
        """Returns the advice on a line that was refused for this reason; for a claim it also considers its policy's postings."""
        command, what = line.command, remedy_of(line.kind, refused).what
        if command and command.kind == "claim" and (refused[0] == "beforelast" or refused == ["wrongstatus", "lapsed"]):
            what = standing(self.taken.get(command.number, []), command)
        return [f"to do: {what}"]


Look = Callable[[Desk, Line, Command, "Policy | None"], Iterator[str]]


def is_known(desk: Desk, line: Line, command: Command, policy: Policy | None) -> Iterator[str]:
    if policy is None and command.kind not in ("issue", "upgrade"):
        yield f"policy {command.number} is unknown"


def is_near(desk: Desk, line: Line, command: Command, policy: Policy | None) -> Iterator[str]:
    if command.day is None:
        return
    if command.day > desk.today:
        yield f"the day is in the future (today is {desk.today}): correct the date"
    if policy is None or command.kind == "issue":
        return
    before, what = came_before(command, policy)
    if abs(command.day - before) > FAR:
        days = abs((command.day - before).days)
        yield f"the day is {days} days {'after' if command.day > before else 'before'} {what} {before}"


def came_before(command: Command, policy: Policy) -> tuple[datetime.date, str]:
    """Returns the day from which a posting's distance is measured, and what that day is.

    A policy for which no premium is due any more has no postings for years, and then matures at its end; a claim on it may come
    on any day before that.
    """
    assert command.day
    end = end_of(policy)
    if command.kind == "mature" and policy.last < end:
        return end, "the end of the policy's term,"
    if command.kind == "claim" and due_of(policy) is None and policy.last < command.day < end:
        return command.day, ""
    return policy.last, "the policy's newest posting, which is of"


def is_in_order(desk: Desk, line: Line, command: Command, policy: Policy | None) -> Iterator[str]:
    before = desk.days.get(line.lane)
    if command.day and before and command.day < before:
        yield f"the day is before that of the lane's posting above, which is {before}"


def is_new(desk: Desk, line: Line, command: Command, policy: Policy | None) -> Iterator[str]:
    position = desk.positions.get(command)
    if position:
        yield f"an accepted posting equals it, of position {position}"


def is_right_amount(desk: Desk, line: Line, command: Command, policy: Policy | None) -> Iterator[str]:
    if policy is None:
        return
    if command.kind == "premium" and command.amount != policy.premium:
        yield f"the policy's premium is {money(policy.premium)}"
    if command.kind == "settle" and command.amount > policy.outstanding:
        yield f"{money(policy.outstanding)} is outstanding"


def is_long_in_force(desk: Desk, line: Line, command: Command, policy: Policy | None) -> Iterator[str]:
    day = desk.reinstated.get(command.number) if command.kind == "claim" else None
    if day and command.on <= anniversary(day, 1):
        yield f"the policy was reinstated on {day}: is it known that the insured lived then?"


def is_premium_owed(desk: Desk, line: Line, command: Command, policy: Policy | None) -> Iterator[str]:
    """Reminds that a death within the days of grace is insured, but that the premium due is owed."""
    due = due_of(policy) if policy and command.kind == "claim" and policy.status == "inforce" else None
    if due and due <= command.on <= due + GRACE:
        assert policy
        yield (f"the premium of {money(policy.premium)} that is due on {due} is owed: post it before the claim, "
               "or deduct it from the settlement")


LOOKS: tuple[Look, ...] = (is_known, is_near, is_in_order, is_new, is_right_amount, is_long_in_force, is_premium_owed)
