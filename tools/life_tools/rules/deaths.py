"""Advises on a death claim that the rules refuse: was the policy insured on the day of death, by its postings up to then?

A claim cannot be posted for a day before the policy's last posting. Whether it may be posted at all depends on the policy's state
on the day of death and never on its present state, since it may have been reinstated since.
"""
from __future__ import annotations

import datetime
from typing import Sequence

from life_tools.rules.commands import Command
from life_tools.common.formats import money
from life_tools.rules.remedies import REFER
from life_tools.rules.policies import Policy, Refusal, anniversary, changed, decide, issued

# kinds of postings that leave a policy insured, though perhaps for another amount
HARMLESS = ("premium", "alter", "paidup")


def after(commands: Sequence[Command]) -> Policy | None:
    """Returns the policy after its accepted commands, which begin with its issue."""
    policy: Policy | None = None
    for command in commands:
        policy = changed(policy, command) if policy else issued(command)
    return policy


def is_insured(policy: Policy | None, death: Command) -> bool:
    return isinstance(decide(policy, death), Policy)


def listed(commands: Sequence[Command]) -> str:
    return ", ".join(f"{command.kind} of {command.day}" for command in commands)


def given_back(before: Policy, since: Sequence[Command], day: datetime.date) -> int:
    """Returns the sum in cents of the premiums in `since` that fell due after the day of death."""
    paid, cents = before.paid, 0
    for command in since:
        if command.kind == "premium":
            cents += command.amount if anniversary(before.issued, paid) > day else 0
            paid += 1
    return cents


def told_late(before: Policy, now: Policy, since: Sequence[Command], day: datetime.date) -> str:
    """Returns the advice for a death that was insured, if only premiums and reductions were posted since."""
    cents = given_back(before, since, day)
    back = f"; give back {money(cents)} outside" if cents else ""
    less = before.amount - now.amount
    left = f"; {money(less)} more was insured then, which stays outside" if less else ""
    return f"it was insured then: post the claim of {now.last}{back}{left}; note both days for the auditor"


def standing(commands: Sequence[Command], death: Command) -> str:
    """Returns the advice on a death, given all accepted commands of its policy."""
    day = death.on
    up_to = [command for command in commands if command.on <= day]
    before, at_end = after([command for command in up_to if command.on < day]), after(up_to)
    since = [command for command in commands if command.on > day]
    if is_insured(before, death) != is_insured(at_end, death):
        on_it = [command for command in up_to if command.on == day]
        return f"posted of that very day: {listed(on_it)}; the journal doesn't show whether it was insured then: {REFER}"
    if at_end is None or not is_insured(at_end, death):
        return f"it wasn't insured then: {REFER}; send no later day"
    now, other = after(commands), [command for command in since if command.kind not in HARMLESS]
    if not since or other or now is None or isinstance(decide(now, Command("claim", death.number, now.last)), Refusal):
        return f"it was insured then{'; posted since: ' if other else ''}{listed(other)}: {REFER}"
    return told_late(at_end, now, since, day)
