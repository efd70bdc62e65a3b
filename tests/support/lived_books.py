"""Draws a book whose policies have lived: premiums paid in time or not, and every other kind of command."""
from __future__ import annotations

import datetime
import random
from typing import NamedTuple

from life_tools.rules.commands import UPGRADE, Command
from tests.rules.policies import Policy, decide

LEAP_YEARS = (2000, 2004, 2008, 2012, 2016, 2020)
BEFALLS = ("claim", "lapse", "lapse", "paidup", "alter", "stop")


class Times(NamedTuple):
    """The first and the last day of a drawn book, the day of its upgrade, and how many of a hundred policies go on paying from
    one premium to the next."""

    first: datetime.date = datetime.date(1998, 1, 1)
    upgraded: datetime.date = datetime.date(2010, 6, 1)
    last: datetime.date = datetime.date(2024, 12, 31)
    go_on: int = 88


def drawn_issue(draw: random.Random, number: int, times: Times = Times()) -> Command:
    plan = draw.choice(("term", "whole", "endowment", "limited"))
    age = draw.randint(18, 70)
    years = 0 if plan == "whole" else draw.choice((2, 3, 5, 8, 12, 20))
    day = times.first + datetime.timedelta(draw.randrange((times.last - times.first).days))
    if draw.random() < 0.1:
        day = datetime.date(draw.choice([year for year in LEAP_YEARS if year >= times.first.year]), 2, 29)
    amount = draw.randint(1, 500) * 100000
    return Command("issue", number, day, plan, age, years, amount, amount // 50)


def following(draw: random.Random, policy: Policy, times: Times) -> Command | None:
    """Draws the next command on a policy, if any; the caller keeps it if the rules accept it."""
    number, due = policy.number, policy.due
    if policy.status in ("claimed", "matured"):
        day = policy.last + datetime.timedelta(draw.randrange(60))
        return Command("settle", number, day, amount=draw.choice((policy.outstanding, (policy.outstanding + 1) // 2)))
    if policy.status == "lapsed":
        day = policy.last + datetime.timedelta(draw.randrange(1200))
        missed = policy.missed(day) * policy.premium
        return Command("reinstate", number, day, amount=missed) if missed and draw.random() < 0.5 else None
    if due is not None and policy.status == "inforce" and draw.randrange(100) < times.go_on:
        day = max(policy.last, due + datetime.timedelta(draw.randint(-40, 31)))
        return Command("premium", number, day, amount=policy.premium)
    if draw.random() < 0.3 or due is None:
        return Command("mature", number, policy.end + datetime.timedelta(draw.randrange(20)))
    day = max(policy.last, due + datetime.timedelta(draw.randint(-200, 31)))
    return {
        "claim": Command("claim", number, day),
        "lapse": Command("lapse", number, max(policy.last, due + datetime.timedelta(draw.randint(32, 300)))),
        "paidup": Command("paidup", number, max(day, times.upgraded), amount=max(policy.amount // 3, 1)),
        "alter": Command("alter", number, day, amount=policy.amount - 100, premium=policy.premium + 100),
    }.get(draw.choice(BEFALLS))


def life_of(draw: random.Random, issue: Command, times: Times = Times()) -> list[Command]:
    policy = decide(None, issue)
    assert isinstance(policy, Policy)
    commands = [issue]
    for _ in range(policy.premiums + 8):
        tried = following(draw, policy, times)
        if tried is None:
            break
        after = decide(policy, tried)
        if tried.day and tried.day <= times.last and isinstance(after, Policy):
            commands.append(tried)
            policy = after
    return commands


def lived(seed: int, policies: int, times: Times = Times()) -> list[Command]:
    return lived_by(random.Random(seed), policies, times)


def lived_by(draw: random.Random, policies: int, times: Times = Times()) -> list[Command]:
    """Returns the commands of a book, sorted by day, with an upgrade among them."""
    numbers = draw.sample(range(1, 50 * policies), policies) if policies else []
    commands = [command for number in numbers for command in life_of(draw, drawn_issue(draw, number, times), times)]
    commands.sort(key=lambda command: str(command.day))
    place = next((place for place, it in enumerate(commands) if it.day and it.day >= times.upgraded), len(commands))
    return [*commands[:place], UPGRADE, *commands[place:]]
