"""Reads and writes commands as rows of a script and as bodies of records, and decides which commands are valid."""
from __future__ import annotations

import datetime
import struct
from dataclasses import dataclass
from functools import lru_cache

from life_tools.common.formats import FIELDS, FIRST_DAY, KINDS, LAST_DAY, MOST_NUMBER, PLANS, Wrong, money
from life_tools.rules.tables import OLDEST_AT_ISSUE, PLAN_CODES, most_cents, terms_fit

BODY_SIZE = 64
CODES = {kind: code for code, kind in KINDS.items()}
EPOCH = datetime.date(1970, 1, 1)
EPOCH_ORDINAL = EPOCH.toordinal()


@dataclass(frozen=True, slots=True)
class Command:
    """A posting: amounts are in cents; a field that its kind does not have is empty or 0. An upgrade has only its kind."""

    kind: str
    number: int = 0
    day: datetime.date | None = None
    plan: str = ""
    age: int = 0
    years: int = 0
    amount: int = 0
    premium: int = 0

    @property
    def on(self) -> datetime.date:
        """Returns the day of a command that is not an upgrade."""
        assert self.day is not None
        return self.day


UPGRADE = Command("upgrade")


def number_at(day: datetime.date) -> int:
    return day.toordinal() - EPOCH_ORDINAL


def day_at(number: int) -> datetime.date:
    """Returns the day that is `number` days after 1970-01-01."""
    return EPOCH + datetime.timedelta(int(number))


def words_of(command: Command) -> list[str]:
    """Returns the fields of a script's line after the lane: kind, policy number, day, and the fields that the kind has."""
    if command.kind == "upgrade":
        return [command.kind]
    words = [command.kind, str(command.number), str(command.day)]
    for name in FIELDS[command.kind]:
        value = getattr(command, name)
        words.append(money(value) if name in ("amount", "premium") else str(value))
    return words


def years_fit(plan: str, age: int, years: int) -> bool:
    return bool(terms_fit(PLAN_CODES.get(plan, 0), age, years))


def why_invalid(command: Command) -> str | None:
    """Returns what is wrong with the first field that is outside its limits, or None if the command is valid."""
    if command.kind == "upgrade":
        return None if command == UPGRADE else "an upgrade has its kind alone"
    if not 1 <= command.number <= MOST_NUMBER:
        return f"the policy's number is {command.number}"
    if not command.day or not FIRST_DAY <= command.day <= LAST_DAY:
        return f"the day is {command.day}"
    most = most_cents(command.kind)
    held = FIELDS[command.kind]
    if "amount" in held and not 1 <= command.amount <= most:
        return f"the amount is {money(command.amount)}"
    if "premium" in held and not 1 <= command.premium <= most:
        return f"the premium is {money(command.premium)}"
    if command.kind == "issue" and command.age > OLDEST_AT_ISSUE:
        return f"the age is {command.age}"
    if command.kind == "issue" and not years_fit(command.plan, command.age, command.years):
        return f"a {command.plan} at age {command.age} has {command.years} years"
    return None


def demand_valid(command: Command) -> None:
    """Raises Wrong if a field of the command is outside its limits."""
    why = why_invalid(command)
    if why:
        raise Wrong(why)


def body_of(command: Command) -> bytes:
    """Returns the 64 bytes of the record's body for a command."""
    day = number_at(command.day) if command.day else 0
    head = bytes([CODES[command.kind], PLAN_CODES.get(command.plan, 0), command.age, command.years])
    return (head + command.number.to_bytes(4, "big") + day.to_bytes(4, "big", signed=True)
            + command.amount.to_bytes(8, "big") + command.premium.to_bytes(8, "big") + bytes(36))


# kind, plan, age, years, number, day, amount, premium; the bytes after them are 0
BODY = struct.Struct(">BBBBIiQQ")
NOTHING = bytes(BODY_SIZE - BODY.size)


@lru_cache(2**17)
def day_in_record(days: int) -> datetime.date:
    try:
        return EPOCH + datetime.timedelta(days)
    except OverflowError:
        raise Wrong("the day lies outside the calendar") from None


def command_in(body: bytes) -> Command:
    """Returns the valid command that a record's body encodes, and raises Wrong if it encodes none."""
    code, plan, age, years, number, days, amount, premium = BODY.unpack_from(body)
    kind = KINDS.get(code)
    if kind is None:
        raise Wrong(f"there is no kind {code}")
    is_issue = kind == "issue"
    if is_issue and plan not in PLANS:
        raise Wrong(f"there is no plan {plan}")
    if kind == "upgrade":
        if body != body_of(UPGRADE):
            raise Wrong("an upgrade has bytes where it holds nothing")
        return UPGRADE
    command = Command(kind, number, day_in_record(days), PLANS[plan] if is_issue else "", age if is_issue else 0,
                      years if is_issue else 0, amount, premium)
    demand_valid(command)
    held = FIELDS[kind]
    idle = (not is_issue and plan | age | years) or ("amount" not in held and amount) or ("premium" not in held and premium)
    if idle or body[BODY.size:] != NOTHING:
        raise Wrong(f"a {kind} has bytes where it holds nothing")
    return command
