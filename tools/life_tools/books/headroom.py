"""Computes how many commands a book has left, how fast they are used, and how many its policies will still need.

Days are numbers from 1970-01-01.
"""
from __future__ import annotations

import datetime
import json
import os
import re
from typing import Iterable, Iterator, NamedTuple

from life_tools.common.arrays import Array, np
from life_tools.journal.columns import Columns
from life_tools.journal.day_columns import anniversaries, day_at, number_at
from life_tools.common.formats import LAST_DAY, MOST_COMMANDS, Wrong, bytes_of, number_of, rows_in
from life_tools.journal.policy_columns import Policies, is_insured
from life_tools.rules.tables import INFORCE, TERM

YEAR = 365
# more days than from any present day to the end of any policy
MOST_DAYS = 200_000
# a book is reported so many days before it is full, unless another number is given
AHEAD = 2 * YEAR
DAY_IN_NAME = re.compile(r"(?<![0-9])[0-9]{4}-[0-9]{2}-[0-9]{2}(?![0-9])")


class Needed(NamedTuple):
    """The commands that policies still need: premiums, maturities and settlements at the end, and all of them by day from
    today."""

    premiums: int
    at_end: int
    by_day: Array


class Room(NamedTuple):
    """The capacity of a book. `full` and `full_alone` are the days on which a command finds it full, or None."""

    commands: int
    used: int
    full: int | None
    premiums: int
    at_end: int
    full_alone: int | None

    @property
    def left(self) -> int:
        return MOST_COMMANDS - self.commands

    def row(self) -> str:
        return (f"{self.commands},{self.left},{self.used},{until(self.full)},{self.premiums},{self.at_end},"
                f"{until(self.full_alone)}")

    def warnings(self, today: int, least: int, within: int) -> Iterator[str]:
        """Yields what is to be reported: fewer commands left than `least`, or full within so many days."""
        if self.left < least:
            yield f"{self.left} commands are left, fewer than {least}"
        days = [day for day in (self.full, self.full_alone) if day is not None]
        if days and min(days) <= today + within:
            yield (f"{self.left} commands are left, {self.used} were used in the last year, and it is full on "
                   f"{day_at(min(days))}: life-tools books split divides it")


HEAD = "commands,left,in_last_year,full,premiums,at_end,full_without_issues"


def until(day: int | None) -> str:
    if day is None:
        return "never"
    return str(day_at(day)) if day <= number_at(LAST_DAY) else f"after {LAST_DAY}"


# --- what policies need ---

def needed_by(policies: Policies, today: int) -> Needed:
    """Returns what policies need, with each command on its day, or today if its day has passed."""
    insured = is_insured(policies)
    at_end = np.where(insured, np.where(policies.plan == TERM, 1, 2), 0) + (policies.outstanding > 0)
    by_day = counted(np.where(insured, policies.end, today), today, at_end)
    paying = np.flatnonzero((policies.status == INFORCE) & (policies.paid < policies.payments))
    issued, paid, payments = policies.issued[paying], policies.paid[paying], policies.payments[paying]
    premiums = int((payments - paid).sum())
    while len(paid):
        by_day += counted(anniversaries(issued, paid), today)
        is_paying = paid + 1 < payments
        issued, paid, payments = issued[is_paying], paid[is_paying] + 1, payments[is_paying]
    return Needed(premiums, int(at_end.sum()), by_day)


def counted(days: Array, today: int, each: Array | None = None) -> Array:
    """Returns how many commands fall on each day from today on; those of earlier days fall on today."""
    return np.bincount(np.maximum(days - today, 0), each, MOST_DAYS).astype(np.int64)


def first_beyond(by_day: Array, left: int, today: int) -> int | None:
    """Returns the day of the first command that finds the book full, or None."""
    is_beyond = by_day.cumsum() > left
    return today + int(is_beyond.argmax()) if is_beyond.any() else None


# --- how fast commands are used ---

class Recorded(NamedTuple):
    """The count that was noted on a day."""

    day: int
    commands: int


def used_in_year(days: Array, today: int, recorded: Iterable[Recorded]) -> int:
    """Returns the number of commands in the last year: by their days or by the noted counts, whichever is greater."""
    by_days = int(((days > today - YEAR) & (days <= today)).sum())
    noted = sorted(it for it in recorded if it.day <= today and it.commands <= len(days))
    before = [it for it in noted if it.day <= today - YEAR]
    base = before[-1] if before else noted[0] if noted else None
    return max(by_days, len(days) - base.commands if base else 0)


def recorded_in_log(log: str) -> Iterator[Recorded]:
    """Yields the counts before each run that `life-tools day` noted, with the day of the run."""
    runs = os.path.join(log, "runs")
    for name in os.listdir(runs) if os.path.isdir(runs) else ():
        path = os.path.join(runs, name, "run.json")
        if name.isdecimal() and os.path.isfile(path):
            record = json.loads(bytes_of(path))
            yield Recorded(number_at(datetime.date.fromisoformat(record["begun"][:10])), record["before"])


def day_in_name(path: str) -> int:
    """Returns the day that is part of a file's name."""
    found = DAY_IN_NAME.search(os.path.basename(path))
    try:
        return number_at(datetime.date.fromisoformat(found[0] if found else ""))
    except ValueError:
        raise Wrong(f"{path} has no day YYYY-MM-DD in its name, on which its positions were noted") from None


def recorded_at(path: str) -> dict[str, Recorded]:
    """Returns the positions of a month-end by the books' names; the file has rows of a name and a position, and a day in its
    name."""
    day, found = day_in_name(path), {}
    for row in rows_in(bytes_of(path)):
        count = number_of(row.fields[1], 0, MOST_COMMANDS) if len(row.fields) == 2 else None
        if count is None:
            raise Wrong(f"{path}, line {row.line}: {row.text} is no name with a position")
        found[row.fields[0]] = Recorded(day, count)
    return found


def room_of(book: Columns, recorded: Iterable[Recorded], today: int) -> Room:
    """Returns the capacity of a book, with the counts that were noted of it."""
    left, needed = MOST_COMMANDS - book.count, needed_by(book.policies, today)
    used = used_in_year(book.records.day, today, recorded)
    return Room(book.count, used, today + left * YEAR // used if used else None, needed.premiums, needed.at_end,
                first_beyond(needed.by_day, left, today))
