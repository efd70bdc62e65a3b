"""Flags postings that people should look at: the rules accepted them, but they are rare or doubtful."""
from __future__ import annotations

import datetime
from dataclasses import dataclass, field
from operator import attrgetter
from typing import Iterator, NamedTuple

from life_tools.common.arrays import Array, np
from life_tools.journal.columns import Columns, columns_at
from life_tools.rules.commands import Command
from life_tools.journal.day_columns import FIRST, anniversaries, years_at
from life_tools.journal.records import CLAIM, MATURE, REINSTATE, SETTLE
from life_tools.common.progress import Progress
from life_tools.rules.policies import Policy, anniversary, changed, end_of, issued
from life_tools.rules.tables import NEVER, REINSTATEMENT_ANNIVERSARIES

DAYS_LATE = 90
# each flag, and which postings have it
FLAGS = {"soon-after-reinstatement": "a claim within a year of a reinstatement",
         "on-last-day": "a claim on the very day of the policy's previous posting, such as a death that was reported late",
         "paid-at-once": "a claim that is settled to the cent on its own day",
         "last-day-of-right": "a reinstatement on the last day on which it was possible",
         "late-maturity": f"a maturity more than {DAYS_LATE} days after the end of the term"}
SOON, ON_LAST_DAY, AT_ONCE, LAST_DAY_OF_RIGHT, LATE = FLAGS
LONGEST_YEAR = 366
DAY = datetime.timedelta(1)


class Flag(NamedTuple):
    """A posting to look at: its flag, position, policy, kind, day and cents; the day with which it is compared, and why."""

    flag: str
    position: int
    policy: int
    kind: str
    day: datetime.date
    cents: int
    since: datetime.date
    why: str


def last_day_of_right(policy: Policy) -> datetime.date:
    """Returns the last day on which a lapsed policy can be reinstated."""
    return min(anniversary(policy.issued, policy.paid + REINSTATEMENT_ANNIVERSARIES), end_of(policy) - DAY)


@dataclass
class Watch:
    """Flags postings of a journal; each posting is shown to it with its policy before and after."""

    days_late: int = DAYS_LATE
    found: list[Flag] = field(default_factory=list)
    reinstated: dict[int, datetime.date] = field(default_factory=dict)
    claimed: dict[int, datetime.date] = field(default_factory=dict)

    def see(self, position: int, command: Command, before: Policy, after: Policy) -> None:
        if command.kind == "claim":
            self.see_claim(position, command, before, after)
        elif command.kind == "settle":
            self.see_settlement(position, command, after)
        elif command.kind == "reinstate":
            self.see_reinstatement(position, command, before)
        elif command.kind == "mature":
            self.see_maturity(position, command, before, after)

    def flag(self, flag: str, position: int, command: Command, cents: int, since: datetime.date, why: str) -> None:
        self.found.append(Flag(flag, position, command.number, command.kind, command.on, cents, since, why))

    def see_claim(self, position: int, command: Command, before: Policy, after: Policy) -> None:
        reinstated = self.reinstated.get(command.number)
        if reinstated and command.on <= anniversary(reinstated, 1):
            self.flag(SOON, position, command, after.outstanding, reinstated, "reinstated within a year before")
        if command.on == before.last:
            self.flag(ON_LAST_DAY, position, command, after.outstanding, before.last, "of the day of the posting before it")
        self.claimed[command.number] = command.on

    def see_settlement(self, position: int, command: Command, after: Policy) -> None:
        claimed = self.claimed.get(command.number)
        if claimed == command.on and not after.outstanding:
            whole = "in one settlement" if command.amount == after.amount else "with this settlement"
            self.flag(AT_ONCE, position, command, command.amount, claimed, f"paid whole on the day of the claim, {whole}")

    def see_reinstatement(self, position: int, command: Command, before: Policy) -> None:
        self.reinstated[command.number] = command.on
        if command.on == last_day_of_right(before):
            self.flag(LAST_DAY_OF_RIGHT, position, command, command.amount, command.on, "on the last day of the right to it")

    def see_maturity(self, position: int, command: Command, before: Policy, after: Policy) -> None:
        end = end_of(before)
        late = (command.on - end).days
        if late > self.days_late:
            self.flag(LATE, position, command, after.outstanding, end, f"{late} days after the end")


# --- a journal ---

def days_before(book: Columns) -> Array:
    """Returns for each posting the day of its policy's previous posting, or NEVER."""
    day, order = book.records.day, np.argsort(book.place, kind="stable")
    found = np.full(book.count, NEVER)
    follows = np.flatnonzero(np.diff(book.place[order]) == 0)
    found[order[follows + 1]] = day[order[follows]]
    return found


def doubtful_claims(book: Columns) -> Array:
    """Returns the places of claims on the day of the policy's previous posting, or about a year after a reinstatement."""
    day, place = book.records.day, book.place
    claims, reinstated = np.flatnonzero(book.records.kind == CLAIM), np.flatnonzero(book.records.kind == REINSTATE)
    newest = np.full(len(book.policies), FIRST - 2 * LONGEST_YEAR)
    newest[place[reinstated]] = day[reinstated]
    is_one = (days_before(book)[claims] == day[claims]) | (day[claims] - newest[place[claims]] <= LONGEST_YEAR)
    found: Array = claims[is_one]
    return found


def doubtful_reinstatements(book: Columns) -> Array:
    """Returns the places of reinstatements on an anniversary or on the last day of the cover, one of which the last day is."""
    found = np.flatnonzero(book.records.kind == REINSTATE)
    day, place = book.records.day[found], book.place[found]
    issued_on = book.policies.issued[place]
    is_anniversary = anniversaries(issued_on, years_at(day) - years_at(issued_on)) == day
    right: Array = found[is_anniversary | (day == book.policies.end[place] - 1)]
    return right


def candidates(book: Columns, days_late: int) -> Array:
    """Returns the places of the policies that may have a flagged posting.

    They are few, since each of their postings is examined.
    """
    kind, day, place = book.records.kind, book.records.day, book.place
    claims, settled, matured = (np.flatnonzero(kind == code) for code in (CLAIM, SETTLE, MATURE))
    claimed = np.full(len(book.policies), NEVER)
    claimed[place[claims]] = day[claims]
    at_once = settled[day[settled] == claimed[place[settled]]]
    late = matured[day[matured] - book.policies.end[place[matured]] > days_late]
    postings = np.concatenate([doubtful_claims(book), doubtful_reinstatements(book), at_once, late])
    found: Array = np.unique(place[postings])
    return found


def postings_of(book: Columns, policies: Array) -> Iterator[Array]:
    """Yields for each of these policies the places of its postings in rising order."""
    is_one = np.zeros(len(book.policies) + 1, bool)
    is_one[policies] = True
    postings = np.flatnonzero(is_one[book.place])
    order = postings[np.argsort(book.place[postings], kind="stable")]
    starts = np.flatnonzero(np.diff(book.place[order], prepend=-1))
    yield from np.split(order, starts[1:]) if len(order) else []


def flags_of(book: Columns, days_late: int = DAYS_LATE) -> list[Flag]:
    """Returns the flagged postings of a book, in their order."""
    watch, progress = Watch(days_late), Progress("looking at policies")
    for done, postings in enumerate(postings_of(book, candidates(book, days_late))):
        policy: Policy | None = None
        for posting, command in zip(postings.tolist(), book.records.commands(postings)):
            after = changed(policy, command) if policy else issued(command)
            if policy:
                watch.see(posting + 1, command, policy, after)
            policy = after
        progress.at(done)
    progress.end()
    return sorted(watch.found, key=attrgetter("position"))


def flags_at(path: str, at: int | None = None, days_late: int = DAYS_LATE) -> list[Flag]:
    """Returns the flagged postings of a journal's file, or of its first commands."""
    return flags_of(columns_at(path, at), days_late)
