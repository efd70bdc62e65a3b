"""Decides which rows of an entry are held for a person, given the book that they meet.

Two postings are equal if they say the same: line ends, a byte order mark and quotes make no difference. A row is held

- if it equals a posting of the journal (named by its position) or a row above it (named by its line), unless it is a premium:
  the rules refuse an equal premium until the next one is due;
- if it is an issue that is not plausible, or whose number is in use;
- if its day is in the future, or far from what came before it;
- if an earlier row of its policy is held.

Valuations and trims are never held.
"""
from __future__ import annotations

import datetime
import os
from typing import Iterable

from life_tools.desk.entries import HELD, Entry
from life_tools.desk.plausibility import NetPremiums, Why, doubtful_issue
from life_tools.desk.records import Record
from life_tools.desk.settings import DAY, EQUAL, NUMBER, POLICY, Settings
from life_tools.journal.blocks import prefix_at
from life_tools.rules.commands import Command
from life_tools.rules.policies import Refusal
from life_tools.scripts.lines import Line
from life_tools.scripts.warnings import FAR, Desk, came_before


# the number of a row's entry, and the row's number in it
Place = tuple[int, int]


class Holder:
    """Checks entries in the order in which they are posted."""

    def __init__(self, today: datetime.date, settings: Settings, nets: NetPremiums,
                 waiting: dict[int, tuple[Place, str]]) -> None:
        self.settings, self.nets = settings, nets
        self.desk = Desk(today)
        # for each policy that has a held row: the place of the first such row, and the name of its entry
        self.waiting = waiting
        # the rows above, which have no position yet; each with a text that says where it stands
        self.above: dict[Command, str] = {}

    def read(self, journal: str, count: int, entries: Iterable[Entry]) -> None:
        """Takes the commands that the journal has for the policies of these entries."""
        numbers = {line.command.number for entry in entries for line in entry.left if line.command}
        if not count or not numbers or not os.path.exists(journal):
            return
        # importing numpy takes a tenth of a second, which a desk without a book saves
        from life_tools.journal.records import places_in, upgrade_in

        data = prefix_at(journal, count)
        self.desk.read(data, upgrade_in(data, count), places_in(data, count, numbers).tolist())

    def hold(self, entry: Entry) -> list[Record]:
        """Holds those rows of an entry, still to be posted, that a person has to check; returns them.

        Released rows are not held again.
        """
        found = []
        for line in entry.left:
            command = line.command
            if command is None:
                continue
            place = entry.number, line.row.number
            why = None if entry.is_release else self.why(command, place)
            if why:
                self.waiting[command.number] = min((place, entry.shown), self.waiting.get(command.number, (place, entry.shown)))
                found.append(held_row(line, command, why))
            else:
                self.pass_on(command, f"line {line.row.line} of {entry.file}")
        entry.record["held"] += found
        return found

    def why(self, command: Command, place: Place) -> Why | None:
        """Returns why a row is held, or None. A row before the first held row of its policy is not held because of that row."""
        if command.kind == "upgrade":
            return None
        first = self.waiting.get(command.number)
        if first and first[0] < place:
            return POLICY, f"a row of policy {command.number} before it is held in {first[1]}"
        return self.equal(command) or self.doubtful(command)

    def equal(self, command: Command) -> Why | None:
        if command.kind == "premium":
            return None
        position = self.desk.positions.get(command)
        if position:
            return EQUAL, f"it equals the posting of position {position}"
        return (EQUAL, f"it equals {self.above[command]}") if command in self.above else None

    def doubtful(self, command: Command) -> Why | None:
        desk = self.desk
        policy = desk.book.policies.get(command.number)
        if command.kind == "issue":
            if policy:
                return NUMBER, f"number {command.number} is in use"
            return doubtful_issue(command, desk.today, self.nets, self.settings)
        if command.on > desk.today:
            return DAY, f"its day is after today, {desk.today}"
        if policy is None:
            return None
        before, what = came_before(command, policy)
        if abs(command.on - before) > FAR:
            return DAY, f"its day is {abs((command.on - before).days)} days from {what or 'the day'} {before}"
        return None

    def pass_on(self, command: Command, where: str) -> None:
        """Keeps a row that is to be posted, and the policy as the rules leave it."""
        self.above.setdefault(command, where)
        if command.kind == "upgrade":
            self.desk.book.upgrade = self.desk.book.upgrade or 1
        elif not isinstance(self.desk.book.judge(command), Refusal):
            self.desk.take(command, 0)


def held_row(line: Line, command: Command, why: Why) -> Record:
    return {"row": line.row.number, "line": line.row.line, "policy": command.number, "text": line.row.text,
            "reason": why[0], "why": why[1], "state": HELD}


def waiting_in(entries: Iterable[Entry]) -> dict[int, tuple[Place, str]]:
    """Returns, for each policy that has a held row, the place of the first such row and the name of its entry."""
    waiting: dict[int, tuple[Place, str]] = {}
    for entry in entries:
        for each in entry.held:
            found = (entry.number, each["row"]), entry.shown
            waiting[each["policy"]] = min(found, waiting.get(each["policy"], found))
    return waiting
