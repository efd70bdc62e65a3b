"""Lists who posted what, when and from which file, and who released it: the accepted rows of all entries, next to the journal."""
from __future__ import annotations

import os
from dataclasses import dataclass
from typing import Iterable, Iterator

from life_tools.common.formats import Wrong
from life_tools.desk.entries import Entry, Log
from life_tools.desk.records import Record, shown
from life_tools.journal.blocks import prefix_at
from life_tools.journal.file import gate_of
from life_tools.rules.commands import Command, body_of, command_in, words_of
from life_tools.scripts.lines import Line

HEAD = ["position", "kind", "policy", "day", "file", "line", "owner", "posted_by", "host", "posted_at",
        "released_by", "why", "entry"]


@dataclass(frozen=True)
class Posting:
    """An accepted row: its position, its entry, its line in that entry, and the run that posted it."""

    position: int
    entry: Entry
    line: Line
    run: Record

    @property
    def command(self) -> Command:
        return self.line.posted

    @property
    def line_handed_in(self) -> int:
        """Returns the line in the file that was handed in; a released row has another line in its own entry."""
        origin = self.entry.record["from"]
        return int(origin["lines"][self.line.row.number - 1]) if origin else self.line.row.line

    @property
    def people(self) -> set[str]:
        record, origin = self.entry.record, self.entry.record["from"] or {}
        names = {record["file"]["owner"], record["caller"]["login"], self.run["caller"]["login"], origin.get("by"),
                 origin.get("login")}
        return {name for name in names if name}

    def row(self) -> list[object]:
        record, origin = self.entry.record, self.entry.record["from"] or {}
        command = self.command
        released = [shown(origin.get(name) or "") for name in ("by", "because")]
        return [self.position, command.kind, command.number or "", command.day or "", self.entry.file,
                self.line_handed_in, record["file"]["owner"], self.run["caller"]["login"], self.run["caller"]["host"],
                self.run["begun"], *released, self.entry.shown]


@dataclass(frozen=True)
class Wanted:
    """Which postings are asked for; None means any."""

    position: int | None = None
    policy: int | None = None
    by: str | None = None
    day: str | None = None

    def may_have(self, entry: Entry) -> bool:
        """Returns whether an entry may have such a posting, judging by its runs."""
        runs = entry.record["runs"]
        if self.position is not None and not any(run["before"] < self.position <= run["after"] for run in runs):
            return False
        return self.day is None or any(run["begun"].startswith(self.day) for run in runs)

    def is_met(self, posting: Posting) -> bool:
        return (self.position in (None, posting.position) and self.policy in (None, posting.command.number)
                and (self.by is None or self.by in posting.people)
                and (self.day is None or posting.run["begun"].startswith(self.day)))


def postings_of(entry: Entry) -> Iterator[Posting]:
    """Yields the accepted rows of an entry, each with its run."""
    lines = {line.row.number: line for line in entry.lines} if entry.record["accepted"] else {}
    for row, position in entry.record["accepted"]:
        run = next(each for each in entry.record["runs"] if each["before"] < position <= each["after"])
        yield Posting(position, entry, lines[row], run)


def found_in(log: Log, wanted: Wanted, faults: list[str] | None = None) -> list[Posting]:
    """Returns the wanted postings in the order of their positions.

    If an entry cannot be read, Wrong is raised, or its message is added to `faults` if that is a list.
    """
    found: list[Posting] = []
    for name in log.recorded():
        try:
            entry = log.entry(name)
            found += [each for each in postings_of(entry) if wanted.is_met(each)] if wanted.may_have(entry) else []
        except Wrong as wrong:
            if faults is None:
                raise
            faults.append(str(wrong))
    return sorted(found, key=lambda posting: posting.position)


# --- beside the journal ---

def said(posting: Posting) -> str:
    return f"position {posting.position} is {','.join(words_of(posting.command))} by {posting.entry.shown}"


def differences(journal: str, count: int, postings: Iterable[Posting]) -> Iterator[str]:
    """Yields what differs between the journal and these postings of the log."""
    data = prefix_at(journal, count)
    for posting in postings:
        place = posting.position - 1
        if posting.position > count:
            yield f"{said(posting)}, and the journal has {count} postings"
        elif data[gate_of(place) + 1:gate_of(place + 1)] != body_of(posting.command):
            yield f"{said(posting)}, and the journal has another posting there"


def positions_wanted(journal: str, count: int, wanted: Wanted) -> Iterator[int]:
    """Yields the positions that the log should name: those of the wanted position or policy, or all of the journal."""
    if wanted.by is not None or wanted.day is not None or not os.path.exists(journal):
        return
    if wanted.position is not None:
        yield from [wanted.position] if wanted.position <= count else []
    elif wanted.policy is not None:
        from life_tools.journal.records import places_at

        yield from (place + 1 for place in places_at(journal, count, [wanted.policy]))
    else:
        yield from range(1, count + 1)


def command_at(journal: str, position: int) -> Command:
    return command_in(prefix_at(journal, position)[gate_of(position - 1) + 1:gate_of(position)])
