"""Reads a script's lines, or its first fault: the row, the field, what was found and what is wanted
(docs/reference/script.md)."""
from __future__ import annotations

import datetime
from dataclasses import dataclass
from typing import Any, Callable

from life_tools.rules.commands import Command, years_fit
from life_tools.rules.tables import OLDEST_AT_ISSUE
from life_tools.common.formats import (FIELDS, FIRST_DAY, LAST_DAY, MOST_CENTS, MOST_COMMANDS, MOST_LANES, MOST_NUMBER,
                                       MOST_REINSTATEMENT_CENTS, MOST_SCRIPT_BYTES, MOST_VALUATIONS, MOST_WORKERS, PLANS,
                                       Row, Wrong, bytes_of, cents_of, day_of, money, number_of, rows_in)
from life_tools.common.progress import Progress

KIND_WORDS = (*FIELDS, "value", "trim")


@dataclass(frozen=True, slots=True)
class Line:
    """A clerk's line.

    A posting has a command; a valuation has a day and a position, which is None for `now`; a trim has neither.
    """

    row: Row
    lane: int
    kind: str
    command: Command | None = None
    day: datetime.date | None = None
    position: int | None = None

    @property
    def head(self) -> list[str]:
        """Returns the fields with which the answer begins: lane, kind, and the policy's number (0 for an upgrade) or the day."""
        fields = self.row.fields
        return [*fields[:2], "0"] if self.kind == "upgrade" else list(fields[:3])

    @property
    def posted(self) -> Command:
        """Returns the command of a line that posts."""
        assert self.command is not None
        return self.command


@dataclass(frozen=True)
class Fault:
    """The first row that is not a line, and its first field that does not fit, from 1.

    The row is None if the script is too long.
    """

    row: Row | None
    field: int
    wanted: str

    @property
    def answer(self) -> str:
        return f"badscript,{self.row.number},{self.field}" if self.row else "badscript,toolong"

    @property
    def found(self) -> str:
        """Returns what stands in the field, or that the row has ended."""
        if self.row is None or self.field > len(self.row.fields):
            return "the row has ended"
        return self.row.fields[self.field - 1]


# the value that was read from a field: a text, a number or a day; None if the field does not fit
Read = Any


@dataclass(frozen=True)
class Wanted:
    """A field of a kind of line: its name, how it is read (given the fields before it), and what is wanted in it."""

    name: str
    read: Callable[[str, dict[str, Read]], Read]
    wanted: str


def amount(name: str, most: int = MOST_CENTS) -> Wanted:
    return Wanted(name, lambda text, _: cents_of(text, most),
                  f"the {name}: digits without a leading zero, a point and two digits, from 0.01 to {money(most)}")


def number(name: str, least: int, most: int, what: str) -> Wanted:
    return Wanted(name, lambda text, _: number_of(text, least, most),
                  f"{what}: digits without a sign or a leading zero, {least} to {most}")


def read_years(text: str, before: dict[str, Read]) -> Read:
    years, age = number_of(text, 0, MOST_NUMBER), before["age"]
    fits = years is not None and isinstance(age, int) and years_fit(str(before["plan"]), age, years)
    return years if fits else None


def read_position(text: str, _: dict[str, Read]) -> Read:
    return text if text == "now" else number_of(text, 0, MOST_COMMANDS)


DAY = Wanted("day", lambda text, _: day_of(text), f"a day YYYY-MM-DD of the calendar, {FIRST_DAY} to {LAST_DAY}")
PLAN = Wanted("plan", lambda text, _: text if text in PLANS.values() else None, f"a plan: {', '.join(PLANS.values())}")
YEARS = Wanted("years", read_years, "the years: 0 for whole, else from 2 to 131 less the age")
POSITION = Wanted("position", read_position, f"now, or a position: 0 to {MOST_COMMANDS} without a leading zero")
NUMBER = number("number", 1, MOST_NUMBER, "the policy's number")
AGE = number("age", 0, OLDEST_AT_ISSUE, "the age at issue")
WORKERS = number("workers", 1, MOST_WORKERS, "the workers")
POSTED = {"plan": PLAN, "age": AGE, "years": YEARS, "amount": amount("amount"), "premium": amount("premium")}


# the fields of each kind after the lane and the kind
WANTED_OF = {kind: [NUMBER, DAY, *(POSTED[name] for name in fields)] for kind, fields in FIELDS.items()}
WANTED_OF.update(value=[DAY, POSITION, WORKERS], trim=[], upgrade=[],
                 reinstate=[NUMBER, DAY, amount("amount", MOST_REINSTATEMENT_CENTS)])


def line_of(row: Row, valuations: int) -> Line | Fault:
    """Returns the line of a row, or its fault; `valuations` is the number of valuations before it."""
    fields = row.fields
    lane = number_of(fields[0], 1, MOST_LANES)
    if lane is None:
        return Fault(row, 1, f"a clerk's number, the lane: 1 to {MOST_LANES}")
    kind = fields[1] if len(fields) > 1 else ""
    if kind not in KIND_WORDS:
        return Fault(row, 2, f"a kind: {', '.join(KIND_WORDS)}")
    if kind == "value" and valuations >= MOST_VALUATIONS:
        return Fault(row, 2, f"no further valuation: a script has at most {MOST_VALUATIONS}")
    read: dict[str, Read] = {}
    wanted = WANTED_OF[kind]
    for place, field in enumerate(wanted, 3):
        value = field.read(fields[place - 1], read) if place <= len(fields) else None
        if value is None:
            return Fault(row, place, field.wanted)
        read[field.name] = value
    if len(fields) > len(wanted) + 2:
        return Fault(row, len(wanted) + 3, f"the end of the row: a {kind} has {len(wanted) + 2} fields")
    return made(row, lane, kind, read)


def made(row: Row, lane: int, kind: str, read: dict[str, Read]) -> Line:
    if kind == "trim":
        return Line(row, lane, kind)
    if kind == "value":
        return Line(row, lane, kind, day=read["day"], position=None if read["position"] == "now" else read["position"])
    return Line(row, lane, kind, Command(kind, **read))


def read_script(data: bytes) -> list[Line] | Fault:
    """Returns the lines of a script in their order, or its first fault."""
    if len(data) > MOST_SCRIPT_BYTES:
        return Fault(None, 0, f"at most {MOST_SCRIPT_BYTES} bytes; there are {len(data)}")
    lines, valuations = [], 0
    progress = Progress("reading the script")
    for row in rows_in(data):
        line = line_of(row, valuations)
        if isinstance(line, Fault):
            return line
        lines.append(line)
        valuations += line.kind == "value"
        if row.number % 4096 == 0:
            progress.at(row.number)
    progress.end()
    return lines


def lines_in(data: bytes, path: str = "the script") -> list[Line]:
    """Returns the lines of a script, and raises Wrong if the bytes are not a script."""
    lines = read_script(data)
    if isinstance(lines, Fault):
        raise Wrong(f"{path} is {lines.answer}, so nothing of it is posted")
    return lines


def script_at(path: str) -> list[Line]:
    """Returns the lines of a file, and raises Wrong if it is not a script."""
    return lines_in(bytes_of(path), path)


def lanes_of(lines: list[Line]) -> dict[int, list[Line]]:
    """Returns the lines of each lane, in order."""
    lanes: dict[int, list[Line]] = {}
    for line in lines:
        lanes.setdefault(line.lane, []).append(line)
    return lanes
