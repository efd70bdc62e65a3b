"""Reads two moments of a book and what was posted between them: the program's output at both, and the journal up to the
second."""
from __future__ import annotations

import datetime
import os
from dataclasses import dataclass
from typing import Iterator, NamedTuple

from life_tools.common.arrays import Array, np
from life_tools.valuations.class_bases import Bases
from life_tools.valuations.class_columns import PlacedRow, placed_rows, valued_columns
from life_tools.journal.copied_folder import JOURNAL
from life_tools.journal.day_columns import number_at
from life_tools.common.formats import Wrong, demand
from life_tools.journal.at_position import BookAt, book_at
from life_tools.journal.records import ISSUE, Records, records_behind
from life_tools.journal.policy_columns import Policies
from life_tools.valuations.printed_columns import ColumnValuation, printed_policies, whole_state_of
from life_tools.common.progress import Progress
from life_tools.journal.replays import places_of


class NotWhole(Wrong):
    """What was added up is not what the program printed."""


def demand_whole(right: object, message: str) -> None:
    if not right:
        raise NotWhole(message)


class Asked(NamedTuple):
    """A book, two days with a position each, the bases, the measure of the reserves, and the program.

    `are_parts_kept` says whether each policy's part of the sheets is kept.
    """

    folder: str
    on1: datetime.date
    first: int
    on2: datetime.date
    last: int
    bases: Bases
    measure: str = "terminal"
    life: str | None = None
    are_parts_kept: bool = False
    # why this measure is used, as the person asked for it, or ""
    why: str = ""

    def reserves(self) -> str:
        """Returns the measure as the first line of a statement names it."""
        return f"{self.measure} reserves{f', {self.why}' if self.why else ''}"


@dataclass(frozen=True)
class Moment:
    """A day and a position: the policies and balances, and the valuation by the measure; at the closing also by `deficiency`."""

    on: datetime.date
    position: int
    policies: Policies
    balances: dict[str, int]
    valuation: ColumnValuation
    minimum: ColumnValuation | None = None

    @property
    def day(self) -> int:
        return number_at(self.on)


@dataclass(frozen=True)
class Period:
    """Both moments, the records up to the second with the place of each record's policy, and the basis rows.

    `row` has the number of each policy's own basis row, from 1, or 0. The policies are in order of issue in the journal and in
    what is printed, so those of the opening come first.
    """

    asked: Asked
    opening: Moment
    closing: Moment
    records: Records
    place: Array
    rows: list[PlacedRow]
    row: Array


# --- reading ---

class Watched:
    """A copy of a book that shows how often it was asked."""

    def __init__(self, copy: BookAt, progress: Progress) -> None:
        self.copy, self.progress, self.done = copy, progress, 0
        self.folder, self.position = copy.folder, copy.position

    def streams(self, *words: str) -> Iterator[bytes]:
        self.done += 1
        self.progress.at(self.done)
        return self.copy.streams(*words)


def moment(copy: Watched, on: datetime.date, asked: Asked, is_closing: bool) -> Moment:
    state = whole_state_of(copy.streams("state"))
    minimum = valued_columns(copy, str(on), asked.bases, "deficiency") if is_closing else None
    # which has the terminal reserve before the minimum reserve
    valuation = minimum if minimum and asked.measure == "terminal" else valued_columns(copy, str(on), asked.bases, asked.measure)
    demand(valuation.position == state.count, f"the valuation is of position {valuation.position}, the state of {state.count}")
    rows, policies = valuation.rows, state.policies
    alike = np.array_equal(rows.number, policies.number) and np.array_equal(rows.status, policies.status)
    demand(alike, "the valuation and the state have other policies")
    return Moment(on, copy.position, printed_policies(policies), state.balances, valuation, minimum)


def demand_issued(moment: Moment, issued: Array) -> None:
    """Raises NotWhole unless the printed policies are those that the journal issues, in the same order."""
    printed = moment.policies.number
    demand_whole(len(printed) == len(issued), f"the postings leave {len(issued)} policies, and {len(printed)} are printed")
    demand_carried(printed, printed == issued)


def demand_carried(printed: Array, same: Array) -> None:
    """Raises NotWhole unless `same` is true for each of the printed policies."""
    if not same.all():
        raise NotWhole(f"policy {printed[same.argmin()]} isn't printed as the postings leave it")


def period_of(asked: Asked) -> Period:
    """Returns what the program prints at both moments, and the records of the journal."""
    demand(asked.on1 <= asked.on2, f"the closing day {asked.on2} is before the opening one, {asked.on1}")
    demand(asked.first <= asked.last, f"the closing position {asked.last} is before the opening one, {asked.first}")
    progress = Progress("asking life for the opening, and then for the closing")
    with book_at(asked.folder, asked.first, asked.bases.names, asked.life) as copy:
        opening = moment(Watched(copy, progress), asked.on1, asked, False)
    with book_at(asked.folder, asked.last, asked.bases.names, asked.life) as copy:
        closing = moment(Watched(copy, progress), asked.on2, asked, True)
        progress.end()
        records = records_behind(os.path.join(copy.folder, JOURNAL), 0, asked.last)
        row, rows = placed_rows(copy.folder, asked.bases, closing.policies.number, closing.policies.issued)
    # the program has opened this journal, so its records are not judged again
    issues = np.flatnonzero(records.kind == ISSUE)
    issued = records.number[issues]
    demand_issued(opening, issued[issues < asked.first])
    demand_issued(closing, issued)
    return Period(asked, opening, closing, records, places_of(records.number, issued), rows, row)
