"""Reads the valuations and states of a movement from the program at both positions, and analyses the change between them."""
from __future__ import annotations

import os
from typing import NamedTuple

from life_tools.common.formats import demand
from life_tools.journal.at_position import book_at
from life_tools.journal.copied_folder import JOURNAL
from life_tools.journal.records import records_behind
from life_tools.reports.movement import Cash, Changes, Moved, analysis, cash_of, changes_of, demand_booked
from life_tools.valuations.class_bases import Bases
from life_tools.valuations.class_columns import valued_columns
from life_tools.valuations.printed_columns import state_of


class Moment(NamedTuple):
    """A day as it is given to the program, and a position."""

    on: str
    position: int


class Books:
    """The valuations and states at both positions, and the postings between them."""

    def __init__(self, asked: Moment, later: Moment, bases: list[Bases], measure: str, folder: str, life: str | None) -> None:
        on1, first, on2, last = *asked, *later
        demand(first <= last, f"the closing position {last} is before the opening one, {first}")
        basis, changed = bases[0], bases[-1]
        names = list(dict.fromkeys(name for each in bases for name in each.names))
        with book_at(folder, first, names, life) as copy:
            self.opening = valued_columns(copy, on1, basis, measure)
            self.before = state_of(copy.streams("state")).balances
        with book_at(folder, last, names, life) as copy:
            self.later_book = valued_columns(copy, on1, basis, measure)
            self.later_day = valued_columns(copy, on2, basis, measure)
            self.closing = valued_columns(copy, on2, changed, measure) if changed != basis else self.later_day
            self.after = state_of(copy.streams("state")).balances
            self.records = records_behind(os.path.join(copy.folder, JOURNAL), first, last)


def moved_in(books: Books) -> tuple[Changes, list[Moved], Cash]:
    """Returns the policies' changes, the lines and the cash, and raises Wrong unless they add up to what was printed."""
    changes = changes_of(books.opening, books.later_book, books.later_day, books.closing, books.records)
    lines, cash = analysis(changes, books.opening, books.closing), cash_of(books.records)
    demand_booked(cash, books.before, books.after)
    return changes, lines, cash
