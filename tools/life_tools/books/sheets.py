"""Makes for one book of a list what the program does not print: a report, a movement, a statement, due items, flags, rows to draw
from, papers and letters.

Before a result is sent, its sums are compared with what the program printed for that book.

The words of a task: report ON MEASURE KEYS.., movement ON1 ON2 MEASURE, statement ON1 ON2 MEASURE, due DAY WITHIN, flags LATE,
sample ON MEASURE BY, papers, letters.
"""
from __future__ import annotations

import os
from dataclasses import dataclass
from typing import Any, Callable, Iterator, Sequence

from life_tools.reports.due_items import Items
from life_tools.reports.moved_books import Books, Moment, moved_in
from life_tools.reports.movement import Cash, Moved
from life_tools.valuations.class_bases import Bases
from life_tools.journal.columns import columns_at
from life_tools.journal.copied_folder import JOURNAL
from life_tools.journal.day_columns import number_at
from life_tools.audit.drawn_samples import drawable_of
from life_tools.valuations.joined_rows import read_both
from life_tools.audit.flags import flags_of
from life_tools.common.formats import Wrong, day_in, demand, opened
from life_tools.valuations.groups import Groups, Joined, Sums, demand_whole, grouped, whole
from life_tools.audit.letters import letters_of
from life_tools.audit.listed_samples import with_bases
from life_tools.audit.papers import NotTheSample, sheets_of
from life_tools.reports.periods import Asked, NotWhole
from life_tools.valuations.printed_columns import ColumnValuation, valuation_of
from life_tools.reports.provenance import sum_of_file
from life_tools.audit.samples import Sample
from life_tools.reports.statement import Statement, statement_of

AT_ONCE = 1 << 20


class NotAdded(Wrong):
    """What was added up for a book is not what the program printed."""

    status = 1


@dataclass(frozen=True)
class Wanted:
    """The work on one book: its folder, bases (for a change, those before and after it), program, positions and words.

    `part` is a part file with its checksum if rows are taken from one; `drawn` is the book's own part of a sample.
    """

    name: str
    folder: str
    bases: tuple[Bases, ...]
    life: str | None
    first: int | None
    last: int | None
    words: tuple[str, ...]
    part: tuple[str, str] | None = None
    drawn: Sample | None = None

    @property
    def journal(self) -> str:
        return os.path.join(self.folder, JOURNAL)

    @property
    def sample(self) -> Sample:
        assert self.drawn is not None
        return with_bases(self.drawn, self.bases[0].names)

    @property
    def position(self) -> int:
        demand(self.last is not None, f"{self.words[0]} wants --at")
        assert self.last is not None
        return self.last

    @property
    def opening(self) -> int:
        demand(self.first is not None, f"{self.words[0]} wants --from")
        assert self.first is not None
        return self.first


@dataclass(frozen=True)
class Made:
    """What was made of a book at a position."""

    position: int
    what: Any


@dataclass(frozen=True)
class Reported:
    """The groups of each table, and the sums of all policies."""

    tables: list[tuple[list[str], Groups]]
    total: Sums


@dataclass(frozen=True)
class MovedBook:
    """The lines of an analysis of change, the cash of the period, and the number of rows with a word at both ends."""

    lines: list[Moved]
    cash: Cash
    words: tuple[int, int]


# --- rows that `books value --parts` left ---

def without_name(path: str, name: str) -> Iterator[bytes]:
    """Yields the text of a part without the book's name before each line."""
    front = name.encode() + b","
    with opened(path) as file:
        while lines := file.readlines(AT_ONCE):
            demand(all(line.startswith(front) for line in lines), f"{path} has a line that isn't of {name}")
            yield b"".join(line[len(front):] for line in lines)


def valuation_in_part(wanted: Wanted, on: str, measure: str) -> ColumnValuation | None:
    """Returns the valuation of a part, or None if no part was given; it must be the valuation that is asked for."""
    if not wanted.part:
        return None
    path, told = wanted.part
    demand(sum_of_file(path) == told, f"{path} isn't what parts.csv says")
    found = valuation_of(without_name(path, wanted.name))
    right = str(found.on) == on and found.measure == measure and wanted.last in (None, found.position)
    demand(right, f"{path} is of {found.on} at position {found.position}, {found.measure}")
    return found


def both(wanted: Wanted, on: str, measure: str) -> tuple[ColumnValuation, Joined]:
    made = valuation_in_part(wanted, on, measure)
    position = made.position if made else wanted.last
    return read_both(wanted.folder, position, wanted.life, on, wanted.bases[0], measure, made)


# --- what is made ---

def report_of(wanted: Wanted, on: str, measure: str, *tables: str) -> Made:
    valuation, rows = both(wanted, on, measure)
    found = [(keys, grouped(rows, keys)) for keys in (table.split(",") for table in tables)]
    for keys, groups in found:
        demand_whole(groups, keys, valuation)
    return Made(valuation.position, Reported(found, whole(rows)))


def movement_of(wanted: Wanted, on1: str, on2: str, measure: str) -> Made:
    asked, later = Moment(on1, wanted.opening), Moment(on2, wanted.position)
    books = Books(asked, later, list(wanted.bases), measure, wanted.folder, wanted.life)
    try:
        _, lines, cash = moved_in(books)
    except Wrong as wrong:
        raise NotAdded(str(wrong)) from wrong
    return Made(wanted.position, MovedBook(lines, cash, (books.opening.words, books.closing.words)))


def statement_made(wanted: Wanted, on1: str, on2: str, measure: str) -> Made:
    asked = Asked(wanted.folder, day_in(on1), wanted.opening, day_in(on2), wanted.position, wanted.bases[0], measure,
                  wanted.life)
    try:
        statement: Statement = statement_of(asked)
    except NotWhole as wrong:
        raise NotAdded(str(wrong)) from wrong
    return Made(wanted.position, statement)


def due_of(wanted: Wanted, day: str, within: str) -> Made:
    book = columns_at(wanted.journal, wanted.last)
    return Made(book.count, Items(book.policies, number_at(day_in(day)), int(within)).find_all())


def flags_made(wanted: Wanted, late: str) -> Made:
    """Returns the flags after the opening position if there is one, and otherwise all flags."""
    book = columns_at(wanted.journal, wanted.last)
    return Made(book.count, [flag for flag in flags_of(book, int(late)) if flag.position > (wanted.first or 0)])


def drawable_made(wanted: Wanted, on: str, measure: str, by: str) -> Made:
    valuation, rows = both(wanted, on, measure)
    return Made(valuation.position, drawable_of(valuation, rows.policies, by))


def sheets_made(wanted: Wanted) -> Made:
    try:
        return Made(wanted.position, sheets_of(wanted.sample, wanted.folder, wanted.name, wanted.bases[0], wanted.life))
    except NotTheSample as other:
        raise NotAdded(str(other)) from other


def letters_made(wanted: Wanted) -> Made:
    return Made(wanted.position, letters_of(wanted.sample, wanted.journal, wanted.name))


MAKES: dict[str, Callable[..., Made]] = {"report": report_of, "movement": movement_of, "statement": statement_made, "due": due_of,
                                         "flags": flags_made, "sample": drawable_made, "papers": sheets_made,
                                         "letters": letters_made}


def made_of(wanted: Wanted) -> Made:
    word, *more = wanted.words
    return MAKES[word](wanted, *more)


# --- books added up ---

def plus(one: Sums, other: Sums) -> Sums:
    return Sums(one.policies + other.policies, one.insured + other.insured, one.amount + other.amount,
                [low + high for low, high in zip(one.bounds, other.bounds)], one.words + other.words)


def groups_added(groups: Sequence[Groups]) -> Groups:
    found: Groups = {}
    for each in groups:
        for name, sums in each.items():
            found[name] = plus(found[name], sums) if name in found else sums
    return dict(sorted(found.items()))


def moved_added(books: Sequence[MovedBook]) -> MovedBook:
    lines = []
    for same in zip(*(book.lines for book in books)):
        cents = sum(it.cents[0] for it in same), sum(it.cents[1] for it in same)
        lines.append(Moved(same[0].name, sum(it.policies for it in same), cents))
    cash = Cash(sum(book.cash.premiums for book in books), sum(book.cash.settlements for book in books))
    return MovedBook(lines, cash, (sum(book.words[0] for book in books), sum(book.words[1] for book in books)))
