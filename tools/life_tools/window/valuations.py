"""Keeps valuations that the program printed, with the sums of their groups; their rows are files in the private folder.

They are read, joined with the printed state and added up as `report` does it; a valuation that does not add up to the printed
total is not kept.
"""
from __future__ import annotations

import datetime
import os
from dataclasses import dataclass, fields
from typing import Iterator

from life_tools.common.arrays import Array, np
from life_tools.valuations.class_bases import measure_words, one_basis
from life_tools.valuations.class_columns import basis_rows
from life_tools.journal.at_position import WORKERS
from life_tools.valuations.groups import KEYS, Groups, Joined, Sums, demand_whole, grouped, joined, whole
from life_tools.valuations.printed_books import ValuedRow
from life_tools.valuations.printed_columns import NO_WORDS, Rows, state_of, valuation_of
from life_tools.window.jobs import Job
from life_tools.window.kept_columns import keep, kept
from life_tools.window.views import View
from life_tools.window.runs import printed_by

AT_ONCE = 1 << 18
COLUMNS = tuple(column.name for column in fields(Rows))


@dataclass
class Valuation:
    """A kept valuation: what it is of, the printed total in cents, the sums of its groups, and the folder with its rows."""

    path: str
    on: datetime.date
    position: int
    measure: str
    total: tuple[int, ...]
    words: int
    whole: Sums
    groups: dict[str, Groups]
    balances: dict[str, int]

    @property
    def policies(self) -> int:
        return self.whole.policies

    def codes(self, key: str) -> Array:
        """Returns for each row the place of its group among the groups of a key."""
        return kept(self.path, [code_name(key)])[0]

    def rows(self) -> Rows:
        """Returns the rows; only the parts that are used are read."""
        return Rows(*kept(self.path, COLUMNS))


def kept_valuation(book: View, on: datetime.date, measure: str) -> Valuation:
    """Returns the valuation of a day at a position, and raises Working while the program computes it."""
    title = f"the {measure} reserves on {on} at position {book.at:,}"
    found = book.kept(("value", book.basis.name, on, book.at, measure), title, lambda job: valued(book, on, measure, job))
    assert isinstance(found, Valuation)
    return found


def code_name(key: str) -> str:
    return f"group-by-{key}"


def codes_in(rows: Joined, key: str, groups: Groups) -> Array:
    """Returns for each row the place of its group, in the order of the groups."""
    codes, names = KEYS[key](rows)
    found, inverse = np.unique(codes, return_inverse=True)
    place_of = {name: place for place, (name,) in enumerate(groups)}
    return np.array([place_of[names[code]] for code in found.tolist()], np.int16)[inverse]


def parts_of(path: str, doing: str, job: Job) -> Iterator[bytes]:
    whole_size, done = os.path.getsize(path), 0
    with open(path, "rb") as file:
        while part := file.read(AT_ONCE):
            job.at(doing, done >> 10, whole_size >> 10)
            yield part
            done += len(part)


def valued(book: View, on: datetime.date, measure: str, job: Job) -> Valuation:
    job.at("copying the journal's prefix")
    with book.desk_at_position() as desk:
        job.at("life value")
        words = ["value", str(on), "--at", str(book.at), "--basis", book.basis.name, *measure_words(measure), *WORKERS]
        value = printed_by(book.life, words, desk, book.copy.scratch, os.path.join(desk, "value"))
        valuation = valuation_of(parts_of(value, "reading the valuation, KiB", job))
        job.at("life state")
        printed = printed_by(book.life, ["state"], desk, book.copy.scratch, os.path.join(desk, "state"))
        state = state_of(parts_of(printed, "reading the state, KiB", job))
        basis = basis_rows(desk, one_basis(book.basis.name), state.policies.number, state.policies.issued)
    rows = joined(valuation, state, basis)
    groups = {}
    for key in KEYS:
        job.at(f"adding up by {key}")
        groups[key] = grouped(rows, [key])
        demand_whole(groups[key], [key], valuation)
    path = book.copy.new_file()
    keep(path, COLUMNS, valuation.rows)
    for key, found in groups.items():
        np.save(os.path.join(path, f"{code_name(key)}.npy"), codes_in(rows, key, found))
    return Valuation(path, valuation.on, valuation.position, valuation.measure, valuation.total, valuation.words, whole(rows),
                     groups, state.balances)


def row_of(it: Valuation, number: int) -> ValuedRow | None:
    """Returns the row of a policy as it was printed, or None."""
    rows = it.rows()
    places = np.flatnonzero(rows.number == number)
    return rows.row(int(places[0])) if len(places) else None


def words_of(it: Valuation, most: int) -> list[tuple[str, int, list[int]]]:
    """Returns for each word in place of bounds how many policies have it, and the first of their numbers."""
    if not it.words:
        return []
    rows, found = it.rows(), []
    for code, word in enumerate(NO_WORDS[1:], 1):
        places = np.flatnonzero(rows.word == code)
        if len(places):
            found.append((word, len(places), rows.number[places[:most]].tolist()))
    return found
