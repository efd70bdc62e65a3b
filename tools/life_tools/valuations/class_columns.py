"""Does in bulk what `class_bases` does: finds which basis values each policy, and values each policy by its own basis."""
from __future__ import annotations

import datetime
import os
from dataclasses import fields
from itertools import zip_longest
from typing import Iterator, NamedTuple, Protocol

from life_tools.common.arrays import Array, np
from life_tools.valuations.class_bases import Bases, measure_words
from life_tools.journal.day_columns import number_at
from life_tools.common.formats import Wrong, demand
from life_tools.journal.at_position import WORKERS
from life_tools.valuations.printed_columns import ColumnValuation, Rows, sums_of, valuation_of
from life_tools.tables.basis import BasisRow, read_basis


class Streams(Protocol):
    """The copy of a book at a position that can be asked for a valuation in parts."""

    folder: str
    position: int

    def streams(self, *words: str) -> Iterator[bytes]: ...


def picked(bases: Bases, numbers: Array) -> Array:
    """Returns the index of each policy's basis file among the names, and raises Wrong for a policy that has no class."""
    if not bases.ranges:
        return np.zeros(len(numbers), np.int64)
    of_class = dict(bases.basis_of_class)
    names = np.array([bases.names.index(of_class[each.class_]) for each in bases.ranges])
    firsts, lasts = (np.array([getattr(each, end) for each in bases.ranges]) for end in ("first", "last"))
    place = np.searchsorted(firsts, numbers, "right") - 1
    outside = np.flatnonzero((place < 0) | (numbers > lasts[place]))
    if len(outside):
        raise Wrong(f"policy {numbers[outside[0]]} is in no class")
    found: Array = names[place]
    return found


def valued_columns(copy: Streams, on: str, bases: Bases, measure: str) -> ColumnValuation:
    """Returns the program's valuation of a copy.

    With more than one basis the program values all policies by each of them, and each policy's row is taken from the valuation by
    its own basis.
    """
    words = ["value", on, "--at", str(copy.position), *measure_words(measure), *WORKERS]
    made = [valuation_of(copy.streams(*words, "--basis", name)) for name in bases.names]
    first, place = made[0], picked(bases, made[0].rows.number)
    if len(made) == 1:
        return first
    rows = Rows(*(getattr(first.rows, column.name).copy() for column in fields(Rows)))
    for at, (name, other) in enumerate(zip(bases.names, made)):
        same = np.array_equal(other.rows.number, rows.number) and np.array_equal(other.rows.status, rows.status)
        demand(same, f"the valuations by {name} and by {bases.names[0]} have other policies")
        mine = place == at
        for column in fields(Rows):
            getattr(rows, column.name)[mine] = getattr(other.rows, column.name)[mine]
    return first._replace(rows=rows, total=tuple(sums_of(rows.bounds)), words=int(np.count_nonzero(rows.word)))


class PlacedRow(NamedTuple):
    """A row of a basis file, the file's name, and the day of the row after it, or None if it is the last."""

    file: str
    row: BasisRow
    until: datetime.date | None


def placed_rows(folder: str, bases: Bases, numbers: Array, issued: Array) -> tuple[Array, list[PlacedRow]]:
    """Returns all basis rows, and for each policy the number of the row for its day of issue, from 1, or 0 if no row applies."""
    of, place, found = picked(bases, numbers), np.zeros(len(numbers), np.int64), list[PlacedRow]()
    for at, name in enumerate(bases.names):
        rows = read_basis(os.path.join(folder, name))
        days = np.array([number_at(row.day) for row in rows], np.int32)
        row_place = np.searchsorted(days, issued, "right")
        place = np.where((of == at) & (row_place > 0), row_place + len(found), place)
        ends = [row.day for row in rows[1:]]
        found += [PlacedRow(name, row, until) for row, until in zip_longest(rows, ends)]
    return place, found


class BasisColumn(NamedTuple):
    """For each policy the number of its basis row, and the rows' names by these numbers; number 0 means that no row applies."""

    place: Array
    names: list[str]


def basis_rows(folder: str, bases: Bases, numbers: Array, issued: Array) -> BasisColumn:
    """Returns the basis rows that value policies, found by the policies' days of issue."""
    place, rows = placed_rows(folder, bases, numbers, issued)
    # if there is more than one basis, each row is named together with its file
    files = [f"{row.file} " * (len(bases.names) > 1) for row in rows]
    return BasisColumn(place, ["none", *(f"{file}{it.row.day} {it.row.name} {it.row.points} bp"
                                         for file, it in zip(files, rows))])
