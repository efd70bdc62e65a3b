"""Finds which basis values which policy, one for all or one for each class, and values each policy by its own basis.

Classes need two files. One says which policies a class has, by numbers and ranges of numbers; the other says which basis file
of the folder values a class:

  7001,smoker                  a policy, and its class
  8000-8999,smoker             all policies from one number to another, and their class
  smoker,smokers.csv           a class, and its basis file
"""
from __future__ import annotations

import argparse
import os
from bisect import bisect_right
from dataclasses import dataclass
from typing import NamedTuple, Protocol, Sequence

from life_tools.common.formats import MOST_NUMBER, Row, Wrong, bytes_of, demand, number_of, rows_in
from life_tools.journal.at_position import WORKERS
from life_tools.valuations.printed_books import PrintedValuation, ValuedRow, valuation_in
from life_tools.tables.basis import NAME, BasisRow, read_basis

MOST_CLASSES_BYTES = 64 * 2**20


class Asks(Protocol):
    """The copy of a book at a position that can be asked for a valuation."""

    folder: str
    position: int

    def asks(self, *words: str) -> str: ...


class Range(NamedTuple):
    """A range of policy numbers, from `first` to `last`, their class, and the line of the file that says so."""

    first: int
    last: int
    class_: str
    line: int


@dataclass(frozen=True)
class Bases:
    """The basis files, and the ranges of numbers with their classes. Without ranges the only basis file values all policies."""

    names: tuple[str, ...]
    ranges: tuple[Range, ...] = ()
    basis_of_class: tuple[tuple[str, str], ...] = ()

    def picked(self, numbers: Sequence[int]) -> list[str]:
        """Returns the basis file of each policy, and raises Wrong for a policy that has no class."""
        picker = Picker(self)
        return [picker.basis_of(number) for number in numbers]


class Picker:
    """Finds the basis file of one policy after another."""

    def __init__(self, bases: Bases) -> None:
        self.bases = bases
        self.firsts, self.of_class = [each.first for each in bases.ranges], dict(bases.basis_of_class)

    def basis_of(self, number: int) -> str:
        if not self.firsts:
            return self.bases.names[0]
        place = bisect_right(self.firsts, number) - 1
        range_ = self.bases.ranges[place]
        demand(place >= 0 and number <= range_.last, f"policy {number} is in no class")
        return self.of_class[range_.class_]


def one_basis(name: str) -> Bases:
    return Bases((name,))


# --- the files of classes ---

def small_rows(path: str) -> list[Row]:
    demand(not os.path.exists(path) or os.path.getsize(path) <= MOST_CLASSES_BYTES, f"{path} has more than 64 MiB")
    return rows_in(bytes_of(path))


def range_in(row: Row) -> Range:
    demand(len(row.fields) == 2, "a row has a number or a range, and a class")
    first, between, last = row.fields[0].partition("-")
    least = number_of(first, 1, MOST_NUMBER)
    most = number_of(last, 1, MOST_NUMBER) if between else least
    if least is None or most is None or most < least:
        raise Wrong(f"{row.fields[0] or 'nothing'} is no number of a policy, and no range as 8000-8999")
    demand(row.fields[1], "its class is empty")
    return Range(least, most, row.fields[1], row.line)


def ranges_at(path: str) -> list[Range]:
    """Returns the ranges of a file of classes, sorted; no number may be in two of them."""
    found = []
    for row in small_rows(path):
        try:
            found.append(range_in(row))
        except Wrong as wrong:
            raise Wrong(f"{path}, line {row.line}: {wrong}") from wrong
    demand(found, f"{path} has no class")
    found.sort()
    for before, after in zip(found, found[1:]):
        demand(before.last < after.first, f"{path}, line {max(before.line, after.line)}: policy {after.first} has a class in "
                                          f"line {min(before.line, after.line)}")
    return found


def bases_at(path: str) -> dict[str, str]:
    """Returns the basis file of each class."""
    found: dict[str, str] = {}
    for row in small_rows(path):
        place = f"{path}, line {row.line}"
        demand(len(row.fields) == 2 and row.fields[0], f"{place}: a row has a class, and its basis file")
        demand(NAME.fullmatch(row.fields[1]), f"{place}: {row.fields[1] or 'nothing'} is no name of a basis file")
        demand(row.fields[0] not in found, f"{place}: the class {row.fields[0]} stands twice")
        found[row.fields[0]] = row.fields[1]
    return found


def bases_in(basis: str | None, classes: str | None, bases: str | None) -> Bases:
    """Returns what was asked for: one basis, or classes with their bases."""
    demand((classes is None) == (bases is None), "--classes and --bases go together")
    if classes is None or bases is None:
        return one_basis(basis or "basis.csv")
    demand(basis is None, "with --classes the bases are those of --bases, and not --basis")
    ranges, of_class = ranges_at(classes), bases_at(bases)
    missing = sorted({each.class_ for each in ranges} - set(of_class))
    demand(not missing, f"{bases} has no basis of the class {', '.join(missing)}")
    used = {each.class_: of_class[each.class_] for each in ranges}
    return Bases(tuple(dict.fromkeys(used.values())), tuple(ranges), tuple(used.items()))


def basis_arguments(parser: argparse.ArgumentParser) -> None:
    """Adds the arguments that say by which basis policies are valued."""
    parser.add_argument("--basis", metavar="NAME", help="the basis file in the folder (basis.csv)")
    class_arguments(parser)


def class_arguments(parser: argparse.ArgumentParser) -> None:
    parser.add_argument("--classes", metavar="FILE", help="a CSV of classes: number or range of policies, class")
    parser.add_argument("--bases", metavar="FILE", help="a CSV of their bases: class, basis file in the folder")


# --- what is valued by them ---

def measure_words(measure: str) -> list[str]:
    return [] if measure == "terminal" else [f"--{measure}"]


def valued(copy: Asks, on: str, bases: Bases, measure: str) -> PrintedValuation:
    """Returns the program's valuation of a copy.

    With more than one basis the program values all policies by each of them, and each policy's row is taken from the valuation by
    its own basis.
    """
    words = ["--at", str(copy.position), *WORKERS, *measure_words(measure)]
    made = {name: valuation_in(copy.asks("value", on, *words, "--basis", name)) for name in bases.names}
    return of_classes(made, bases)


def of_classes(made: dict[str, PrintedValuation], bases: Bases) -> PrintedValuation:
    """Returns a valuation with each policy's row by its own basis, and their sums."""
    first = made[bases.names[0]]
    picks = bases.picked([row.number for row in first.rows])
    if len(made) == 1:
        return first
    rows: list[ValuedRow] = []
    for place, (name, same) in enumerate(zip(picks, first.rows)):
        row = made[name].rows[place]
        demand(row[:2] == same[:2], f"the valuations by {name} and by {bases.names[0]} have other policies")
        rows.append(row)
    total = tuple(sum(row.bounds[place] for row in rows) for place in range(len(first.total)))
    return first._replace(rows=rows, total=total, words=sum(row.word != "" for row in rows))


class BasisRows:
    """The rows of each basis file, from which the rows for a policy are found."""

    def __init__(self, folder: str, bases: Bases) -> None:
        self.picker = Picker(bases)
        self.rows = {name: read_basis(os.path.join(folder, name)) for name in bases.names}

    def of(self, number: int) -> tuple[str, Sequence[BasisRow]]:
        """Returns the name of a policy's basis file, and the rows of that file."""
        name = self.picker.basis_of(number)
        return name, self.rows[name]
