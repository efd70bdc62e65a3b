"""Reads and writes a sample of a book's valuation as text, which `check-values`, papers and letters take.

The first line is that of the valuation, with the number of all policies at the position; then come

    sample,BY,COUNT ASKED FOR,SEED,TOTAL IN CENTS,START,BASIS[,BASIS ..]     with classes, the basis of each
    row,..                                                                  the drawn rows, as they were printed
"""
from __future__ import annotations

import datetime
from dataclasses import dataclass
from typing import NamedTuple, Sequence

from life_tools.common.formats import ALL_BOOKS, MOST_NUMBER, Wrong, day_in, demand, measure_of, money, number_of, read_whole
from life_tools.valuations.printed_books import ValuedRow, row_of
from life_tools.tables.basis import NAME

BY = ("amount", "reserve")
MEASURED = ("terminal", "mean")
MOST_SAMPLE_BYTES = 64 * 2**20
MOST_TOTAL = 10**18
MOST_DRAWN = 10**6
MOST_SEED = 2**63 - 1
BOUNDS = 2
# the number of fields of a line `sample` before the bases
HEAD = 6


@dataclass(frozen=True)
class Sample:
    """The drawn rows of a valuation, by what they were drawn, and the numbers of the draw; `policies` is the number of all
    rows."""

    on: datetime.date
    position: int
    policies: int
    measure: str
    bases: tuple[str, ...]
    by: str
    asked: int
    seed: int
    total: int
    start: int
    rows: tuple[ValuedRow, ...]


def text_of_row(row: ValuedRow) -> str:
    fields = [row.word] if row.word else [money(each) for each in row.bounds]
    return ",".join(["row", str(row.number), row.status, str(row.year), *fields])


def head_of(sample: Sample) -> str:
    """Returns the first line of the valuation."""
    measure = [] if sample.measure == MEASURED[0] else [sample.measure]
    return ",".join(["0", "value", str(sample.on), str(sample.position), str(sample.policies), *measure])


def numbers_told(sample: Sample) -> list[str]:
    """Returns the first fields of the line `sample`."""
    return ["sample", sample.by, *map(str, (sample.asked, sample.seed, sample.total, sample.start))]


def text_of(sample: Sample) -> str:
    lines = [head_of(sample), ",".join([*numbers_told(sample), *sample.bases]), *map(text_of_row, sample.rows)]
    return "".join(f"{line}\n" for line in lines)


def is_sample(rows: Sequence[Sequence[str]]) -> bool:
    """Returns whether printed lines, split into fields, are those of a sample."""
    return len(rows) > 1 and rows[1][0] == "sample"


def is_listed(line: str) -> bool:
    """Returns whether a first line is that of a sample of many books."""
    return line.split(",")[:2] == [ALL_BOOKS, "sample"]


class Head(NamedTuple):
    """What a valuation's first line states."""

    on: datetime.date
    position: int
    policies: int
    measure: str


def head_in(line: str) -> Head:
    fields = line.split(",")
    measure = measure_of(fields)
    position, policies = (number_of(text, 0, MOST_NUMBER) for text in fields[3:5]) if measure else (None, None)
    if measure not in MEASURED or position is None or policies is None:
        raise Wrong("that is no sample that audit sample writes")
    return Head(day_in(fields[2]), position, policies, measure)


class Numbers(NamedTuple):
    """By what was drawn, how many rows were asked for, the seed, the total in cents, and the start."""

    by: str
    asked: int
    seed: int
    total: int
    start: int


def asked_in(text: str) -> int:
    asked = number_of(text, 1, MOST_DRAWN)
    if asked is None:
        raise Wrong(f"{text} is no number of rows from 1 to {MOST_DRAWN}")
    return asked


def seed_in(text: str) -> int:
    seed = number_of(text, 0, MOST_SEED)
    if seed is None:
        raise Wrong(f"{text} is no seed: a whole number from 0 to {MOST_SEED}")
    return seed


def numbers_in(fields: Sequence[str]) -> Numbers:
    """Returns the numbers of a line `sample` from its first fields."""
    is_one = len(fields) == HEAD and fields[0] == "sample" and fields[1] in BY
    demand(is_one, f"{','.join(fields)} is no line of a sample")
    total, start = (number_of(text, 0, MOST_TOTAL) for text in fields[4:])
    if total is None or start is None or start >= total:
        raise Wrong(f"{','.join(fields)} is of no sample")
    return Numbers(fields[1], asked_in(fields[2]), seed_in(fields[3]), total, start)


def rows_in(lines: Sequence[str], policies: int) -> tuple[ValuedRow, ...]:
    """Returns the rows of a book's sample, which must have each policy once."""
    rows = tuple(row_of(line, BOUNDS) for line in lines)
    demand(len({row.number for row in rows}) == len(rows) <= policies, "a sample has each of its policies once")
    return rows


def sample_from(head: Head, bases: tuple[str, ...], of: Numbers, rows: tuple[ValuedRow, ...]) -> Sample:
    numbers = of.by, of.asked, of.seed, of.total, of.start
    return Sample(head.on, head.position, head.policies, head.measure, bases, *numbers, rows)


def sample_in(text: str) -> Sample:
    """Returns the sample of a text that `audit sample` wrote."""
    lines = text.splitlines()
    first, told = [*lines[:2], "", ""][:2]
    demand(not is_listed(first), "it is a sample of a list: books LIST papers and books LIST letters take it")
    head, fields = head_in(first), told.split(",")
    bases, rows = tuple(fields[HEAD:]), rows_in(lines[2:], head.policies)
    demand(bases and all(map(NAME.fullmatch, bases)), f"{told} is no line of a sample")
    demand(rows, "a sample has each of its policies once")
    return sample_from(head, bases, numbers_in(fields[:HEAD]), rows)


def sample_at(path: str) -> Sample:
    return read_whole(path, MOST_SAMPLE_BYTES, lambda data: sample_in(data.decode("ascii", "replace")))
