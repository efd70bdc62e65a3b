"""Reads a basis file and its mortality tables with an XML parser, or finds the first fault of one (docs/reference/tables.md).

The profile that the program reads is somewhat wider than XML: it allows two attributes of the same name, for example. If the
parser refuses a file, `NotXml` is raised: this module then cannot tell what the program makes of it, and `table_verdicts` asks
the program itself.
"""
from __future__ import annotations

import datetime
import os
import re
from bisect import bisect_left
from dataclasses import dataclass, field
from fractions import Fraction
from typing import Union
from xml.parsers import expat

from life_tools.common.formats import (MOST_BASIS_BYTES, MOST_BASIS_ROWS, MOST_POINTS, Row, Wrong, day_of, number_of, opened,
                                       rows_in)

MOST_AGE = 130
MOST_DEPTH = 64
FINEST = 10**9
NAME = re.compile("[A-Za-z0-9][A-Za-z0-9._-]{0,63}")
MARK = b"\xef\xbb\xbf"
WHITE = " \t\n\r"
# the first bytes of UTF-16, with a byte order mark or with a `<`
SIXTEEN = (b"\xff\xfe", b"\xfe\xff", b"<\0", b"\0<")
AND, LONGER = ord("&"), len("&amp;") - len("&")


class BadBasis(Wrong):
    """The first bad file of a basis: its name, the place in it, and the word for the fault."""

    def __init__(self, name: str, place: int, word: str) -> None:
        super().__init__(f"badbasis,{name},{place},{word}")
        self.word = word


class NotXml(Wrong):
    """The parser refuses a table's file."""


@dataclass
class Element:
    """An element of a document: the place of its `<`, its attributes, its text, and its children in order."""

    name: str
    at: int
    attributes: dict[str, str] = field(default_factory=dict)
    text: str = ""
    is_plain: bool = True
    children: list[Element] = field(default_factory=list)

    def those(self, name: str) -> list[Element]:
        return [child for child in self.children if child.name == name]

    def first(self, name: str) -> Element | None:
        return next(iter(self.those(name)), None)


@dataclass(frozen=True)
class Table:
    """A table by age: its first age, and the exact rate of death at that age and at each later one."""

    first: int
    rates: tuple[Fraction, ...]

    @property
    def last(self) -> int:
        return self.first + len(self.rates) - 1

    def holds(self, age: int) -> bool:
        return self.first <= age <= self.last

    def along(self, issue_age: int) -> Table:
        """Returns the rates by attained age for a life insured at this age; they are the same for each issue age."""
        return self


@dataclass(frozen=True)
class SelectTable:
    """A select and ultimate table: for each issue age from the first on the rates by duration, and the ultimate rates by age."""

    first: int
    periods: tuple[tuple[Fraction, ...], ...]
    ultimate: Table

    @property
    def last(self) -> int:
        return self.first + len(self.periods) - 1

    def along(self, issue_age: int) -> Table | None:
        """Returns the rates by attained age for a life insured at this age, or None below the first issue age."""
        if issue_age < self.first:
            return None
        if issue_age > self.last:
            return self.ultimate
        period = self.periods[issue_age - self.first]
        left = max(issue_age + len(period) - self.ultimate.first, 0)
        return Table(issue_age, period + self.ultimate.rates[left:])


AnyTable = Union[Table, SelectTable]


@dataclass(frozen=True)
class BasisRow:
    """A basis row: the first day for which it is used, a table, and the interest in basis points."""

    day: datetime.date
    name: str
    table: AnyTable
    points: int

    @property
    def discount(self) -> Fraction:
        """Returns the present value of 1 that is due in a year."""
        return Fraction(10000, 10000 + self.points)


# --- a document ---

class Reader:
    """Builds the elements of a document, each with the place of its `<`."""

    def __init__(self, data: bytes) -> None:
        self.shift = len(MARK) if data.startswith(MARK) else 0
        if data[:2] in SIXTEEN:
            # the parser would read UTF-16, but the program does not
            raise NotXml("it is written in UTF-16")
        # to the program an & stands for itself, since it does not read references
        ands = [at for at, byte in enumerate(data[self.shift:]) if byte == AND] if AND in data else []
        self.ands = [at + LONGER * before for before, at in enumerate(ands)]
        # like the program, read the file byte for byte, whatever its declaration says
        self.parser = expat.ParserCreate("iso-8859-1")
        self.open: list[Element] = []
        self.root: Element | None = None
        self.parser.StartElementHandler = self.start
        self.parser.EndElementHandler = lambda _: self.open.pop()
        self.parser.CharacterDataHandler = self.characters
        self.parser.CommentHandler = lambda _: self.mark_open()
        for handler in ("StartDoctypeDeclHandler", "StartCdataSectionHandler", "ProcessingInstructionHandler"):
            setattr(self.parser, handler, self.refuse)
        self.parser.buffer_text = True
        try:
            self.parser.Parse(data[self.shift:].replace(b"&", b"&amp;"), True)
        except expat.ExpatError as error:
            raise NotXml(f"it is no XML: {error}") from error

    def place(self, index: int) -> int:
        """Returns the place in the file of a place in the text that the parser reads, where each & is longer."""
        return index - LONGER * bisect_left(self.ands, index) + self.shift

    def refuse(self, *_: object) -> None:
        raise NotXml("it has a DOCTYPE, a CDATA section or a processing instruction")

    def mark_open(self) -> None:
        if self.open:
            self.open[-1].is_plain = False

    def characters(self, text: str) -> None:
        if self.open:
            self.open[-1].text += text

    def start(self, name: str, attributes: dict[str, str]) -> None:
        if any(word.startswith(":") for word in (name, *attributes)):
            raise NotXml("a name begins with a colon, which XML takes and the program doesn't")
        element = Element(name, self.place(self.parser.CurrentByteIndex), attributes)
        self.mark_open()
        if self.open:
            self.open[-1].children.append(element)
        else:
            self.root = element
        self.open.append(element)
        if len(self.open) > MOST_DEPTH:
            raise NotXml(f"its elements lie more than {MOST_DEPTH} deep")


def root_of(data: bytes) -> Element:
    root = Reader(data).root
    if root is None:
        raise NotXml("it has no element")
    return root


# --- a table ---

def rate_of(text: str) -> Fraction | None:
    """Returns the exact value of a rate's text, or None unless it is at most 1 and a whole multiple of 10^-9."""
    if not re.fullmatch(r"([0-9]+\.?[0-9]*|\.[0-9]+)([Ee][+-]?[0-9]{1,3})?", text):
        return None
    value = Fraction(text)
    return value if value <= 1 and (value * FINEST).denominator == 1 else None


def path_of(root: Element) -> tuple[list[Element], bool]:
    """Returns the elements from the root to the axis of the rates, as far as they exist, and whether the path is complete."""
    path = [root]
    if root.name != "XTbML":
        return path, False
    for name in ("Table", "Values", "Axis"):
        child = path[-1].first(name)
        if child is None:
            return path, False
        path.append(child)
    return path, path[-1].first("Y") is not None or path[-1].first("Axis") is not None


def factor_of(table: Element) -> Element | None:
    data = table.first("MetaData")
    return data.first("ScalingFactor") if data else None


def is_blank(element: Element) -> bool:
    return element.is_plain and not element.text.strip(WHITE)


def demand_unscaled(table: Element, name: str) -> None:
    factor = factor_of(table)
    if factor is None or is_blank(factor):
        return
    if not factor.is_plain or rate_of(factor.text.strip(WHITE)) not in (0, 1):
        raise BadBasis(name, factor.at, "scaled")


def label_of(element: Element) -> int | None:
    """Returns the number of an element's label, which has one to three digits, or None if it has no such label."""
    label = element.attributes.get("t", "")
    return int(label) if re.fullmatch("[0-9]{1,3}", label) else None


def next_age(element: Element, ages: list[int], name: str) -> int:
    """Returns the age of an element and raises BadBasis unless it is one more than the last of `ages`."""
    age = label_of(element)
    if age is None or age > MOST_AGE:
        raise BadBasis(name, element.at, "badage")
    if ages and age != ages[-1] + 1:
        raise BadBasis(name, element.at, "agegap")
    return age


def rate_in(row: Element, name: str) -> Fraction:
    rate = rate_of(row.text.strip(WHITE)) if row.is_plain else None
    if rate is None:
        raise BadBasis(name, row.at, "badrate")
    return rate


def table_by_age(rows: list[Element], name: str) -> Table:
    """Returns the table of one or more rows with their ages."""
    ages: list[int] = []
    rates = []
    for row in rows:
        ages.append(next_age(row, ages, name))
        rates.append(rate_in(row, name))
    return Table(ages[0], tuple(rates))


def table_of(root: Element, name: str) -> AnyTable:
    """Returns the table of a document, or raises BadBasis with the first check that fails for the file of this name."""
    path, is_whole = path_of(root)
    if not is_whole:
        raise BadBasis(name, path[-1].at, "notable")
    if is_select(path):
        return select_table_of(path, name)
    demand_unscaled(path[1], name)
    return table_by_age(path[-1].those("Y"), name)


# --- a select and ultimate table ---

def is_select(path: list[Element]) -> bool:
    return path[-1].first("Axis") is not None


def issue_axes_of(path: list[Element]) -> list[Element]:
    """Returns the axes of the issue ages.

    If the first axis has a label, it is one of them; otherwise they are inside it.
    """
    values, axis = path[2:]
    return (values if "t" in axis.attributes else axis).those("Axis")


def rows_by_duration(axis: Element) -> list[Element]:
    """Returns the rows of an issue age's axis, or those of the first axis inside it if it has none itself."""
    inner = axis if axis.first("Y") else axis.first("Axis")
    return inner.those("Y") if inner else []


def durations_of(axis: Element) -> list[Element]:
    """Returns the rows of an issue age without the blank ones at the end."""
    rows = rows_by_duration(axis)
    while rows and is_blank(rows[-1]):
        rows.pop()
    return rows


def period_of(axis: Element, age: int, name: str) -> tuple[Fraction, ...]:
    """Returns the rates of an issue age by duration: one or more, the first at duration 0 or 1."""
    rows = durations_of(axis)
    if not rows:
        raise BadBasis(name, axis.at, "badduration")
    due: tuple[int, ...] = (0, 1)
    rates: list[Fraction] = []
    for row in rows:
        duration = label_of(row)
        if duration not in due or age + len(rates) > MOST_AGE:
            raise BadBasis(name, row.at, "badduration")
        rates.append(rate_in(row, name))
        due = (duration + 1,)
    return tuple(rates)


def ultimate_rows_of(root: Element) -> list[Element]:
    """Returns the rows of the ultimate rates, or an empty list if a part of the path to them is missing."""
    places = root.those("Table")[1:]
    for name in ("Values", "Axis"):
        places = places[0].those(name) if places else []
    return places[0].those("Y") if places else []


def select_table_of(path: list[Element], name: str) -> SelectTable:
    root, table, *_ = path
    for part in root.those("Table")[:2]:
        demand_unscaled(part, name)
    axes = issue_axes_of(path)
    ages: list[int] = []
    periods: list[tuple[Fraction, ...]] = []
    for axis in axes:
        ages.append(next_age(axis, ages, name))
        periods.append(period_of(axis, ages[-1], name))
    rows = ultimate_rows_of(root)
    if not rows:
        raise BadBasis(name, table.at, "noultimate")
    ultimate = table_by_age(rows, name)
    for axis, age, period in zip(axes, ages, periods):
        # ultimate rates that begin later than this leave a gap after the select period
        if ultimate.first > age + len(period):
            raise BadBasis(name, axis.at, "ultimategap")
    return SelectTable(ages[0], tuple(periods), ultimate)


# --- a basis ---

def is_basis_row(row: Row) -> bool:
    fields = row.fields
    return (len(fields) == 3 and day_of(fields[0]) is not None and NAME.fullmatch(fields[1]) is not None
            and number_of(fields[2], 0, MOST_POINTS) is not None)


def basis_rows(data: bytes, name: str) -> list[tuple[datetime.date, str, int]]:
    """Returns the rows of a basis file: the day, the table's name and the basis points of each."""
    if len(data) > MOST_BASIS_BYTES:
        raise BadBasis(name, 0, "toolong")
    rows = rows_in(data)
    if len(rows) > MOST_BASIS_ROWS:
        raise BadBasis(name, MOST_BASIS_ROWS + 1, "toomanyrows")
    found: list[tuple[datetime.date, str, int]] = []
    for row in rows:
        if not is_basis_row(row):
            raise BadBasis(name, row.number, "badrow")
        day = datetime.date.fromisoformat(row.fields[0])
        if found and day <= found[-1][0]:
            raise BadBasis(name, row.number, "notrising")
        found.append((day, row.fields[1], int(row.fields[2])))
    return found


def file_in(folder: str, name: str, place: int) -> bytes:
    """Returns the bytes of a file of a basis, and raises BadBasis if it is absent or too long.

    `place` is 0 for the basis file, and otherwise the number of the basis row that names the table.
    """
    path = os.path.join(folder, name)
    if not os.path.lexists(path):
        raise BadBasis(name, place, "absent")
    try:
        with opened(path) as file:
            data = file.read(MOST_BASIS_BYTES + 1)
    except OSError as error:
        raise Wrong(f"{path}: {error.strerror}") from error
    if len(data) > MOST_BASIS_BYTES:
        raise BadBasis(name, place, "toolong")
    return data


def read_basis(path: str) -> list[BasisRow]:
    """Returns the rows of a basis file with their tables, which are in its folder, or raises BadBasis for the first bad file."""
    folder, name = os.path.split(path)
    rows = basis_rows(file_in(folder, name, 0), name)
    tables: dict[str, AnyTable] = {}
    for place, (_, table, _) in enumerate(rows, 1):
        if table not in tables:
            tables[table] = read_table(file_in(folder, table, place), table)
    return [BasisRow(day, table, tables[table], points) for day, table, points in rows]


def read_table(data: bytes, name: str) -> AnyTable:
    try:
        return table_of(root_of(data), name)
    except NotXml as wrong:
        raise NotXml(f"{name}: {wrong}") from wrong
