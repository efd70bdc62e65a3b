"""Represents the sheets of a statement as plain data: columns of texts, counts and amounts, rows in sections, and sums of
books."""
from __future__ import annotations

from dataclasses import dataclass, field
from typing import Any, Iterable, NamedTuple, Sequence, Union

from life_tools.common.formats import demand, money

TEXT, COUNT, CENTS = "text", "count", "cents"
Cell = Union[str, int, None]


class Column(NamedTuple):
    """A column: its name, and whether its cells are texts, counts or amounts in cents."""

    name: str
    kind: str = CENTS


# for amounts that are added up twice, from the lower and from the upper bounds of printed rows
BY_BOUNDS = (Column("by lower bounds"), Column("by upper bounds"))
# the columns of the bounds in a report, by how many bounds a row has
HEADS = {2: ("lower bound", "upper bound"), 4: ("lower bound", "upper bound", "minimum, lower", "minimum, upper")}


class Row(NamedTuple):
    """A row: its cells, its section of the sheet, and whether it is a sum or a balance."""

    cells: tuple[Cell, ...]
    section: int = 0
    is_total: bool = False


@dataclass
class Sheet:
    """A sheet: a short name, a title, its columns and rows, notes, and what was compared."""

    name: str
    title: str
    columns: list[Column]
    rows: list[Row] = field(default_factory=list)
    notes: list[str] = field(default_factory=list)
    checks: list[str] = field(default_factory=list)
    # each policy's part if that was asked for: a header row, and rows as they are written
    policy_head: list[str] = field(default_factory=list)
    policy_rows: Iterable[list[str]] = ()
    # the exact sums from which the rows were rounded; those of several books are added before they are rounded
    exact: Any = None

    def add(self, *cells: Cell, section: int = 0, is_total: bool = False) -> None:
        demand(len(cells) == len(self.columns), f"{self.name}: a row of {len(cells)} cells for {len(self.columns)} columns")
        self.rows.append(Row(cells, section, is_total))


def cell_text(cell: Cell, column: Column) -> str:
    """Returns a cell as it is written: an amount with a point, and "" for an empty cell."""
    if cell is None:
        return ""
    return money(cell) if column.kind == CENTS and isinstance(cell, int) else str(cell)


# if a sheet has more columns, its counts and its amounts are shown as two tables
MOST_COLUMNS = 10
COUNTED, VALUED = ": number", ": amount"


class Part(NamedTuple):
    """A table of a sheet: its title, and the places of its columns with their names in this table."""

    title: str
    places: list[int]
    names: list[str]


def parts_of(sheet: Sheet) -> list[Part]:
    """Returns the tables as which a sheet is shown: one, or for a wide sheet one of counts and one of amounts."""
    columns = list(enumerate(sheet.columns))
    if len(columns) <= MOST_COLUMNS or not any(column.name.endswith(COUNTED) for _, column in columns):
        return [Part(sheet.title, [place for place, _ in columns], [column.name for _, column in columns])]
    found = []
    for kind, what, ends in ((COUNT, "number of policies", COUNTED), (CENTS, "amounts", VALUED)):
        mine = [(place, column) for place, column in columns if column.kind in (TEXT, kind)]
        found.append(Part(f"{sheet.title}: {what}", [place for place, _ in mine],
                          [column.name.removesuffix(ends) for _, column in mine]))
    return found


def key_of(row: Row, columns: Sequence[Column]) -> tuple[Cell, ...]:
    """Returns the key of a row: its section, whether it is a total, and its texts."""
    texts = (cell for cell, column in zip(row.cells, columns) if column.kind == TEXT)
    return row.section, row.is_total, *texts


def plus(one: Row, other: Row, columns: Sequence[Column]) -> Row:
    def sum_of(cell: Cell, further: Cell, column: Column) -> Cell:
        if column.kind == TEXT or further is None:
            return cell
        if cell is None:
            return further
        assert isinstance(cell, int) and isinstance(further, int)
        return cell + further
    return one._replace(cells=tuple(map(sum_of, one.cells, other.cells, columns)))


def added(sheets: Sequence[Sheet]) -> Sheet:
    """Returns one sheet for several books, in which rows with the same texts are added.

    If the sheets have different rows, the rows are sorted by section and texts, with a section's sums at its end.
    """
    first = sheets[0]
    demand(all(sheet.columns == first.columns and sheet.name == first.name for sheet in sheets), "sheets of several kinds")
    found: dict[tuple[Cell, ...], Row] = {}
    for sheet in sheets:
        for row in sheet.rows:
            key = key_of(row, first.columns)
            found[key] = plus(found[key], row, first.columns) if key in found else row
    rows = list(found.values())
    if any(len(sheet.rows) != len(rows) for sheet in sheets):
        rows.sort(key=lambda row: key_of(row, first.columns))
    return Sheet(first.name, first.title, first.columns, rows, list(dict.fromkeys(it for sheet in sheets for it in sheet.notes)),
                 list(dict.fromkeys(it for sheet in sheets for it in sheet.checks)))
