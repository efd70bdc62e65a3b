"""Writes a report as text and as CSV."""
from __future__ import annotations

from itertools import chain
from typing import Sequence

from life_tools.common.cells import write_csv_file
from life_tools.valuations.groups import Groups, Sums

Tables = Sequence[tuple[Sequence[str], Groups]]


def lines_of(keys: Sequence[str], groups: Groups, total: Sums, columns: Sequence[str]) -> list[str]:
    """Returns a table of groups as text, with each column as wide as its longest cell."""
    rows = [[", ".join(keys), *columns], *([", ".join(name), *sums.cells()] for name, sums in groups.items()),
            ["total", *total.cells()]]
    widths = [max(len(row[place]) for row in rows) for place in range(len(rows[0]))]
    padded = ([row[0].ljust(widths[0]), *(cell.rjust(width) for cell, width in zip(row[1:], widths[1:]))] for row in rows)
    return ["  ".join(row) for row in padded]


def write_csv(path: str, tables: Tables, total: Sums, columns: Sequence[str], warnings: Sequence[Sequence[str]]) -> None:
    rows = ([",".join(keys), ",".join(name), *sums.cells()] for keys, groups in tables for name, sums in groups.items())
    write_csv_file(path, chain([["by", "group", *columns]], rows, [["all", "total", *total.cells()]], warnings))
