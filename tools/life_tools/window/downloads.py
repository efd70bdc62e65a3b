"""Makes the tables that leave the window as files, CSV and workbooks; no cell of them is a formula."""
from __future__ import annotations

import io
from dataclasses import replace
from itertools import chain, islice
from typing import Any, Iterable, Iterator, Sequence

from life_tools.common.cells import harmless, is_number, number_of_cell, put_text, write_rows
from life_tools.common.packages import package
from life_tools.common.program import UNPROVED
from life_tools.reports.sheet_files import fit
from life_tools.window.parts import File

A_PART = 512


def csv_parts(rows: Iterable[Sequence[str]]) -> Iterator[str]:
    """Yields the text of a CSV file, part by part."""
    left = iter(rows)
    while some := list(islice(left, A_PART)):
        out = io.StringIO()
        write_rows(out, some)
        yield out.getvalue()


def workbook(sheets: Sequence[tuple[str, Sequence[Sequence[str]]]]) -> bytes:
    """Returns a workbook of sheets; the first row of each is its header, and amounts are numbers."""
    openpyxl = package("openpyxl", "python3-openpyxl")
    book = openpyxl.Workbook()
    book.remove(book.active)
    for name, rows in sheets:
        sheet = book.create_sheet(harmless(name)[:31])
        for at, row in enumerate(rows, 1):
            for place, cell in enumerate(row, 1):
                if is_number(cell):
                    sheet.cell(at, place).value = number_of_cell(cell)
                else:
                    put_text(sheet, at, place, cell)
        shape(openpyxl, sheet, rows)
    made = io.BytesIO()
    book.save(made)
    return made.getvalue()


def shape(openpyxl: Any, sheet: Any, rows: Sequence[Sequence[str]]) -> None:
    """Sets the widths of columns, a header that stays in view, two decimals for amounts, and the width of a printed page."""
    fit(sheet)
    for place in range(max((len(row) for row in rows), default=0)):
        widest = max(len(row[place]) for row in rows if len(row) > place)
        sheet.column_dimensions[openpyxl.utils.get_column_letter(place + 1)].width = min(max(widest * 1.3 + 2, 10), 60)
    for cell in sheet[1] if rows else ():
        cell.font = openpyxl.styles.Font(bold=True)
    sheet.freeze_panes = "B2"
    for line in sheet.iter_rows(min_row=2):
        for cell in line:
            if not isinstance(cell.value, str) and cell.value is not None:
                cell.number_format = "#,##0.00" if "." in str(cell.value) else "#,##0"


def warned(file: File, why: str) -> File:
    """Returns a download whose numbers were not printed by the proved program: its name says so, and a CSV has it as its last
    row."""
    if file.kind != "text/csv":
        return replace(file, name=f"unproved-{file.name}")
    parts = [file.parts.decode("utf-8", "replace")] if isinstance(file.parts, bytes) else file.parts
    return replace(file, name=f"unproved-{file.name}", parts=chain(parts, csv_parts([[UNPROVED, why]])))
