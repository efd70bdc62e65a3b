"""Writes sheets as text, as CSV files in a folder, and as a workbook."""
from __future__ import annotations

import os
from itertools import chain
from typing import Any, Sequence

from life_tools.common.cells import number_of_cell, put_text, write_csv_file
from life_tools.common.packages import package
from life_tools.common.program import UNPROVED
from life_tools.reports.sheets import CENTS, COUNT, TEXT, Cell, Column, Sheet, cell_text

Facts = dict[str, str]
# among the facts, the name of a note is this prefix and the sheet's name
NOTE_ON = "note on "
FORMATS = {COUNT: "#,##0", CENTS: "#,##0.00"}


def texts_of(sheet: Sheet) -> list[list[str]]:
    """Returns the rows as they are written, after a header row."""
    rows = [[cell_text(cell, column) for cell, column in zip(row.cells, sheet.columns)] for row in sheet.rows]
    return [[column.name for column in sheet.columns], *rows]


def lines_of(sheet: Sheet) -> list[str]:
    """Returns a sheet as text with each column as wide as its longest cell, followed by the sheet's notes."""
    names, *rest = texts_of(sheet)
    # what two column names have in common is on a header line of its own
    heads = [[name.rpartition(": ")[0] for name in names], [name.rpartition(": ")[2] for name in names]]
    rows = [head for head in heads if any(head)] + rest
    widths = [max(len(row[place]) for row in rows) for place in range(len(sheet.columns))]
    lines = [sheet.title]
    for row in rows:
        cells = [cell.ljust(width) if column.kind == TEXT else cell.rjust(width)
                 for cell, width, column in zip(row, widths, sheet.columns)]
        lines.append("  ".join(cells).rstrip())
    return [*lines, *sheet.notes]


# --- CSV ---

def warning_rows(facts: Facts) -> list[list[str]]:
    """Returns the last row of a CSV file whose numbers were not printed by the proved program, or no row."""
    return [[UNPROVED, facts[UNPROVED]]] if UNPROVED in facts else []


def write_csvs(folder: str, facts: Facts, sheets: Sequence[Sheet]) -> None:
    """Writes a file for each sheet, and one with the facts and the notes on the sheets."""
    notes = [(f"{NOTE_ON}{sheet.name}", note) for sheet in sheets for note in sheet.notes]
    write_csv_file(os.path.join(folder, "facts.csv"), [("fact", "value"), *facts.items(), *notes])
    for sheet in sheets:
        write_csv_file(os.path.join(folder, f"{sheet.name}.csv"), [*texts_of(sheet), *warning_rows(facts)])


def write_policies(folder: str, sheets: Sequence[Sheet]) -> None:
    """Writes a file for each sheet that has each policy's part."""
    for sheet in sheets:
        if sheet.policy_head:
            write_csv_file(os.path.join(folder, f"{sheet.name}.csv"), chain([sheet.policy_head], sheet.policy_rows))


# --- a workbook ---

def put(page: Any, row: int, place: int, cell: Cell, column: Column, bold: Any) -> None:
    text = cell_text(cell, column)
    made = put_text(page, row, place, text)
    if column.kind != TEXT and text:
        made.value = number_of_cell(text)
        made.number_format = FORMATS[column.kind]
    if bold:
        made.font = bold


def widen(page: Any, sheet: Sheet) -> None:
    """Makes each column as wide as its longest cell with separators of thousands."""
    utils = package("openpyxl.utils", "python3-openpyxl")
    for place, column in enumerate(sheet.columns):
        widths = [len(text) + (len(text) // 3 if column.kind != TEXT else 0)
                  for text in (cell_text(row.cells[place], column) for row in sheet.rows)]
        head = max(len(part) for part in column.name.split(": "))
        page.column_dimensions[utils.get_column_letter(place + 1)].width = max([head, *widths]) + 3


def head(page: Any, title: str, styles: Any) -> None:
    """Writes a title, which is a text even if it looks like a formula."""
    put_text(page, 1, 1, title).font = styles.Font(bold=True, size=14)


def fill(page: Any, sheet: Sheet, styles: Any, warning: str) -> None:
    bold = styles.Font(bold=True)
    head(page, sheet.title, styles)
    page.cell(2, 1, warning or None).font = styles.Font(bold=True, color="FF9B1C1C")
    for place, column in enumerate(sheet.columns, 1):
        named = put_text(page, 3, place, column.name)
        named.font = bold
        side = "left" if column.kind == TEXT else "right"
        named.alignment = styles.Alignment(horizontal=side, wrap_text=True, vertical="bottom")
    for at, row in enumerate(sheet.rows, 4):
        for place, (cell, column) in enumerate(zip(row.cells, sheet.columns), 1):
            put(page, at, place, cell, column, bold if row.is_total else None)
            if row.is_total:
                page.cell(at, place).border = styles.Border(top=styles.Side(style="thin"))
    for at, text in enumerate((*sheet.notes, *sheet.checks), len(sheet.rows) + 5):
        put_text(page, at, 1, text)
    page.freeze_panes = "B4"
    fit(page)
    widen(page, sheet)


def fit(page: Any) -> None:
    """Scales a page to the width of a sheet of A4 paper."""
    page.page_setup.paperSize = page.PAPERSIZE_A4
    page.page_setup.orientation, page.page_setup.fitToWidth, page.page_setup.fitToHeight = "landscape", 1, 0
    page.sheet_properties.pageSetUpPr = styles_of("worksheet.properties").PageSetupProperties(fitToPage=True)


def styles_of(part: str) -> Any:
    return package(f"openpyxl.{part}", "python3-openpyxl")


def write_workbook(path: str, title: str, facts: Facts, sheets: Sequence[Sheet]) -> None:
    """Writes a page with the facts, and one for each sheet."""
    openpyxl, styles = package("openpyxl", "python3-openpyxl"), styles_of("styles")
    book = openpyxl.Workbook()
    first = book.active
    first.title = "facts"
    head(first, title, styles)
    for at, (name, text) in enumerate(facts.items(), 3):
        put_text(first, at, 1, name).font = styles.Font(bold=True)
        put_text(first, at, 2, text)
    first.cell(2, 1, UNPROVED if UNPROVED in facts else None).font = styles.Font(bold=True, color="FF9B1C1C")
    first.column_dimensions["A"].width, first.column_dimensions["B"].width = 14, 100
    fit(first)
    for sheet in sheets:
        fill(book.create_sheet(sheet.name), sheet, styles, UNPROVED * (UNPROVED in facts))
    book.save(path)
