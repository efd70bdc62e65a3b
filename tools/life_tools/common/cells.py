"""Writes cells of CSV files and of workbooks so that a spreadsheet takes none of them for a formula, whoever wrote the text."""
from __future__ import annotations

import csv
from decimal import Decimal
from typing import IO, Any, Iterable, Sequence

from life_tools.common.formats import CENTS, NUMBER
from life_tools.common.streams import visible

# a spreadsheet takes a text that begins with one of these characters for a formula
FORMULAS = frozenset("=+-@\t")
# a spreadsheet keeps at most fifteen digits of a number
MOST_DIGITS = 15


def is_number(text: str) -> bool:
    bare = text.removeprefix("-")
    return bool(NUMBER.fullmatch(bare) or CENTS.fullmatch(bare))


def harmless(text: str) -> str:
    """Returns the text of a cell, with a quote before it if a spreadsheet would evaluate it as a formula."""
    if "\r" in text:
        # a carriage return would end the line, and the text after it would become a cell of its own
        text = text.replace("\r", "\\x0d")
    return f"'{text}" if text[:1] in FORMULAS and not is_number(text) else text


def write_rows(file: IO[str], rows: Iterable[Iterable[object]]) -> None:
    """Writes rows as CSV."""
    csv.writer(file, lineterminator="\n").writerows(map(harmless, map(str, row)) for row in rows)


def write_csv_file(path: str, rows: Iterable[Sequence[object]]) -> None:
    """Writes rows as a CSV file. Bytes that are not UTF-8 are written as they were read."""
    with open(path, "w", newline="", encoding="utf-8", errors="surrogateescape") as file:
        write_rows(file, rows)


def number_of_cell(text: str) -> Any:
    """Returns an amount or a count as a number if a spreadsheet keeps all its digits, and otherwise the text itself."""
    digits = text.replace("-", "").replace(".", "")
    return Decimal(text) if digits.isdecimal() and len(digits) <= MOST_DIGITS else text


def put_text(page: Any, row: int, column: int, text: str) -> Any:
    """Puts a text into a cell of a workbook; it stays a text even if it looks like a formula.

    Control characters are escaped, because a workbook cannot hold them.
    """
    made = page.cell(row, column)
    made.value = visible(text) or None
    made.data_type = "s" if text else "n"
    return made
