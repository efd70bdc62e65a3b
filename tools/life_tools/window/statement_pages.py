"""Makes the page of a statement between two days: its sheets as `statement` writes them, beside the printed closing total."""
from __future__ import annotations

import csv
import os
from typing import Sequence

from life_tools.reports.report_pages import all_apart, apart, money
from life_tools.reports.sheet_files import NOTE_ON
from life_tools.common.program import UNPROVED
from life_tools.window.audit_pages import measure_on
from life_tools.window.asked import Asked, BadRequest
from life_tools.common.cells import is_number
from life_tools.window.downloads import csv_parts
from life_tools.window.views import View
from life_tools.window.month_pages import XLSX
from life_tools.window.parts import RIGHT, Answer, Cell, File, Head, Page, Table
from life_tools.window.tool_runs import ToolRun, tool_run
from life_tools.window.valuations import Valuation, kept_valuation

WORDS = ("at", "on1", "p1", "on2", "p2", "measure")
MEASURES = ("mean", "terminal")
TITLES = {"exhibit": "Exhibit of life insurance", "reserves": "Reserves by valuation basis", "premiums": "Premiums",
          "increase": "Increase in reserves", "claims": "Claims and maturities"}
# lines that are sums of the lines above
TOTALS = ("total", "in force at the end", "reserve at the end", "outstanding at the end", "premium income")
CLOSING = "reserve at the end"
# lines that have no policies behind them: what remains from rounding, and sums of other lines
NOT_LISTED = ("rounding", "change of basis", "premium income")


def asked_words(book: View, asked: Asked, *more: str) -> dict[str, str]:
    """Returns the days, the positions and the measure; the closing position is that of the view."""
    asked.only((*WORDS, *more))
    on1, on2 = asked.day_or_none("on1"), asked.day_or_none("on2")
    if on1 is None or on2 is None:
        raise BadRequest("Opening day, Closing day: type both")
    first, last = asked.position("p1", book.copy.newest, book.at), book.at
    if first > last:
        raise BadRequest(f"Opening position: {first} is after the closing position, {last}")
    measure = asked.one_of("measure", MEASURES, measure_on(str(on2)))
    return {"on1": str(on1), "p1": str(first), "on2": str(on2), "p2": str(last), "measure": measure}


def why_of(words: dict[str, str]) -> str:
    """Returns why the statement is by its measure."""
    if words["measure"] == "mean":
        return "mean reserves" + (", as for a statement of a calendar year-end" if measure_on(words["on2"]) == "mean" else "")
    return "terminal reserves, asked for by name" if measure_on(words["on2"]) == "mean" else "terminal reserves"


def written(book: View, words: dict[str, str], form: str, to: str) -> ToolRun:
    """Runs `statement`; it ends with 1 and writes nothing if it does not add up."""
    told = ["statement", *(words[name] for name in ("on1", "p1", "on2", "p2")), f"--{words['measure']}"]
    told += ["--basis", book.basis.name, "--title", book.name]
    title = f"the statement from {words['on1']} to {words['on2']}"
    return tool_run(book, [*told, form, f"OUT/{to}"], title, False)


def sheet_in(run: ToolRun, name: str) -> list[list[str]]:
    with open(os.path.join(run.file("sheets"), f"{name}.csv"), encoding="utf-8", newline="") as file:
        return list(csv.reader(file))


# a wide sheet is shown as two tables, counts and amounts, so that neither is wider than its page
PARTS = (("number of policies", ": number", (": amount",)), ("amounts", ": amount", (": number", "postings")))
MOST_COLUMNS = 10


def sheet_tables(book: View, words: dict[str, str], name: str, rows: list[list[str]]) -> list[Table]:
    """Returns a sheet as tables: amounts on the right, sums marked by their style, and each cell a link."""
    names, lines = rows[0], [row for row in rows[1:] if row[0] != UNPROVED]
    if len(names) <= MOST_COLUMNS:
        return [sheet_table(book, words, name, TITLES[name], names, lines)]
    found = []
    for says, ends, others in PARTS:
        places = [place for place, text in enumerate(names) if not text.endswith(others)]
        heads = [names[place].removesuffix(ends) for place in places]
        found.append(sheet_table(book, words, name, f"{TITLES[name]}: {says}", heads,
                                 [[row[place] for place in places] for row in lines]))
    return found


def sheet_table(book: View, words: dict[str, str], name: str, caption: str, names: Sequence[str],
                lines: Sequence[Sequence[str]]) -> Table:
    numeric = [all(is_number(row[place]) or not row[place] for row in lines) and place > 0 for place in range(len(names))]
    kinds = ["says", *(RIGHT if right else "" for right in numeric[1:])]
    heads = [Head(text.replace(": ", ", "), kind) for text, kind in zip(names, kinds)]
    rows = []
    for row in lines:
        links = [cell_link(book, words, name, row, head) for head in names]
        rows.append([Cell(apart(text), link if text not in ("", "0", "0.00") else "") for text, link in zip(row, links)])
    return Table(caption, heads, rows, is_sum=[row[0] in TOTALS for row in lines])


def told_of(rows: list[list[str]]) -> tuple[list[list[str]], dict[str, list[str]]]:
    """Returns the facts, and the notes on each sheet."""
    notes = {name: [all_apart(says) for fact, says in rows if fact == NOTE_ON + name] for name in TITLES}
    return [row for row in rows if not row[0].startswith(NOTE_ON)], notes


def told_by(words: dict[str, str], measure: str) -> dict[str, object]:
    """Returns the arguments of the same statement by another measure."""
    return {**words, "measure": measure}


def cell_link(book: View, words: dict[str, str], sheet: str, row: Sequence[str], column: str) -> str:
    """Returns the link to the list of policies behind a cell, or "" for a cell that has none."""
    if sheet == "reserves":
        return book.link("report", on=words["on2"], measure=words["measure"])
    line = row[0]
    if line in NOT_LISTED or line.startswith("deferred"):
        return ""
    group = column if sheet in ("exhibit", "increase") else ""
    told: dict[str, object] = {**words, "sheet": sheet, "line": line, "group": group}
    return book.link("statement/cell", **told)


def closing_row(rows: list[list[str]]) -> list[str]:
    """Returns the bounds of the reserve with which the increase ends."""
    return next(row[-2:] for row in rows if row[0] == CLOSING)


def statement(book: View, asked: Asked) -> Answer:
    words = asked_words(book, asked)
    on2 = asked.day_or_none("on2")
    assert on2 is not None
    valuation: Valuation = kept_valuation(book, on2, words["measure"])
    run = written(book, words, "--csv", "sheets")
    sheets = {name: sheet_in(run, name) for name in TITLES}
    facts, notes = told_of(sheet_in(run, "facts")[1:])
    closing, printed = [*map(apart, closing_row(sheets["increase"]))], [*map(money, valuation.total)]
    told: dict[str, object] = dict(words)
    other = "terminal" if words["measure"] == "mean" else "mean"
    values = {"sheets": [(name, sheet_tables(book, words, name, rows), book.link("statement.csv", **told, sheet=name))
                         for name, rows in sheets.items()], "titles": TITLES,
              "closing": closing, "printed": printed, "is_equal": closing == printed, "why": why_of(words),
              "facts": facts, "notes": notes, "words": words, "xlsx": book.link("statement.xlsx", **told),
              "report": book.link("report", on=words["on2"], measure=words["measure"]), "other": other,
              "other_link": book.link("statement", **told_by(words, other))}
    return Page("statement.html", f"Statement to {words['on2']}", values)


def statement_csv(book: View, asked: Asked) -> Answer:
    sheet = asked.one_of("sheet", TITLES, "exhibit")
    words = asked_words(book, asked, "sheet")
    run = written(book, words, "--csv", "sheets")
    return File(f"{sheet}-{words['on1']}-{words['on2']}.csv", "text/csv", csv_parts(sheet_in(run, sheet)))


def statement_xlsx(book: View, asked: Asked) -> Answer:
    words = asked_words(book, asked)
    run = written(book, words, "--xlsx", "statement.xlsx")
    with open(run.file("statement.xlsx"), "rb") as file:
        return File(f"statement-{words['on1']}-{words['on2']}.xlsx", XLSX, file.read())
