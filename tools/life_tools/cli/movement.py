"""What moved between two valuations: the analysis of change, which adds up
exactly in lower and in upper bounds.

    life-tools movement 2022-12-31 11 2024-04-30 30
    life-tools movement 2022-12-31 11 2022-12-31 11 --basis old.csv new.csv

It leads from the opening reserve (day ON1, position P1, basis B1) by what was
posted, by the time gone by, and by a change of basis if B2 is given, to the
closing reserve (ON2, P2). Each reserve is the program's. What was posted is
measured on the opening day; new issues on the closing day. A policy counts on
one line, that of its last posting that is neither a premium nor, after a claim
or maturity of the period, its settlement; `statement` counts each posting. The
premiums and settlements of the accounts stand below. With --deficiency it is
of the minimum reserves. The status is 1 if a sum does not agree with the
printed total; then nothing is written.
"""
from __future__ import annotations

import argparse

from life_tools.reports.movement import LINES, Cash, Changes, Moved
from life_tools.reports.moved_books import Books, Moment, moved_in
from life_tools.valuations.class_bases import Bases, bases_in
from life_tools.cli.report import add_title
from life_tools.common.files import write_text, written_whole
from life_tools.cli.why import measure_arguments, position_in
from life_tools.common.formats import Wrong, day_in, demand, money, remark
from life_tools.valuations.printed_valuations import SHOWN
from life_tools.reports.provenance import provenance, with_program
from life_tools.reports.bulk_texts import COMMA, Letters
from life_tools.reports.report_sheets import movement_sheet
from life_tools.reports.sheet_files import write_workbook
from life_tools.reports.sheet_pages import page
from life_tools.reports.sheets import BY_BOUNDS

# number of policies that are written at once
AT_ONCE = 1 << 14


def arguments(parser: argparse.ArgumentParser) -> None:
    parser.add_argument("on1", metavar="ON1", help="the opening day")
    parser.add_argument("p1", metavar="P1", help="the opening position")
    parser.add_argument("on2", metavar="ON2", help="the closing day")
    parser.add_argument("p2", metavar="P2", help="the closing position")
    parser.add_argument("--basis", metavar="NAME", nargs="+", help="the basis, and the one that it is changed to (basis.csv)")
    parser.add_argument("--classes", metavar="FILE", help="a CSV of classes: number or range of policies, class")
    parser.add_argument("--bases", metavar="FILE", nargs="+",
                        help="a CSV of their bases, and one of those that they are changed to")
    measure_arguments(parser)
    parser.add_argument("--policies", metavar="FILE", help="each policy's part as CSV")
    parser.add_argument("--xlsx", metavar="FILE", help="a workbook as well (python3-openpyxl)")
    parser.add_argument("--html", metavar="FILE", help="one page as well, which needs no network")
    add_title(parser)
    parser.add_argument("--folder", metavar="FOLDER", default=".", help="where journal.life, the bases and tables lie (.)")
    parser.add_argument("--life", metavar="PROGRAM", help="the program to ask")


def bases_of(options: argparse.Namespace) -> list[Bases]:
    """Returns the bases, and those to which they are changed if these are given."""
    demand(len(options.basis or []) <= 2 and len(options.bases or []) <= 2, "there are two bases at most")
    if options.basis and not options.classes and not options.bases:
        return [bases_in(name, None, None) for name in options.basis]
    name = options.basis[0] if options.basis else None
    return [bases_in(name, options.classes, path) for path in options.bases or [None]]


TOLD = ("each column is a sum of the printed rows' bounds, of the lower or of the upper ones; a line is what that sum moved by",
        "a policy that was posted to counts on one line, that of its last posting that is neither a premium nor, after a claim "
        "or maturity of the period, its settlement; `statement` counts each posting",
        "the policies of the opening and the closing line are all that were ever issued, whatever their status; those of `time "
        "gone by` and `change of basis` are those whose reserve it changed")


def text_of(changes: Changes, some: slice) -> bytes:
    """Returns the parts of some policies as rows of CSV."""
    letters = Letters(len(changes.number[some]))
    letters.add_number(changes.number[some])
    letters.add_letter(COMMA)
    letters.add_texts(["", *LINES[1:]], changes.line[some])
    for part in (changes.opening, changes.posted, changes.time, changes.basis, changes.closing):
        for column in part[some].T:
            letters.add_letter(COMMA)
            letters.add_amount(column)
    return letters.text()


def write_policies(path: str, changes: Changes) -> None:
    """Writes each policy's part, many at once."""
    parts = ("opening", "posted", "time", "basis", "closing")
    head = ["policy", "line", *(f"{part} {bound}" for part in parts for bound in ("lower", "upper"))]
    with open(path, "wb") as file:
        file.write(f"{','.join(head)}\n".encode("ascii"))
        for start in range(0, len(changes), AT_ONCE):
            file.write(text_of(changes, slice(start, start + AT_ONCE)))


def shown(lines: list[Moved]) -> str:
    rows = [("", "policies", *(column.name for column in BY_BOUNDS))]
    rows += [(it.name, str(it.policies), money(it.cents[0]), money(it.cents[1])) for it in lines]
    widths = [max(len(row[place]) for row in rows) for place in range(4)]
    return "\n".join("  ".join([row[0].ljust(widths[0]), *(row[k].rjust(widths[k]) for k in (1, 2, 3))]) for row in rows)


def write_files(options: argparse.Namespace, lines: list[Moved], cash: Cash, notes: list[str], title: str) -> None:
    """Writes the page or the workbook if one is asked for."""
    if not options.html and not options.xlsx:
        return
    told = provenance(options.folder, int(options.p2), options.title, options.life)
    sheets, whole = [movement_sheet(title, lines, cash, notes)], f"{told['book']}: {title}"
    if options.xlsx:
        written_whole(options.xlsx, lambda path: write_workbook(path, whole, told, sheets))
    if options.html:
        written_whole(options.html, lambda path: write_text(path, page(whole, told, sheets)))


def notes_of(books: Books) -> list[str]:
    notes = [f"{valuation.words} policies of the {name} are not valued, and are in no sum"
             for name, valuation in ((LINES[0], books.opening), (LINES[-1], books.closing)) if valuation.words]
    return [*notes, *TOLD]


def run(options: argparse.Namespace) -> int:
    day_in(options.on1), day_in(options.on2)
    first, last = position_in(options.p1), position_in(options.p2)
    assert first is not None and last is not None
    books = Books(Moment(options.on1, first), Moment(options.on2, last), bases_of(options), options.measure, options.folder,
                  options.life)
    try:
        changes, lines, cash = moved_in(books)
    except Wrong as wrong:
        remark(f"wrong: {wrong}")
        return 1
    if options.policies:
        written_whole(options.policies, lambda path: write_policies(path, changes))
    measure = "" if options.measure == "terminal" else f", {SHOWN[options.measure][0]}"
    title = f"from {options.on1} at position {options.p1} to {options.on2} at position {options.p2}{measure}"
    notes = notes_of(books)
    write_files(options, lines, cash, notes, title)
    print("\n".join([with_program(title, options.life), shown(lines), *notes]))
    print(f"premiums received {money(cash.premiums)}, settlements paid {money(cash.settlements)}")
    return 0
