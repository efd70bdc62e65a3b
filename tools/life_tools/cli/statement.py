"""The sheets of a statement between two moments: exhibit of life insurance,
reserves, premiums, increase in reserves, claims.

    life-tools statement 2022-12-31 11 2023-12-31 30 --mean --html year.html
    life-tools statement 2022-12-31 11 2023-12-31 30 --mean --xlsx year.xlsx

DAY1 and DAY2 are the days, P1 and P2 the positions at which it begins and
ends (`position-on` finds them). Every sheet adds up to what the program prints
of both positions, and to the balances of its accounts; otherwise nothing is
written, and the status is 1. A statement at the end of a calendar year is made
by --mean, with mean reserves; --terminal asks for terminal reserves, which are
also taken if neither is given. The deficiency stands beside them in either
case, and is one of terminal reserves. In the increase in reserves a posting
dated after DAY2 counts on DAY2, and a posting dated before DAY1, of a policy
that was there at P1, counts on DAY1.
"""
from __future__ import annotations

import argparse
import sys

from life_tools.valuations.class_bases import basis_arguments, bases_in
from life_tools.common.files import demand_new, write_folder, write_text, written_whole
from life_tools.cli.why import position_in
from life_tools.common.program import UNPROVED
from life_tools.common.formats import day_in, remark
from life_tools.reports.periods import Asked, NotWhole
from life_tools.reports.provenance import provenance
from life_tools.reports.sheet_files import lines_of, write_csvs, write_policies, write_workbook
from life_tools.reports.sheet_pages import page
from life_tools.reports.statement import Statement, statement_of

MEASURED = ("mean", "terminal")
NOT_ASKED = "since neither --mean nor --terminal was given"


def arguments(parser: argparse.ArgumentParser) -> None:
    parser.add_argument("on1", metavar="DAY1", help="the opening day")
    parser.add_argument("p1", metavar="P1", help="the opening position")
    parser.add_argument("on2", metavar="DAY2", help="the closing day")
    parser.add_argument("p2", metavar="P2", help="the closing position")
    measures = parser.add_mutually_exclusive_group()
    for measure in MEASURED:
        measures.add_argument(f"--{measure}", dest="measure", action="store_const", const=measure, help=f"{measure} reserves")
    basis_arguments(parser)
    parser.add_argument("--folder", metavar="FOLDER", default=".", help="where journal.life, the bases and tables lie (.)")
    parser.add_argument("--life", metavar="PROGRAM", help="the program to ask")
    parser.add_argument("--title", metavar="TEXT", help="the company and the book (the folder's name)")
    files = parser.add_mutually_exclusive_group()
    files.add_argument("--csv", metavar="FOLDER", help="a new folder with a CSV of each sheet")
    files.add_argument("--xlsx", metavar="FILE", help="a workbook (python3-openpyxl)")
    files.add_argument("--html", metavar="FILE", help="one page, which needs no network")
    parser.add_argument("--policies", metavar="FOLDER", help="a new folder with each policy's part of the sheets, as CSV")


def asked_in(options: argparse.Namespace) -> Asked:
    first, last = position_in(options.p1), position_in(options.p2)
    assert first is not None and last is not None
    bases = bases_in(options.basis, options.classes, options.bases)
    measure, why = options.measure or "terminal", f"as asked for by --{options.measure}" if options.measure else NOT_ASKED
    return Asked(options.folder, day_in(options.on1), first, day_in(options.on2), last, bases, measure, options.life,
                 bool(options.policies), why)


def run(options: argparse.Namespace) -> int:
    asked = asked_in(options)
    # before the program is asked for anything and before a file is written
    demand_new(*(folder for folder in (options.csv, options.policies) if folder))
    try:
        statement = statement_of(asked)
    except NotWhole as wrong:
        remark(f"wrong: {wrong}")
        return 1
    statement.facts.update(provenance(asked.folder, asked.last, options.title, asked.life))
    write(statement, options)
    return 0


def write(statement: Statement, options: argparse.Namespace) -> None:
    """Writes the files that were asked for, or prints the sheets."""
    facts, sheets, title = statement.facts, statement.sheets, f"Statement of {statement.facts['book']}"
    if options.csv:
        write_folder(options.csv, lambda folder: write_csvs(folder, facts, sheets))
    elif options.xlsx:
        written_whole(options.xlsx, lambda path: write_workbook(path, title, facts, sheets))
    elif options.html:
        written_whole(options.html, lambda path: write_text(path, page(title, facts, sheets)))
    else:
        show(statement)
    if options.policies:
        write_folder(options.policies, lambda folder: write_policies(folder, sheets))


def show(statement: Statement) -> None:
    title = f"from {statement.facts['from']} to {statement.facts['to']}: {statement.facts['reserves']}"
    print(f"{title}, {UNPROVED}" if UNPROVED in statement.facts else title)
    for sheet in statement.sheets:
        sys.stdout.write("\n" + "\n".join(lines_of(sheet)) + "\n")
