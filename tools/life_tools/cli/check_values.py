"""Works every row of a valuation that `life value` printed out anew, in exact
fractions, and compares. It shares no code with the program.

    life-tools check-values journal.life basis.csv VALUATION
    life-tools check-values journal.life basis.csv SAMPLE --sample

The first line of the valuation names the measure. The basis's tables are read
from its folder. With --sample the file has the first line and any of the rows,
in any order: these are checked, and the total is not; what `audit sample`
printed needs no option. The status is 1 if a row or the total is wrong.
"""
from __future__ import annotations

import argparse
from functools import partial

from life_tools.common.formats import Wrong, measure_of, printed_rows, printed_text
from life_tools.journal.opening import book_at
from life_tools.cli.judging import judged
from life_tools.rules.policies import Policy
from life_tools.audit.samples import is_sample
from life_tools.tables.basis import BasisRow, read_basis
from life_tools.reserves.valuation_check import check_block, check_sample


def arguments(parser: argparse.ArgumentParser) -> None:
    parser.add_argument("journal", metavar="JOURNAL", help="the file, as journal.life")
    parser.add_argument("basis", metavar="BASIS", help="the basis file, as basis.csv")
    parser.add_argument("valuation", metavar="VALUATION", help="what life value printed")
    parser.add_argument("--sample", action="store_true", help="some of the rows after the first line are enough")


def judge(rows: list[list[str]], policies: list[Policy], basis: list[BasisRow], measure: str) -> str:
    check_block(rows, policies, basis, {}, measure)
    return f"{len(rows) - 2} rows are right"


def judge_sample(rows: list[list[str]], policies: list[Policy], basis: list[BasisRow], measure: str) -> str:
    checked = check_sample(rows, policies, basis, measure)
    return f"{checked} of {len(policies)} rows are right; the total isn't checked"


def run(options: argparse.Namespace) -> int:
    rows = printed_rows(printed_text(options.valuation))
    measure = measure_of(rows[0]) if len(rows) >= 2 and rows[0][0] == "0" else None
    if measure is None:
        raise Wrong(f"{options.valuation} is no valuation that life value prints")
    book, basis = book_at(options.journal, rows[0][3]), read_basis(options.basis)
    policies = list(book.policies.values())
    if is_sample(rows):
        rows.pop(1)
        options.sample = True
    return judged(partial(judge_sample if options.sample else judge, rows, policies, basis, measure))
