"""Works every year of a projection that `life project` printed out anew, exactly,
and compares. It shares no code with the program.

    life-tools check-projection journal.life basis.csv PROJECTION

The basis's tables are read from its folder. Each pair of bounds has to enclose
what is expected, and to be as narrow as the reference says. The status is 1 if
a line is wrong; the line is named.
"""
from __future__ import annotations

import argparse
from functools import partial

from life_tools.common.formats import printed_text
from life_tools.journal.opening import book_at
from life_tools.cli.judging import judged
from life_tools.reserves.projection_check import check_years
from life_tools.reserves.projections import Printed, printed_projection
from life_tools.rules.policies import Policy
from life_tools.tables.basis import BasisRow, read_basis


def arguments(parser: argparse.ArgumentParser) -> None:
    parser.add_argument("journal", metavar="JOURNAL", help="the file, as journal.life")
    parser.add_argument("basis", metavar="BASIS", help="the basis file, as basis.csv")
    parser.add_argument("projection", metavar="PROJECTION", help="what life project printed")


def judge(printed: Printed, policies: list[Policy], basis: list[BasisRow]) -> str:
    check_years(printed, policies, basis)
    return f"{len(printed.years)} years are right"


def run(options: argparse.Namespace) -> int:
    printed = printed_projection(printed_text(options.projection))
    book, basis = book_at(options.journal, str(printed.position)), read_basis(options.basis)
    return judged(partial(judge, printed, list(book.policies.values()), basis))
