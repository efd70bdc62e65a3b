"""A valuation in which each policy's row may be by the basis of its own class.

    life-tools value 2022-12-31 --at 11
    life-tools value 2022-12-31 --classes classes.csv --bases bases.csv

It is printed as `life value` prints it. By classes the program values the book
once for each basis, each policy's row is taken from its own class, and the
last line adds these up. A policy in no class is an error, with status 2.
"""
from __future__ import annotations

import argparse
import sys

from life_tools.valuations.class_bases import basis_arguments, bases_in, valued
from life_tools.cli.why import measure_arguments, position_in
from life_tools.common.formats import day_in, money
from life_tools.journal.at_position import book_at
from life_tools.valuations.printed_books import PrintedValuation


def arguments(parser: argparse.ArgumentParser) -> None:
    parser.add_argument("on", metavar="ON", help="the day of the valuation")
    parser.add_argument("--at", metavar="P", help="the position (the newest)")
    basis_arguments(parser)
    measure_arguments(parser)
    parser.add_argument("--folder", metavar="FOLDER", default=".", help="where journal.life, the bases and tables lie (.)")
    parser.add_argument("--life", metavar="PROGRAM", help="the program to ask")


def lines_of(valuation: PrintedValuation) -> list[str]:
    """Returns the lines as the program prints them."""
    measure = [] if valuation.measure == "terminal" else [valuation.measure]
    lines = [["0", "value", str(valuation.on), str(valuation.position), str(len(valuation.rows)), *measure]]
    for row in valuation.rows:
        shown = [row.word] if row.word else [*map(money, row.bounds), *([row.premium] if row.premium else [])]
        lines.append(["row", str(row.number), row.status, str(row.year), *shown])
    lines.append(["total", *map(money, valuation.total), str(valuation.words)])
    return [",".join(line) for line in lines]


def run(options: argparse.Namespace) -> int:
    day_in(options.on)
    bases = bases_in(options.basis, options.classes, options.bases)
    with book_at(options.folder, position_in(options.at), bases.names, options.life) as copy:
        valuation = valued(copy, options.on, bases, options.measure)
    sys.stdout.write("\n".join(lines_of(valuation)) + "\n")
    return 0
