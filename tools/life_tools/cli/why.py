"""Works one row of a valuation out as a colleague would read it: the policy, the
basis row, the rates, and the formula with its numbers.

    life-tools why 7001 2021-01-01 --at 3
    life-tools why 7001 2021-01-01 --mean --exact

The row that the program prints is set beside the exact result. The status is 1
if its bounds do not enclose the exact value.
"""
from __future__ import annotations

import argparse

from life_tools.valuations.class_bases import measure_words
from life_tools.common.formats import MOST_COMMANDS, MOST_NUMBER, Wrong, day_in, demand, number_of
from life_tools.journal.at_position import WORKERS, book_at
from life_tools.common.packages import stay
from life_tools.reports.provenance import with_program


def arguments(parser: argparse.ArgumentParser) -> None:
    parser.add_argument("number", metavar="ID", help="the policy's number")
    parser.add_argument("on", metavar="ON", help="the day of the valuation")
    parser.add_argument("--at", metavar="P", help="the position (the newest)")
    parser.add_argument("--basis", metavar="NAME", default="basis.csv", help="the basis file in the folder (basis.csv)")
    parser.add_argument("--folder", metavar="FOLDER", default=".", help="where journal.life, the basis and the tables lie (.)")
    parser.add_argument("--life", metavar="PROGRAM", help="the program to ask")
    parser.add_argument("--exact", action="store_true", help="print long exact fractions whole")
    measure_arguments(parser)


def measure_arguments(parser: argparse.ArgumentParser) -> None:
    """Adds the arguments for what a valuation shows."""
    measure = parser.add_mutually_exclusive_group()
    measure.add_argument("--mean", dest="measure", action="store_const", const="mean", default="terminal", help="mean reserves")
    measure.add_argument("--deficiency", dest="measure", action="store_const", const="deficiency", help="minimum reserves beside")


def position_in(text: str | None) -> int | None:
    """Returns the position that was given, or None."""
    if text is None:
        return None
    position = number_of(text, 0, MOST_COMMANDS)
    demand(position is not None, f"{text} is no position")
    return position


def run(options: argparse.Namespace) -> int:
    on = day_in(options.on)
    stay()
    with book_at(options.folder, position_in(options.at), [options.basis], options.life) as copy:
        number = number_of(options.number, 1, MOST_NUMBER)
        if number is None:
            raise Wrong(f"{options.number} is no policy's number")
        words = ["value", options.on, "--at", str(copy.position), "--basis", options.basis, *measure_words(options.measure)]
        words += WORKERS
        with copy.begins(*words) as ran:
            # numpy and the other modules take a while to load; the program already runs meanwhile
            from life_tools.valuations.explained_rows import explained

            valued = copy.parts(ran, *words)
            status, lines = explained(copy, valued, number, on, options.basis, options.measure, options.exact)
    print("\n".join([with_program(lines[0], options.life), *lines[1:]]))
    return status
