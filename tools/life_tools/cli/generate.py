"""A drawn script, as `life generate SEED COUNT LANES` prints it, with its
policies numbered from another number on. So the drawn books of several folders
do not share numbers.

    life-tools generate 1 1000 8 --from 500001 > drawn.csv

The status is 0, or 2 if it could not be done.
"""
from __future__ import annotations

import argparse
import sys

from life_tools.journal.copied_folder import run_in
from life_tools.common.formats import MOST_NUMBER, Wrong, demand, number_of, remark
from life_tools.common.program import life_command


def arguments(parser: argparse.ArgumentParser) -> None:
    parser.add_argument("words", metavar="SEED COUNT LANES", nargs=3, help="as `life generate` takes them")
    parser.add_argument("--from", metavar="NUMBER", dest="first", default="1", help="the number of the first policy (1)")
    parser.add_argument("--life", metavar="PROGRAM", help="the program to ask")


def renumbered(row: str, more: int) -> str:
    """Returns a row of the script with `more` added to its policy number."""
    lane, kind, number, rest = row.split(",", 3)
    return f"{lane},{kind},{int(number) + more},{rest}"


def run(options: argparse.Namespace) -> int:
    first, count = number_of(options.first, 1, MOST_NUMBER), number_of(options.words[1], 1, MOST_NUMBER)
    if first is None:
        raise Wrong(f"--from {options.first}: a policy's number is wanted, 1 to {MOST_NUMBER}")
    demand(count is None or first + count - 1 <= MOST_NUMBER, f"the last number would be above {MOST_NUMBER}")
    # `generate` uses no journal, so it can run in any folder
    status, printed = run_in(".", life_command(options.life), ["generate", *options.words])
    if status:
        remark(f"life generate {' '.join(options.words)} ended with {status}: {printed.strip()[:200]}")
        return 2
    sys.stdout.writelines(renumbered(row, first - 1) for row in printed.splitlines(keepends=True))
    return 0
