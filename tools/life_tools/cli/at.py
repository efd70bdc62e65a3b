"""Prints what `life` prints of the book as it stood after its first POSITION
postings: its state, a valuation or a projection.

    life-tools at 11 state
    life-tools at 11 state 7001
    life-tools at 11 value 2022-12-31 --mean

The program runs on a copy of the journal that ends at this position; nothing
is posted. Options of this tool stand before POSITION. The status is 0, or 2
if the program did not end with 0.
"""
from __future__ import annotations

import argparse
import sys

from life_tools.journal.copied_folder import run_in
from life_tools.common.formats import MOST_COMMANDS, Wrong, demand, number_of, remark
from life_tools.journal.at_position import book_at

WORDS = ("state", "value", "project")


def arguments(parser: argparse.ArgumentParser) -> None:
    parser.add_argument("--folder", metavar="FOLDER", default=".", help="where journal.life and the basis lie (.)")
    parser.add_argument("--life", metavar="PROGRAM", help="the program to run")
    parser.add_argument("position", metavar="POSITION", help="after how many postings")
    parser.add_argument("words", metavar="WORDS", nargs=argparse.REMAINDER, help="state [ID], value DAY or project DAY YEARS")


def basis_in(words: list[str]) -> str:
    """Returns the name of the basis file that the arguments ask for."""
    for word, following in zip(words, [*words[1:], ""]):
        if word == "--basis":
            return following
        if word.startswith("--basis="):
            return word.partition("=")[2]
    return "basis.csv"


def run(options: argparse.Namespace) -> int:
    words = options.words
    demand(words and words[0] in WORDS, f"after the position comes one of {', '.join(WORDS)}")
    position = number_of(options.position, 0, MOST_COMMANDS)
    if position is None:
        raise Wrong(f"{options.position} is no position from 0 to {MOST_COMMANDS}")
    with book_at(options.folder, position, [basis_in(words)], options.life) as copy:
        status, text = run_in(copy.folder, copy.life, words)
    sys.stdout.write(text)
    sys.stdout.flush()
    if status:
        remark(f"life {' '.join(words)} ended with {status}")
    return 2 if status else 0
