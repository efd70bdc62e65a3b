"""Explains a refusal: of a line, what it means and what to do; of a script or a
basis, the place, what was found there and what is expected.

    life-tools explain 1,claim,7003,refused,graceover,2020-03-15
    life-tools explain badscript,2,4 bad-day.csv
    life-tools explain badbasis,t.xml,28,badrate [FOLDER]
    life-tools explain TABLE.xml       what is taken of a table's file

The answer is the line that the program printed. The folder (`.`) has the
files of the basis. The status is 1 if a table's file is refused, and 2 if the
files do not fit the answer.
"""
from __future__ import annotations

import argparse
import os

from life_tools.scripts.explanations import NotTaken, explain_basis, explain_script, explain_table
from life_tools.common.formats import demand, remark
from life_tools.rules.remedies import explain_refusal, is_refused


def arguments(parser: argparse.ArgumentParser) -> None:
    parser.add_argument("answer", metavar="ANSWER", help="a refused line, badscript,.. or badbasis,.. as printed; or a table")
    parser.add_argument("files", metavar="SCRIPT | FOLDER", nargs="?", help="the script, or the folder of the basis")


def run(options: argparse.Namespace) -> int:
    kind = options.answer.split(",")[0]
    if is_refused(options.answer):
        demand(options.files is None, "a refused line needs no file")
        explain_refusal(options.answer)
        return 0
    is_fit = kind == "badbasis" or (kind == "badscript") == (options.files is not None)
    demand(is_fit, "badscript needs the script's file, and a table nothing else")
    if kind == "badscript":
        explain_script(options.answer, options.files)
        return 0
    if kind == "badbasis":
        explain_basis(options.answer, options.files or ".")
        return 0
    demand(os.path.lexists(options.answer), f"{options.answer}: no such file, and no answer of a line, a script or a basis")
    try:
        explain_table(options.answer)
    except NotTaken as bad:
        remark(str(bad))
        return 1
    return 0
