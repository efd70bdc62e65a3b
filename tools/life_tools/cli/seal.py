"""Makes a seal of the book, its basis and tables: a few lines to keep elsewhere.
With --check it says whether they are still the same.

    life-tools seal > december.seal
    life-tools seal --check december.seal

The seal is of the first P postings (all without --at): of the first 17 + 65 P
bytes of journal.life, which no later posting changes. What the records say is
not decided; `life state` and `read` do that. The status is 1 if these bytes or
a file are different, or if postings are gone. No seal is made of a book of
which `verify` finds postings gone. The lines of a seal are

    seal,1,DAY ON WHICH IT WAS MADE
    position,P,POSTINGS THAT THE JOURNAL HAD,LATEST DAY OF THE FIRST P, IF ANY
    front,BYTES,SHA-256                 the journal's first bytes
    file,NAME,BYTES,SHA-256             the basis and each table that it names
    sum,SHA-256 OF THE LINES ABOVE
"""
from __future__ import annotations

import argparse
import os
import sys

from life_tools.journal.copied_folder import JOURNAL
from life_tools.cli.why import position_in
from life_tools.common.formats import demand, remark
from life_tools.journal.seals import differences, seal_at, seal_of, text_of
from life_tools.journal.wholeness import demand_undamaged, tell


def arguments(parser: argparse.ArgumentParser) -> None:
    parser.add_argument("--at", metavar="P", help="the position (the newest)")
    parser.add_argument("--basis", metavar="NAME", action="append", help="a basis file in the folder (basis.csv); each has one")
    parser.add_argument("--no-basis", action="store_true", help="seal the journal alone")
    parser.add_argument("--folder", metavar="FOLDER", default=".", help="where journal.life, the basis and the tables lie (.)")
    parser.add_argument("--check", metavar="FILE", help="a seal that was kept")


def check(path: str, folder: str) -> int:
    seal = seal_at(path)
    found = differences(seal, folder)
    for each in found:
        remark(f"wrong: {each}")
    if not found:
        files = "".join(f", {it.name}" for it in seal.files)
        print(f"as sealed on {seal.made}: the first {seal.position} postings{files}")
    return 1 if found else 0


def run(options: argparse.Namespace) -> int:
    is_told = options.at is not None or options.basis or options.no_basis
    demand(not (options.check and is_told), "--check has position and files from the seal")
    demand(not (options.basis and options.no_basis), "of --basis and --no-basis one stands")
    if options.check:
        return check(options.check, options.folder)
    status = tell(demand_undamaged(os.path.join(options.folder, JOURNAL)))
    bases = [] if options.no_basis else options.basis or ["basis.csv"]
    seal = seal_of(options.folder, position_in(options.at), bases)
    sys.stdout.write(text_of(seal))
    if seal.day is None:
        remark(f"no posting up to position {seal.position} has a day, so the seal's line `position` ends with an empty field")
    return status
