"""Asks the program itself about a table's file: a valuation by a basis that has only this table."""
from __future__ import annotations

import os
import tempfile

from life_tools.journal.copied_folder import JOURNAL, run_in
from life_tools.common.formats import MOST_BASIS_BYTES, Wrong
from life_tools.journal.file import EMPTY
from life_tools.common.program import life_command
from life_tools.tables.basis import NAME

BASIS = "basis.csv"
DAY = "2000-01-01"
TAKEN, BAD_BASIS = 0, 4
# used in place of a file name that cannot stand in a basis
STANDS_FOR = "table.xml"
OF_THE_PROGRAM = (BASIS, "journal.life", "checkpoint.life")


def name_for(path: str) -> str:
    name = os.path.basename(path)
    return name if NAME.fullmatch(name) and name not in OF_THE_PROGRAM else STANDS_FOR


def verdict_on(data: bytes, name: str, life: str | None = None) -> str:
    """Returns "" if the program takes a table of these bytes, and otherwise its line `badbasis,NAME,PLACE,WORD`."""
    command = life_command(life)
    with tempfile.TemporaryDirectory(prefix="life-tools-") as desk:
        with open(os.path.join(desk, BASIS), "w", encoding="ascii") as file:
            file.write(f"1900-01-01,{name},0\n")
        with open(os.path.join(desk, name), "wb") as table:
            table.write(data[:MOST_BASIS_BYTES + 1])
        # the launcher refuses a folder without a journal, so an empty one is made
        with open(os.path.join(desk, JOURNAL), "wb") as journal:
            journal.write(EMPTY)
        status, printed = run_in(desk, command, ["value", DAY])
    line = printed.splitlines()[0] if printed else ""
    if status not in (TAKEN, BAD_BASIS):
        raise Wrong(f"the program ended with {status}: {line}")
    return line if status == BAD_BASIS else ""
