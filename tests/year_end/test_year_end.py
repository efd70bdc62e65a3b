"""Tests a year-end as an administrator, an actuary and an auditor do it, with the commands that the pages show.

The book is drawn and covers twenty years; then it is divided into eight books. Each sheet is compared with sums that SQLite
computes over `export`. YEAR_END_POLICIES is the number of policies: 2,000 by default, or 20,000 for a whole year-end.
"""
import datetime
import os
import shutil
from pathlib import Path

import pytest

from life_tools.journal.file import file_of
from tests.support.lived_books import Times, lived
from tests.support.program import ROOT, Program

from .office import Office
from .walks import Walk

TIMES = Times(datetime.date(2004, 1, 1), datetime.date(2010, 6, 1), datetime.date(2024, 3, 31), 96)
FILES = {"basis.csv": "1900-01-01,g.xml,400\n2012-01-01,g.xml,300\n", "other.csv": "2004-07-01,g.xml,250\n"}
SEED, BOOKS = 59, 8
POLICIES = int(os.environ.get("YEAR_END_POLICIES", "2000"))


def lay_book(folder: Path) -> int:
    """Writes the book with its bases into a folder of its own, and returns the greatest number of a policy."""
    folder.mkdir()
    commands = lived(SEED, POLICIES, TIMES)
    (folder / "journal.life").write_bytes(file_of(commands))
    for name, text in FILES.items():
        (folder / name).write_text(text, encoding="ascii")
    shutil.copy(ROOT / "examples" / "g.xml", folder)
    return int(max(command.number for command in commands))


@pytest.mark.slow
@pytest.mark.timeout(1800)
def test_a_year_end(tmp_path: Path, program: Program) -> None:
    last = lay_book(tmp_path / "main")
    office = Office(tmp_path, program)
    walk = Walk(office, FILES, last)
    walk.administrator()
    walk.actuary()
    walk.classes()
    walk.auditor()
    walk.many(BOOKS)
    assert office.compared > 0
