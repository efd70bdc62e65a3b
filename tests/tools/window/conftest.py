"""Fixtures for a window on a book with many kinds of postings, by tools that were installed with the program under test."""
from pathlib import Path
from typing import Iterator

import pytest

from life_tools.journal.file import file_of
from tests.support.folders import EXAMPLES, Folder
from tests.support.lived_books import lived as commands_lived
from tests.support.program import Program
from tests.support.windows import Window, installed

POLICIES = 300
ISSUE = "1,issue,7001,2020-01-01,endowment,0,3,1000.00,400.00\n"


@pytest.fixture(scope="session")
def tools(tmp_path_factory: pytest.TempPathFactory, program: Program) -> Path:
    """The tools as they are installed, with the program under test as their program."""
    return installed(tmp_path_factory.mktemp("installed"), program)


@pytest.fixture(scope="session")
def lived(tmp_path_factory: pytest.TempPathFactory, program: Program) -> Folder:
    """A book of some 2,000 commands over 27 years, with a basis and a second one."""
    folder = Folder(tmp_path_factory.mktemp("lived") / "office", program)
    folder.path.mkdir()
    folder.write("journal.life", file_of(commands_lived(3, POLICIES)))
    for name in ("g.xml", "q.xml"):
        folder.write(name, (EXAMPLES / name).read_bytes())
    folder.write("basis.csv", "1990-01-01,g.xml,400\n")
    folder.write("other.csv", "1990-01-01,g.xml,300\n")
    return folder


@pytest.fixture(scope="session")
def window(tools: Path, lived: Folder) -> Iterator[Window]:
    with Window(tools, lived.path) as opened:
        yield opened


@pytest.fixture
def office(table_q: Folder) -> Folder:
    """A book with only the policy whose reserve is computed by hand: 127.22 to 127.23 on 2021-01-01."""
    book = table_q.below("office")
    for name in ("q.xml", "basis.csv"):
        book.write(name, table_q.read(name))
    book.post(ISSUE)
    return book
