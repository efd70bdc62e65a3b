"""Tests that a tool which reads a journal shows nothing of a damaged one: it ends with status 1 and reports what is wrong."""
import shutil
import subprocess

import pytest

from tests.support.folders import Folder
from tests.support.program import ROOT
from tests.support.windows import Window

DAMAGED = "bytes follow byte"
TOOLS = (
    "audit flags", "audit sample 3 --seed 1 --on 2022-12-31", "at 2 state", "check small-office.csv", "dry-run small-office.csv",
    "due 2022-12-31 journal.life", "export csv journal.life", "export jsonl journal.life", "export sqlite journal.life new.db",
    "headroom", "movement 2021-12-31 1 2022-12-31 2", "position-on 2022-12-31 journal.life", "read journal.life",
    "read --verify journal.life", "report 2022-12-31", "rest small-office.csv journal.life 0", "seal",
    "statement 2021-12-31 1 2022-12-31 2", "value 2022-12-31 --classes classes.csv --bases bases.csv", "why 7001 2022-12-31",
    "check-transcript small-office.csv transcript /dev/null journal.life basis.csv",
)


@pytest.fixture
def damaged(small_office: Folder) -> Folder:
    numbers = sorted({line.split(",")[2] for line in small_office.read("small-office.csv").splitlines() if ",issue," in line})
    small_office.write("classes.csv", "".join(f"{number},all\n" for number in numbers))
    small_office.write("bases.csv", "all,basis.csv\n")
    small_office.damage(5)
    return small_office


@pytest.mark.parametrize("words", TOOLS)
def test_a_tool_shows_nothing_of_a_damaged_book(damaged: Folder, words: str) -> None:
    before = damaged.files()
    ended = damaged.tools(*words.split())
    assert (ended.status, ended.out) == (1, ""), ended
    assert DAMAGED in ended.err and "Traceback" not in ended.err
    assert damaged.files() == before


def test_letters_of_a_sample_of_a_damaged_book(small_office: Folder) -> None:
    small_office.write("sample", small_office.printed("audit", "sample", "3", "--seed", "1", "--on", "2022-12-31"))
    assert small_office.printed("audit", "letters", "sample")
    small_office.damage(5)
    ended = small_office.tools("audit", "letters", "sample")
    assert (ended.status, ended.out) == (1, "") and DAMAGED in ended.err, ended


@pytest.mark.needs("python:flask")
def test_the_window_shows_nothing_of_a_damaged_book(damaged: Folder) -> None:
    book = damaged.below("book")
    for name in ("journal.life", "basis.csv", "q.xml", "g.xml"):
        shutil.copy(damaged.path / name, book.path)
    with Window(ROOT / "tools" / "life-tools", book.path, env={"LIFE_PROGRAM": str(book.program.path)}) as window:
        page = window.get("/")
        assert DAMAGED in page.text and "7001" not in page.text, page.text


def test_verify_names_what_it_finds(small_office: Folder) -> None:
    assert small_office.printed("verify").splitlines()[-1] == "whole"
    small_office.journal.write_bytes(b"")
    ended = small_office.tools("verify")
    assert ended.status == 1 and ended.out.splitlines()[-1] == "empty" and "journal.life is empty" in ended.err, ended


def test_no_journal_is_mapped() -> None:
    """A page of a file that a process has mapped could not be dropped after a failed sync."""
    found = subprocess.run(["grep", "-rnE", r"\bmmap\b|memmap", "--include=*.py", str(ROOT / "tools")], capture_output=True,
                           text=True, check=False)
    assert found.stdout == ""


@pytest.mark.parametrize("words", ["dry-run small-office.csv", "check small-office.csv", "read journal.life", "verify", "seal"])
def test_a_link_to_nothing_is_no_folder_without_a_book(small_office: Folder, words: str) -> None:
    small_office.journal.unlink()
    small_office.journal.symlink_to("nowhere/journal.life")
    small_office.refused(*words.split(), says="journal.life: No such file or directory")
