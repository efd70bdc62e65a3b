"""Tests what a tool writes: under a private name at first, never over a book's own files, and without a cell that is a
formula."""
import csv
import importlib
import os
import shutil
import stat
from pathlib import Path

import pytest

from tests.support.folders import Folder

WRITERS = ("report 2022-12-31 --csv {}", "report 2022-12-31 --html {}", "movement 2021-12-31 11 2022-12-31 27 --policies {}",
           "statement 2021-12-31 11 2022-12-31 27 --html {}")


@pytest.mark.parametrize("words", WRITERS)
@pytest.mark.parametrize("name", ["journal.life", "checkpoint.life", "basis.csv", "desk.toml", "q.xml", "g.xml", "renamed.life",
                                  "other-basis.txt", "monday.txt", "table.txt", "odd.txt"])
def test_a_books_own_file_isnt_replaced(small_office: Folder, words: str, name: str) -> None:
    assert small_office.life("checkpoint").status == 0
    for of, other in (("journal.life", "renamed.life"), ("basis.csv", "other-basis.txt"), ("small-office.csv", "monday.txt"),
                      ("q.xml", "table.txt")):
        shutil.copy(small_office.path / of, small_office.path / other)
    # a table that doesn't begin as a table does, but that the basis names
    small_office.write("odd.txt", f"<!--{'x' * 5000}-->{small_office.read('q.xml')}")
    small_office.write("basis.csv", small_office.read("basis.csv") + "2199-12-31,odd.txt,0\n")
    ended = small_office.refused(*words.format(name).split(), says=f"{name} is ", status=2)
    assert ended.out == ""


@pytest.mark.parametrize("words", ["report 2022-12-31 --csv {}", "report 2022-12-31 --html {}", "report 2022-12-31 --xlsx {}",
                                   "table round g.xml {}"])
def test_a_file_beside_the_target_stays(small_office: Folder, words: str) -> None:
    """The temporary file used to be TARGET.part, even if somebody else had made a file of that name."""
    small_office.write("made.part", "somebody's own\n")
    before = set(os.listdir(small_office.path))
    ended = small_office.tools(*words.format("made").split())
    assert ended.status == 0, ended
    assert small_office.read("made.part") == "somebody's own\n"
    assert set(os.listdir(small_office.path)) == before | {"made"}
    assert stat.S_IMODE(os.stat(small_office.path / "made").st_mode) & 0o444 == 0o444


def test_a_folder_beside_the_target_stays(small_office: Folder) -> None:
    (small_office.path / "made.part").mkdir()
    small_office.write("made.part/notes", "somebody's own\n")
    words = "statement 2021-12-31 11 2022-12-31 27 --csv made"
    assert small_office.tools(*words.split()).status == 0
    assert small_office.read("made.part/notes") == "somebody's own\n" and (small_office.path / "made" / "facts.csv").exists()


def test_a_failed_write_leaves_what_was(small_office: Folder) -> None:
    small_office.write("report.csv", "of last year\n")
    (small_office.path / "folder").mkdir()
    small_office.refused("report", "2022-12-31", "--csv", "folder", says="folder is no file, so it isn't replaced")
    small_office.refused("report", "2022-12-31", "--csv", "/dev/null", says="/dev/null is no file, so it isn't replaced")
    small_office.refused("report", "2022-12-31", "--csv", "nowhere/report.csv", says="nowhere/report.csv: No such file")
    assert small_office.read("report.csv") == "of last year\n"


FORMULAS = ("=cmd|' /C calc'!A0", "+1+1", "@SUM(A1)", "-2+3", "\t=1", "\r=1")


@pytest.mark.parametrize("formula", FORMULAS)
def test_what_is_left_of_an_import_has_no_formula(folder: Folder, formula: str) -> None:
    folder.take("other-system-map.csv")
    rows = [["Vertrag", "Beginn", "Tarif", "Geboren", "Dauer", "Summe", "Jahresbeitrag", "gezahlt"], [formula] * 8]
    with open(folder.path / "other.csv", "w", newline="", encoding="utf-8") as file:
        csv.writer(file, delimiter=";").writerows(rows)
    ended = folder.tools("import", "other.csv", "--map", "other-system-map.csv", "--script", "made.csv", "--left", "left.csv")
    assert ended.status == 1, ended
    with open(folder.path / "left.csv", newline="", encoding="utf-8") as file:
        cells = [cell for row in csv.reader(file) for cell in row]
    assert len(cells) > 3 and not any(cell[:1] in "=+@\t\r" and cell for cell in cells), cells


def test_a_books_name_is_no_formula_in_letters(small_office: Folder, tmp_path: Path) -> None:
    """The book has the name of its folder."""
    folder = small_office.below("=1+1")
    for name in ("journal.life", "basis.csv", "q.xml", "g.xml"):
        shutil.copy(small_office.path / name, folder.path)
    folder.write("sample", folder.printed("audit", "sample", "3", "--seed", "1", "--on", "2022-12-31"))
    rows = list(csv.reader(folder.printed("audit", "letters", "sample").splitlines()))
    assert len(rows) > 1 and any("'=1+1" in row for row in rows[1:]), rows
    assert not any(cell.startswith("=") for row in rows for cell in row)


@pytest.mark.needs("python:openpyxl")
def test_a_workbook_has_no_formula(small_office: Folder) -> None:
    openpyxl = importlib.import_module("openpyxl")
    words = "report 2022-12-31 --xlsx made.xlsx --title"
    assert small_office.tools(*words.split(), "=1+1\x1b[2J").status == 0
    book = openpyxl.load_workbook(small_office.path / "made.xlsx")
    kinds = {cell.data_type for sheet in book for row in sheet.iter_rows() for cell in row}
    assert "f" not in kinds and "n" in kinds
