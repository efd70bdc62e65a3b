"""Tests which program is used: for a program other than the tools' own no page, sheet or file has the mark of proof."""
import csv
import io
from pathlib import Path
from typing import Any

import pytest

from life_tools.common.packages import package
from tests.support.folders import Folder
from tests.support.program import Program
from tests.support.windows import Window, installed

WARNING = "Not the proved program"
MARK = 'class="mark proved"'
PAGES = ("/1/", "/1/find", "/1/policy?number=7001&on=2021-01-01", "/1/report?on=2021-01-01", "/1/day", "/1/month", "/1/audit",
         "/1/stands", "/1/statement?on1=2020-12-31&p1=0&on2=2021-01-01", "/1/movement?on1=2020-12-31&p1=0&on2=2021-01-01")


@pytest.fixture
def forger(office: Folder) -> Path:
    return office.stand_in("\"$life\" \"$@\" | sed 's/127\\.2/927.2/g'")


@pytest.fixture
def other(office: Folder) -> Path:
    """A program other than the tools' own, which prints the same."""
    return office.stand_in('exec "$life" "$@"')


@pytest.fixture
def tools_here(tmp_path: Path, program: Program) -> Path:
    return installed(tmp_path / "bin", program)


@pytest.mark.needs("python:flask", "python:openpyxl")
def test_the_own_program_is_marked(tools_here: Path, office: Folder) -> None:
    with Window(tools_here, office.path) as window:
        answer = window.page("/1/report?on=2021-01-01")
        assert "127.22" in answer.text and MARK in answer.page and WARNING not in answer.page


@pytest.mark.needs("python:flask", "python:openpyxl")
def test_a_forged_reserve_has_no_mark(tools_here: Path, office: Folder, forger: Path) -> None:
    with Window(tools_here, office.path, env={"LIFE_PROGRAM": str(forger)}) as window:
        answer = window.page("/1/report?on=2021-01-01")
        assert "927.22" in answer.text and WARNING in answer.text and MARK not in answer.page


@pytest.mark.needs("python:flask", "python:openpyxl")
def test_another_program_has_no_mark_on_any_page(tools_here: Path, office: Folder, other: Path) -> None:
    with Window(tools_here, office.path, env={"LIFE_PROGRAM": str(other)}) as window:
        for path in PAGES:
            answer = window.page(path)
            assert WARNING in answer.text and MARK not in answer.page, path
        assert WARNING in window.get("/1/nothing").text and WARNING in window.get("/1/report?on=2021-02-31").text
        sheet = window.page("/1/report.csv?on=2021-01-01")
        assert 'filename="unproved-' in sheet.headers["Content-Disposition"]
        assert list(csv.reader(io.StringIO(sheet.body.decode())))[-1][0] == "not the proved program"
        papers = window.page("/1/papers.html?on=2021-01-01&count=1&measure=terminal")
        assert WARNING in papers.text


@pytest.mark.needs("python:flask")
def test_a_program_that_changes_meanwhile_is_asked_no_more(tools_here: Path, office: Folder, program: Program) -> None:
    with Window(tools_here, office.path) as window:
        window.page("/1/")
        own = tools_here.with_name("life")
        own.rename(tools_here.with_name("older"))
        own.write_bytes(program.path.read_bytes())
        own.chmod(0o755)
        answer = window.get("/1/report?on=2021-01-01&measure=mean")
        assert answer.status == 409 and "the program is no longer the one" in answer.text


WORDS = {"report": ("report", "2021-01-01"), "statement": ("statement", "2020-12-31", "0", "2021-01-01", "1", "--mean"),
         "movement": ("movement", "2020-12-31", "0", "2021-01-01", "1")}


@pytest.mark.parametrize("name", WORDS)
def test_a_sheet_names_another_program(office: Folder, other: Path, name: str) -> None:
    words = [*WORDS[name], "--life", str(other)]
    printed = office.tools(*words)
    assert printed.status == 0 and printed.out.splitlines()[0].endswith("not the proved program"), printed
    assert "not the proved program" in printed.err
    assert office.tools(*words, "--html", "page.html").status == 0
    assert WARNING in office.read("page.html") and "@top-right" in office.read("page.html")
    if name == "report":
        assert office.tools(*words, "--bundle", "bundle.html").status == 0 and WARNING in office.read("bundle.html")
    assert "not the proved program" not in office.printed(*WORDS[name])


def test_a_row_worked_out_names_another_program(office: Folder, other: Path) -> None:
    printed = office.tools("why", "7001", "2021-01-01", "--life", str(other)).out
    assert printed.splitlines()[0].endswith(", not the proved program")
    assert "not the proved program" not in office.printed("why", "7001", "2021-01-01")


@pytest.mark.needs("python:openpyxl")
def test_a_workbook_names_another_program_on_each_sheet(office: Folder, other: Path) -> None:
    office.printed("report", "2021-01-01", "--life", str(other), "--xlsx", "book.xlsx")
    openpyxl: Any = package("openpyxl", "python3-openpyxl")
    book = openpyxl.load_workbook(office.path / "book.xlsx")
    assert all(sheet["A2"].value == "not the proved program" for sheet in book)
    office.printed("report", "2021-01-01", "--xlsx", "book.xlsx")
    assert not any(sheet["A2"].value for sheet in openpyxl.load_workbook(office.path / "book.xlsx"))


def test_a_csv_names_another_program(office: Folder, other: Path) -> None:
    office.printed("report", "2021-01-01", "--life", str(other), "--csv", "report.csv")
    assert office.read("report.csv").splitlines()[-1].startswith("not the proved program,")
    office.printed("statement", "2020-12-31", "0", "2021-01-01", "1", "--life", str(other), "--csv", "sheets")
    assert all(office.read(f"sheets/{name}.csv").splitlines()[-1].startswith("not the proved program,")
               for name in ("exhibit", "reserves", "premiums", "increase", "claims"))


def test_version_judges_the_program_that_is_asked(office: Folder, other: Path, program: Program) -> None:
    """LIFE_PROGRAM may name another program than the one that the tools belong to; all tools then use it."""
    asked = Folder(office.path, Program(other, False))
    told = asked.tools("version")
    assert told.status == 1 and "wrong: LIFE_PROGRAM names another program" in told.out
    assert "LIFE_PROGRAM names the proved program" in office.tools("version").out
