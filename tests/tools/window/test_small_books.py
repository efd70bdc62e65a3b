"""Tests books with little in them: no policy, one, or nothing posted for months. Each page of such a book exists and is right."""
import os
import re
from pathlib import Path

import pytest

from life_tools.journal.file import file_of
from life_tools.window.stand_pages import user_name
from tests.support.folders import Folder
from tests.support.windows import Window

pytestmark = pytest.mark.needs("python:flask", "python:openpyxl")

ENDS = "on1=2019-12-31&p1=0&on2=2020-12-31"
PAGES = ("/1/", "/1/find", "/1/day", "/1/day/list?what=lapse", "/1/month", "/1/audit", "/1/stands", "/1/flags", "/1/held",
         "/1/report?on=2020-12-31&measure=deficiency", f"/1/movement?{ENDS}", f"/1/statement?{ENDS}&measure=mean",
         "/1/bases?on=2020-12-31&other=other.csv", "/1/premiums?month=2020-12", "/1/postings?year=2020&kind=claim",
         "/1/moment?asof=2020-12-31")


def below(folder: Folder, name: str) -> Folder:
    book = folder.below(name)
    for each, of in (("q.xml", "q.xml"), ("basis.csv", "basis.csv"), ("other.csv", "basis.csv")):
        book.write(each, folder.read(of))
    return book


def test_each_page_of_an_empty_book(tools: Path, table_q: Folder) -> None:
    book = below(table_q, "empty")
    book.write("journal.life", file_of([]))
    with Window(tools, book.path) as window:
        for path in PAGES:
            assert window.page(path).status == 200
        sample = window.get("/1/sample?on=2020-12-31")
        assert sample.status == 409 and "none can be drawn" in sample.text


def test_a_day_months_after_the_last_posting(tools: Path, table_q: Folder) -> None:
    """For the state on a day, the year-end is shown, although nothing was posted since July, and arrears are those of the day.
    For the newest position, no year-end is shown that its postings don't reach."""
    book = below(table_q, "office")
    book.post("1,issue,7001,2020-01-01,endowment,0,3,1000.00,400.00\n1,issue,7002,2020-07-01,endowment,0,3,1000.00,400.00\n")
    book.post("1,issue,7003,2021-01-01,endowment,0,3,1000.00,400.00\n")
    with Window(tools, book.path) as window:
        page = window.page("/1/moment?asof=2020-12-31")
        rows = page.rows("Reserve and amount insured at the ends of 2020 to 2020")
        assert [row[:4] for row in rows] == [["2020-12-31", "2", "2", "2,000.00"]]
        waits = page.rows("What waits for a person")[2]
        assert waits[1:] == ["In arrears on 2020-12-31, and the days of grace are over.", "2", "800.00"]
        assert "2 policies of these are past the days of grace on 2020-12-31" in page.text
        assert "ends of" not in window.page("/1/moment?asof=2020-11-30").text
        assert "ends of 2020 to 2020" in window.page("/1/moment?asof=2030-12-31").text


def test_an_audit_of_a_day_with_a_late_posting(tools: Path, table_q: Folder) -> None:
    """Policy 3 is of 2022 and was posted after one of 2023. The audit of the year-end is of position 1; it names the late
    posting, and leads to position 3. Its lists lead back to it."""
    book = below(table_q, "office")
    book.post("".join(f"1,issue,{number},{day},endowment,0,3,1000.00,400.00\n"
                      for number, day in ((1, "2022-06-01"), (2, "2023-01-05"), (3, "2022-12-30"))))
    with Window(tools, book.path) as window:
        page = window.page("/1/audit?on=2022-12-31")
        assert "of position 1 , the book at the end of 2022-12-31" in page.text and "Valued on" not in page.text
        assert "1 posting of 2022-12-31 or before was posted after a posting of a later day" in page.text
        later = window.page(next(each for each in page.links() if "audit?" in each and "p=3" in each))
        assert "of position 3 , the book at the end of 2022-12-31" in later.text
        at = next(each for each in page.links() if "/seal.txt?" in each).partition("?")[2]
        for path in (f"/1/sample?{at}&on=2022-12-31&count=1&by=amount", f"/1/flags?{at}&on=2022-12-31"):
            back = next(each for each in window.page(path).links() if "audit?" in each and "p=1" in each)
            assert "of position 1 , the book at the end of 2022-12-31" in window.page(back).text
        refused = window.get("/1/movement?on1=2021-12-31&p1=9&on2=2022-12-31&p2=1")
        assert refused.status == 400 and "Opening position: 9 is no position" in refused.text
        assert re.search(r'<label for="typed-2">Opening position</label>', refused.page)


def test_a_user_without_a_name_on_this_machine(monkeypatch: pytest.MonkeyPatch) -> None:
    def nameless() -> str:
        raise KeyError("getpwuid(): uid not found")

    monkeypatch.setattr("getpass.getuser", nameless)
    assert user_name() == str(os.getuid())
