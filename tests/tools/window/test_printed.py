"""Tests pages on paper, and at the usual width of a desk: what a person reads there, with amounts of nine digits and more."""
import base64
import subprocess
from pathlib import Path
from typing import Any, Iterator

import pytest

from tests.support.folders import Folder
from tests.support.windows import Window

pytestmark = [pytest.mark.browser, pytest.mark.needs("python:flask", "python:selenium", "pdftotext")]
PLANS = [("whole", 0, "99999999.99"), ("endowment", 20, "87654321.09"), ("term", 20, "98765432.10"),
         ("limited", 20, "76543210.98")]
SCRIPT = "".join(f"1,issue,{number},2020-01-15,{plan},30,{years},{amount},1000.00\n1,premium,{number},2020-01-15,1000.00\n"
                 for number, (plan, years, amount) in enumerate(PLANS * 3, 1))
STATEMENT = "/1/statement?on1=2019-12-31&p1=0&on2=2020-12-31&p2=24"


@pytest.fixture
def office(table_q: Folder) -> Folder:
    book = table_q.below("office")
    book.take("g.xml")
    book.write("basis.csv", "1900-01-01,g.xml,400\n")
    book.post(SCRIPT)
    return book


@pytest.fixture
def browser(tools: Path, office: Folder, tmp_path: Path) -> Iterator[Any]:
    from tests.support.browser import Browser
    with Window(tools, office.path) as window:
        window.page(STATEMENT)
        shown: Any = Browser((1366, 900), tmp_path)
        try:
            shown.enter(window)
            shown.base = f"http://127.0.0.1:{window.port}{window.root}"
            yield shown
        finally:
            shown.close()


def pages_on_paper(browser: Any, folder: Path) -> list[str]:
    """Returns the text of each printed page, laid out as on paper."""
    made = browser.driver.execute_cdp_cmd("Page.printToPDF", {"preferCSSPageSize": True, "printBackground": True})
    (folder / "page.pdf").write_bytes(base64.b64decode(made["data"]))
    return subprocess.run(["pdftotext", "-layout", str(folder / "page.pdf"), "-"], check=True, capture_output=True,
                          text=True).stdout.split("\f")


def words_on_paper(browser: Any, folder: Path) -> list[str]:
    return " ".join(pages_on_paper(browser, folder)).split()


def test_the_statement_on_paper_and_on_a_screen(browser: Any, tmp_path: Path) -> None:
    """By hand: 3 * 99999999.99 and so on, 1088888892.48 in all, for 12 policies."""
    browser.open(browser.base + STATEMENT)
    browser.look("statement")
    words = words_on_paper(browser, tmp_path)
    for wanted in ("299,999,999.97", "262,962,963.27", "296,296,296.30", "229,629,632.94", "1,088,888,892.48", "postings"):
        assert wanted in words, f"{wanted} isn't on paper"
    text = " ".join(words)
    assert "position 24" in text and "Mean reserves, as for a statement of a calendar year-end." in text
    assert "As it stood on" not in text


def test_a_table_stays_a_table_on_paper(browser: Any, tmp_path: Path) -> None:
    """The header of each table is one line, and its first and last row are on one page; so is a report of eleven columns."""
    browser.open(browser.base + STATEMENT)
    pages = pages_on_paper(browser, tmp_path)
    for heads, rows in (("whole life endowment term", ("in force at the beginning", "in force at the end")),
                        ("table interest method", ("CRVM mean", "total")),
                        ("line policies premiums gross net", ("first-year premiums collected", "premium income")),
                        ("line policies by lower bounds", ("reserve at the beginning", "reserve at the end"))):
        page = next((each for each in pages if heads in " ".join(each.split())), "")
        assert all(row in page for row in rows), f"{heads} isn't a line, or its rows are on several pages"
    browser.open(f"{browser.base}/1/report?on=2020-12-31&p=24&measure=deficiency")
    text = [" ".join(each.split()) for each in pages_on_paper(browser, tmp_path)]
    assert any("1,088,888,892.48" in each and "printed by life" in each for each in text)
    assert "Beside another basis" not in " ".join(text)


def test_a_policy_on_paper_keeps_its_day(browser: Any, tmp_path: Path) -> None:
    browser.open(f"{browser.base}/1/policy?number=3&day=2021-01-20&on=2020-12-31")
    text = " ".join(words_on_paper(browser, tmp_path))
    assert "On 2021-01-20:" in text and "on 2020-12-31, terminal" in text and "position 24" in text
    # the table under the chart is printed, although it is closed on the screen
    assert "year anniversary lower bound upper bound" in text
