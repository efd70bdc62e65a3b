"""Tests that the tables of pages are in words that an actuary or an administrator knows, and not in those of the program's output
or of CSV files."""
import html
import re
from pathlib import Path

import pytest

from tests.support.folders import Folder
from tests.support.windows import Window

pytestmark = pytest.mark.needs("python:flask")
# the program's words for statuses and for rows without bounds, and the names of groups and columns in CSV files
RAW = re.compile("inforce|paidup|nobasis|belowtable|pasttable|ratehigh|issue-year|age-band|basis-row|[0-9]{3}-[0-9]{3}|words|"
                 "none|without a value")
PAGES = ("/1/", "/1/find", "/1/day", "/1/report?on=2024-12-31", "/1/report?on=2024-12-31&measure=deficiency",
         "/1/group?on=2024-12-31&by=status&group=inforce", "/1/group?on=2024-12-31&by=basis-row&group=none",
         "/1/bases?on=2024-12-31&other=other.csv", "/1/movement?on1=2023-12-31&p1=500&on2=2024-12-31",
         "/1/statement?on1=2023-12-31&p1=500&on2=2024-12-31", "/1/sample?on=2024-12-31&count=20",
         "/1/policy?number={number}&on=2024-12-31")


@pytest.fixture
def late(lived: Folder, tmp_path: Path) -> Folder:
    """The book by a basis that begins after some of its policies and has no row for the youngest ages."""
    book = Folder(tmp_path / "late", lived.program)
    book.path.mkdir()
    book.write("journal.life", lived.journal.read_bytes())
    book.take("g.xml", "q.xml")
    book.write("basis.csv", "2001-01-01,q.xml,0\n2005-01-01,g.xml,400\n")
    book.write("other.csv", "2001-01-01,g.xml,300\n")
    return book


def texts(page: str) -> list[str]:
    """Returns the texts of the cells and heads of a page's tables, and those of its charts."""
    return [html.unescape(re.sub("<[^>]*>", "", each)).strip()
            for each in re.findall(r"<t[dh][ >].*?</t[dh]>|<text[ >].*?</text>|<title>.*?</title>", page, re.S)]


def test_tables_have_the_words_of_their_readers(tools: Path, late: Folder) -> None:
    valued = late.printed("value", "2024-12-31").splitlines()
    number = next(line.split(",")[1] for line in valued if line.endswith(",nobasis"))
    assert any(line.endswith(",pasttable") for line in valued)
    with Window(tools, late.path) as window:
        said = set()
        for path in PAGES:
            page = window.page(path.format(number=number)).page
            raw = [each for each in texts(page) if RAW.fullmatch(each)]
            assert not raw, f"{path}: {raw}"
            said |= set(texts(page))
        assert {"not valued", "issued before the basis", "cover beyond the table", "in force", "paid up", "30 to 39"} <= said
        assert "the policy isn't valued: issued before the basis (nobasis)" in window.page(PAGES[-1].format(number=number)).text


@pytest.mark.parametrize("form", ["--html", "--bundle"])
def test_files_to_read_have_them_too(late: Folder, form: str) -> None:
    late.printed("report", "2024-12-31", "--by", "status", "--by", "age-band,issue-year", form, "report.html")
    page = late.read("report.html")
    assert not [each for each in texts(page) if RAW.fullmatch(each)] and "age-band" not in page
    assert {"age at issue, year of issue", "not valued", "in force", "paid up", "issued before the basis"} <= set(texts(page))


def test_a_csv_file_has_the_names_that_programs_know(late: Folder) -> None:
    late.printed("report", "2024-12-31", "--by", "status", "--by", "age-band", "--csv", "report.csv")
    rows = late.read("report.csv").splitlines()
    assert rows[0].endswith(",words") and any(row.startswith("status,inforce,") for row in rows)
    assert any(row.startswith("age-band,030-039,") for row in rows)
