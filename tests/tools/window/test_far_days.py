"""Tests a posting of a day far ahead, such as one that somebody mistyped: it stretches no chart and no timeline, and the first
page names the months that aren't shown, and leads to the posting."""
import re
from pathlib import Path

import pytest

from tests.support.folders import Folder
from tests.support.windows import Window

pytestmark = pytest.mark.needs("python:flask")
POLICIES = ((7001, "2020-01-01"), (7002, "2020-07-01"), (7009, "2099-12-31"), (7003, "2021-01-01"))


def issue(number: int, day: str) -> str:
    return f"1,issue,{number},{day},endowment,0,3,1000.00,400.00\n"


@pytest.fixture
def far(office: Folder) -> Folder:
    """By hand: the third posting is of 2099, and one of 2021 comes after it."""
    office.journal.unlink()
    office.post("".join(issue(*each) for each in POLICIES) + "1,premium,7001,2020-01-01,400.00\n")
    return office


def test_a_far_day_stretches_no_chart(tools: Path, far: Folder) -> None:
    with Window(tools, far.path) as window:
        page = window.page("/1/")
        captions = re.findall(r"<caption[^>]*>(.*?)</caption>", page.page)
        assert "Premiums due and received by month, 2019-08 to 2021-04" in captions
        [ends] = page.rows("Reserve and amount insured at the ends of 2020 to 2020")
        assert ends[:4] == ["2020-12-31", "2", "2", "2,000.00"]
        charts = re.findall(r'<svg class="chart".*?</svg>', page.page, re.S)
        assert charts and not [each for each in charts if "2099" in each]
        due = {row[0]: row[1:] for row in page.rows("Premiums due and received by month, 2019-08 to 2021-04")}
        # 7001 fell due on 2020-01-01 and was paid, and again on 2021-01-01, on which 7003 fell due for the first time
        assert due["2020-01"] == ["400.00", "400.00"] and due["2021-01"] == ["800.00", "0.00"] and due["2020-07"][0] == "400.00"


def test_the_first_page_names_what_it_doesnt_show(tools: Path, far: Folder) -> None:
    with Window(tools, far.path) as window:
        page = window.page("/1/")
        assert ("1 posting is of 2099-12-31, far ahead of all others: the month 2099-12 isn't shown in the charts, "
                "which end with 2021-04.") in page.text
        shown = window.page(next(each for each in page.links() if "/postings?" in each and "since=2099-12-31" in each))
        assert [row[:4] for row in shown.rows("Postings")] == [["3", "2099-12-31", "issue", "7009"]]
        assert "2 postings of earlier days came after position 3, the first of these, and are at no year-end" in page.text
        month = window.page(next(each for each in page.links() if "/month?" in each and "on=" in each))
        assert "1 posting of 2020-12-31 or before was posted after one of a later day" in month.text
        assert "far ahead" not in window.page("/1/?at=2").text


def test_a_far_day_stretches_no_timeline(tools: Path, far: Folder) -> None:
    """Each page goes on from the last day of the other postings, unless it is asked for another day."""
    with Window(tools, far.path) as window:
        for path in ("/1/", "/1/find", "/1/month", "/1/audit", "/1/?at=3"):
            page = window.page(path)
            stops = re.findall(r'title="([0-9-]{10})">', page.page)
            assert stops and stops[:2] == ["2020-12-31", "2021-12-31"] and max(stops) == "2021-12-31", f"{path}: {stops}"
        assert 'name="on" value="2019-12-31"' in window.page("/1/month?at=3").page
        assert "as valued on 2021-01-01" in window.page("/1/audit").text
        assert "In arrears on 2020-07-01" in window.page("/1/?at=3").text
        assert "2099-12-31" in window.page("/1/moment?asof=2099-12-31&page=find").page


def test_a_book_of_days_to_come_is_shown_whole(tools: Path, office: Folder) -> None:
    """By hand: a premium a year is no slip, so no day of such a book is far ahead."""
    office.journal.unlink()
    office.post(issue(7001, "2093-02-01") + "".join(f"1,premium,7001,{year}-02-01,400.00\n" for year in (2093, 2094, 2095)))
    with Window(tools, office.path) as window:
        page = window.page("/1/")
        assert "by month, 2093-09 to 2095-05" in page.page and "far ahead" not in page.text


def test_premiums_of_a_month_in_a_later_century(tools: Path, office: Folder) -> None:
    """A month beyond the charts has all its unpaid premiums, and no others; the first month of the calendar has none."""
    office.journal.unlink()
    office.post("1,issue,7001,2020-01-15,whole,0,0,1000.00,400.00\n1,premium,7001,2020-01-15,400.00\n")
    with Window(tools, office.path) as window:
        assert window.page("/1/premiums?month=2119-01&what=due").rows("Premiums due") == [
            ["2119-01-15", "7001", "400.00", "not paid"]]
        for month in ("1900-01", "2119-02", "2199-12"):
            assert "0 fell due" in window.page(f"/1/premiums?month={month}&what=due").text, month
        assert window.page("/1/premiums?month=2020-01&what=due").rows("Premiums due")[0][3].startswith("on 2020-01-15")
