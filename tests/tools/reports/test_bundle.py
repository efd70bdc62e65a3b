"""Tests the page to hand over: its numbers are the program's, and each check that it names gives the result that it names."""
import html
import re
import subprocess

import pytest

from tests.support.folders import Folder
from tests.support.shown import cents, demand_offline, plain


@pytest.fixture
def page(small_office: Folder) -> str:
    small_office.printed("report", "2022-12-31", "--at", "11", "--bundle", "page.html", "--rows", "3", "--seed", "7")
    return small_office.read("page.html")


def test_its_totals_and_charts_are_the_programs(page: str, small_office: Folder) -> None:
    demand_offline(page)
    total = small_office.printed("at", "11", "value", "2022-12-31").splitlines()[-1].split(",")
    # by hand: the insured amounts are 50000.00 + 9000.00 + 15000.00 + 100000.00
    lower, upper = (f"{cents(each) / 100:,.2f}" for each in total[1:3])
    assert f"total 4 4 174,000.00 {lower} {upper} 0" in plain(page)
    charts = re.findall(r'<svg class="chart".*?</svg>', page, re.S)
    assert len(charts) == 3
    for chart in charts:
        marks = re.findall("<title>[^<]*, reserve, upper bound: ([0-9,.]+)</title>", chart)
        assert sum(cents(each.replace(",", "")) for each in marks) == cents(total[2])


def test_the_sampled_rows_are_worked_out(page: str) -> None:
    """The upper bounds are 1418.86 and 2656.23, and a third of their sum is less than each, so both rows are certain to be
    drawn."""
    assert "printed: 2656.22,2656.23: the same" in page and "printed: 1418.85,1418.86: the same" in page
    assert "drawn 4,075.09 4,075.07 4,075.09" in plain(page)


def test_each_check_gives_what_it_has_to(page: str, small_office: Folder) -> None:
    steps = [(html.unescape(command), html.unescape(wanted)) for command, wanted in
             re.findall("<code>([^<]*)</code><br>has to give <code>([^<]*)</code>", page)]
    assert len(steps) == 5
    seal = html.unescape(re.findall("<h2>Seal</h2>\n<pre>(.*?)</pre>", page, re.S)[0])
    small_office.write("SEAL", seal)
    for command, wanted in steps:
        if command.startswith("head"):
            ran = subprocess.run(["sh", "-c", command], cwd=small_office.path, capture_output=True, text=True, check=True)
            assert ran.stdout.split()[0] == wanted
            continue
        printed = small_office.printed(*command.partition("|")[0].split()[1:])
        if command.startswith("life-tools audit"):
            small_office.write("SAMPLE", printed)
            assert printed.splitlines()[1].startswith(wanted.partition("...")[0])
        elif wanted != "status 0":
            assert printed.splitlines()[-1].startswith(wanted), command


def test_of_what_no_bundle_is_made(small_office: Folder) -> None:
    small_office.refused("report", "2022-12-31", "--deficiency", "--bundle", "written", says="terminal or mean reserves")
    small_office.refused("report", "2022-12-31", "--bundle", "written", "--rows", "0", says="is no number of rows")
    small_office.refused("report", "2022-12-31", "--bundle", "written", "--html", "other", says="not allowed with")


def test_a_book_without_reserves_has_no_sample(small_office: Folder) -> None:
    small_office.printed("report", "2019-12-31", "--at", "11", "--bundle", "page.html")
    assert "Every row has a reserve of 0, so none was drawn." in plain(small_office.read("page.html"))


def large(folder: Folder) -> None:
    """Writes a book of more than a thousand millions, and with more policies that are not valued than are listed."""
    folder.write("basis.csv", "2020-01-01,g.xml,400\n")
    early = "".join(f"1,issue,{number},2019-01-15,whole,30,0,1000.00,10.00\n" for number in range(4000000001, 4000000031))
    folder.post(early + "".join(f"1,issue,{number},2020-01-15,{plan},30,20,99999999.99,1000.00\n"
                                f"1,premium,{number},2020-01-15,1000.00\n"
                                for number, plan in enumerate(["endowment", "term", "limited"] * 5, 1)))


@pytest.mark.browser
def test_no_table_scrolls_sideways(examples_basis: Folder) -> None:
    from tests.support.browser import DESK, TABLET, WIDE, Browser
    large(examples_basis)
    for words in (["--bundle", "bundle.html", "--rows", "3"], ["--html", "report.html", "--deficiency", "--by", "plan"]):
        examples_basis.printed("report", "2024-12-31", *words)
    for size in (DESK, TABLET):
        browser = Browser(size, examples_basis.path)
        try:
            for name in ("bundle", "report"):
                browser.driver.get(f"file://{examples_basis.path}/{name}.html")
                wide = browser.driver.execute_script(WIDE.replace("'.table'", "'.wide'").replace("'.table, pre'", "'.wide, pre'"))
                assert not wide and "and 10 more" in browser.driver.page_source, f"{name} at {size}: {wide}"
        finally:
            browser.close()
