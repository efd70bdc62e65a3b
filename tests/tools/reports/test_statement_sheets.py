"""Tests the statement on paper and on a screen, and the sentences that accompany its sums."""
import re
import subprocess
from pathlib import Path

import pytest

from tests.support.folders import Folder

# Four plans of more than 900,000,000.00 in all, with a premium past its grace on 2021-12-31, and one policy that was issued
# later.
SCRIPT = "".join(f"1,issue,{number},2020-01-15,{plan},30,{years},{amount},1000.00\n1,premium,{number},2020-01-15,1000.00\n"
                 for number, (plan, years, amount) in enumerate(
                     [("whole", 0, "99999999.99"), ("endowment", 20, "87654321.09"), ("term", 20, "98765432.10"),
                      ("limited", 20, "76543210.98")] * 3, 1)) + "1,issue,99,2022-03-01,term,30,10,1000.00,10.00\n"
MOMENTS = ("2019-12-31", "0", "2020-12-31", "24")


@pytest.fixture
def office(table_q: Folder) -> Folder:
    table_q.take("g.xml")
    table_q.write("basis.csv", "1900-01-01,g.xml,400\n")
    table_q.post(SCRIPT)
    return table_q


def words_of_pdf(page: Path) -> list[str]:
    made = page.with_suffix(".pdf")
    subprocess.run(["chromium", "--headless", "--no-sandbox", "--disable-gpu", "--no-pdf-header-footer", f"--print-to-pdf={made}",
                    f"file://{page}"], check=True, capture_output=True, timeout=120)
    printed = subprocess.run(["pdftotext", "-layout", str(made), "-"], check=True, capture_output=True, text=True).stdout
    return printed.split()


@pytest.mark.needs("chromium", "pdftotext", "pdfinfo")
def test_the_printed_exhibit_has_all_its_columns_in_landscape(office: Folder) -> None:
    """By hand: 3 * (99999999.99 + 87654321.09 + 98765432.10 + 76543210.98) = 1088888892.48, for 12 policies and 12 postings."""
    office.printed("statement", *MOMENTS, "--mean", "--html", "page.html")
    words = words_of_pdf(office.path / "page.html")
    for wanted in ("299,999,999.97", "262,962,963.27", "296,296,296.30", "229,629,632.94", "1,088,888,892.48", "postings"):
        assert wanted in words, f"{wanted} isn't on paper"
    assert words.count("1,088,888,892.48") >= 2, "the totals of the lines issued and in force at the end"

    size = re.search("Page size: +([0-9.]+) x ([0-9.]+) pts", office.command("pdfinfo", "page.pdf"))
    assert size and float(size[1]) > float(size[2]), size


@pytest.mark.browser
def test_no_sheet_scrolls_sideways(office: Folder) -> None:
    from tests.support.browser import Browser
    office.printed("statement", *MOMENTS, "--mean", "--html", "page.html")
    for size in ((1366, 900), (768, 1000), (390, 844)):
        browser = Browser(size, office.path)
        try:
            browser.driver.get(f"file://{office.path}/page.html")
            assert browser.driver.execute_script("return document.documentElement.scrollWidth") <= size[0], size
        finally:
            browser.close()


def first_line(office: Folder, *words: str) -> str:
    return office.printed("statement", *MOMENTS, *words).splitlines()[0]


def test_the_first_line_says_which_reserve_and_why(office: Folder) -> None:
    assert first_line(office, "--mean").endswith(": mean reserves, as asked for by --mean")
    assert first_line(office, "--terminal").endswith(": terminal reserves, as asked for by --terminal")
    assert first_line(office).endswith(": terminal reserves, since neither --mean nor --terminal was given")
    office.refused("statement", *MOMENTS, "--mean", "--terminal", says="not allowed with")


def test_notes_of_those_in_force_by_their_status_alone(office: Folder) -> None:
    """On 2021-12-31 the second premium, due on 2021-01-15, is past its grace for all 12 policies; 99 is issued later."""
    printed = office.printed("statement", "2019-12-31", "0", "2021-12-31", "25")
    assert "In force on 2021-12-31 by their status, but past the grace of an unpaid premium, with no lapse posted: 12" in printed
    assert "In force on 2021-12-31 by their status, but issued after that day: 1" in printed


def test_what_the_minimum_is_compared_with(office: Folder) -> None:
    """A premium of 1000.00 for such amounts is far below the net premium, so each policy is short."""
    printed = office.printed("statement", *MOMENTS, "--mean")
    assert "The minimum reserve is a terminal one" in printed
    assert re.search("Warning: of 12 policies the minimum reserve is above the terminal reserve", printed)
    assert "The minimum reserve is a terminal one" not in office.printed("statement", *MOMENTS)
    amount = re.search("above the terminal reserve, by ([0-9]+)([.][0-9]{2}) in all", printed)
    office.printed("statement", *MOMENTS, "--mean", "--html", "page.html")
    assert amount and f"reserve, by {int(amount[1]):,}{amount[2]} in all" in office.read("page.html")


def test_report_names_policies_issued_after_the_day(office: Folder) -> None:
    told = office.tools("report", "2020-12-31")
    assert told.status == 0 and "policies issued after 2020-12-31, which are counted" in told.err, told
    assert told.err.rstrip().endswith(": 1")
    assert "issued after" not in office.tools("report", "2020-12-31", "--at", "24").err


# Policy 1 dies in 2021 and is settled then; policy 2 dies in 2020 and is settled in 2021; policy 3 lapsed in 2020.
DEATHS = """1,issue,1,2020-01-15,whole,30,0,1000.00,20.00
1,premium,1,2020-01-15,20.00
1,issue,2,2020-01-15,whole,30,0,1000.00,20.00
1,premium,2,2020-01-15,20.00
1,issue,3,2020-01-15,whole,30,0,1000.00,20.00
1,lapse,3,2020-03-01
1,claim,2,2020-12-01
1,claim,1,2021-02-01
1,settle,1,2021-02-10,1000.00
1,settle,2,2021-03-01,1000.00
"""


def test_movement_says_what_counts_on_which_line(office: Folder) -> None:
    """By hand: of the two settlements, one follows a claim of the period; the settled and the lapsed policies count at both
    ends."""
    office.journal.unlink()
    office.post(DEATHS)
    printed = office.printed("movement", "2020-12-31", "7", "2021-12-31", "10")
    assert "after a claim or maturity of the period, its settlement" in printed
    assert "all that were ever issued, whatever their status" in printed
    counts = dict(re.findall(r"^(\w[\w ]*\w) {2,}([0-9]+) ", printed, re.M))
    assert (counts["claims"], counts["settlements"]) == ("1", "1"), printed
    assert counts["opening reserve"] == counts["closing reserve"] == "3", printed


# --- what the help says of a statement ---

LIFE = "1,issue,1,2018-01-15,whole,30,0,1000.00,20.00\n1,premium,1,2018-01-15,20.00\n1,premium,1,2018-12-01,20.00\n"


def increase(office: Folder, day: str, *moments: str) -> str:
    """Returns the increase in reserves of a book in which the policy is claimed on a day, at position 4."""
    office.journal.unlink(missing_ok=True)
    office.post(LIFE + f"1,claim,1,{day}\n")
    sheets = f"{day}-to-{moments[2]}"
    office.printed("statement", *moments, "--csv", sheets)
    return office.read(f"{sheets}/increase.csv")


def test_the_help_says_on_which_day_a_posting_of_another_period_counts(office: Folder) -> None:
    """A claim dated after DAY2 has the same increase as one on DAY2, and one dated before DAY1 the same as one on DAY1. A year
    begins on 2019-01-15, so each pair of days has that day between them."""
    told = " ".join(office.printed("statement", "--help").split())
    assert ("In the increase in reserves a posting dated after DAY2 counts on DAY2, and a posting dated before DAY1, of a policy "
            "that was there at P1, counts on DAY1.") in told
    later = ("2018-06-30", "3", "2018-12-31", "4")
    assert increase(office, "2019-02-01", *later) == increase(office, "2018-12-31", *later)
    earlier = ("2019-06-30", "3", "2019-12-31", "4")
    assert increase(office, "2019-01-10", *earlier) == increase(office, "2019-06-30", *earlier)


def test_the_examples_of_a_year_end_have_mean_reserves(office: Folder) -> None:
    told = office.printed("statement", "--help")
    examples = re.findall(r"^ +life-tools statement (.*)$", told, re.M)
    assert examples and all(" --mean" in each for each in examples if each.split()[2].endswith("-12-31")), examples
    assert "which are also taken if neither is given" in " ".join(told.split())


# --- the minimum ---

@pytest.mark.parametrize("page", ["docs/proof/definitions.md", "docs/explanation/reserves.md"])
def test_the_pages_say_what_the_minimum_is(root: Path, page: str) -> None:
    text = " ".join(re.sub(r"[$`\\]", "", (root / page).read_text(encoding="utf-8")).split())
    assert re.search("takes beta for the net premium of the first year too, and it is the minimum of the law only if "
                     "(basis.csv|the basis) is the law's minimum standard", text), page


def test_the_minimum_takes_beta_for_the_first_year(table_q: Folder) -> None:
    """By hand (docs/explanation/reserves.md): 1 - 0.4 * 2.62 is below 0, so on the day of issue the minimum is 0. By the net
    premium of the first year, 0.484874 - 0.270370, it would be 1 - 0.214504 - 0.4 * 1.62 = 0.137496."""
    table_q.post("1,issue,7001,2020-01-01,endowment,0,3,1000.00,400.00\n")
    rows = [table_q.printed("value", day, "--deficiency").splitlines()[1] for day in ("2020-01-01", "2021-01-01")]
    assert rows == ["row,7001,inforce,0,0.00,0.00,0.00,0.00,short", "row,7001,inforce,1,127.22,127.23,280.00,280.00,short"]
