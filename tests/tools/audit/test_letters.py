"""Tests letters of confirmation: until when a policy is insured, what is due for it, and the book's own name. The figures are
worked out by hand."""
import csv
import io

import pytest

from tests.support.folders import Folder

# Worked out by hand for the day 2021-03-31; whole life covers up to age 131. Policy 1 is paid until 2022-01-15. Policy 2 has a
# premium due since 2021-03-15, and its 31 days of grace end on 2021-04-15. Policy 3 had a premium due on 2021-01-20; its grace
# ended on 2021-02-20, and no lapse is posted. Policy 4 is paid up since the upgrade, so the letter shows no premium. Policy 5 has
# missed two premiums, and its grace ended on 2020-04-01. Policy 6 has paid its two premiums, so no further one is due.
SCRIPT = """\
1,issue,1,2020-01-15,whole,40,0,1000.00,10.00
1,premium,1,2020-01-15,10.00
1,premium,1,2021-01-15,10.00
1,issue,2,2020-03-15,endowment,40,20,2000.00,20.00
1,premium,2,2020-03-15,20.00
1,issue,3,2020-01-20,term,40,20,3000.00,30.00
1,premium,3,2020-01-20,30.00
1,issue,4,2020-02-10,whole,40,0,4000.00,40.00
1,premium,4,2020-02-10,40.00
1,premium,4,2021-02-10,40.00
1,upgrade
1,paidup,4,2021-03-01,500.00
1,issue,5,2020-03-01,limited,40,10,5000.00,50.00
1,issue,6,2019-03-01,limited,40,2,60000.00,600.00
1,premium,6,2019-03-01,600.00
1,premium,6,2020-03-01,600.00
"""
# by policy: premium a year, next premium due, premium in arrears, insured until
WANTED = {"1": ("10.00", "2022-01-15", "", "2111-01-15"), "2": ("20.00", "2021-03-15", "20.00", "2021-04-15"),
          "3": ("30.00", "2021-01-20", "30.00", "2021-02-20"), "4": ("", "", "", "2111-02-10"),
          "5": ("50.00", "2020-03-01", "100.00", "2020-04-01"), "6": ("600.00", "", "", "2110-03-01")}
COLUMNS = ("premium a year", "next premium due", "premium in arrears", "insured until")


@pytest.fixture
def office(table_q: Folder) -> Folder:
    table_q.take("g.xml")
    table_q.write("basis.csv", "1900-01-01,g.xml,400\n")
    table_q.post(SCRIPT)
    table_q.write("sample", table_q.printed("audit", "sample", "5", "--seed", "1", "--on", "2021-03-31", "--by", "amount"))
    return table_q


def letters(office: Folder, *words: str) -> dict[str, dict[str, str]]:
    printed = office.printed("audit", "letters", "sample", *words)
    return {row["policy"]: row for row in csv.DictReader(io.StringIO(printed))}


def test_insured_until(office: Folder) -> None:
    drawn = office.printed("audit", "sample", "60", "--seed", "1", "--on", "2021-03-31", "--by", "amount")
    office.write("sample", drawn)
    found = letters(office)
    assert set(found) >= {"2", "3", "4", "5", "6"}, found
    for number, row in found.items():
        assert tuple(row[name] for name in COLUMNS) == WANTED[number], number


@pytest.mark.parametrize("words", [(), ("--title", "An Office, Ltd")])
def test_the_book_has_its_own_name(office: Folder, words: tuple[str, ...]) -> None:
    name = words[1] if words else office.path.name
    assert {row["book"] for row in letters(office, *words).values()} == {name}
    office.printed("audit", "papers", "sample", "--html", "papers.html", *words)
    assert f"Audit papers: {name} on 2021-03-31" in office.read("papers.html")


def test_a_page_for_each_letter(office: Folder) -> None:
    """Policy 5 is past its grace, so its letter doesn't say that it is in force."""
    office.write("sample", office.printed("audit", "sample", "60", "--seed", "1", "--on", "2021-03-31", "--by", "amount"))
    rows = letters(office)
    assert set(rows) >= {"2", "5", "6"}, rows
    office.printed("audit", "letters", "sample", "--html", "letters.html", "--title", "An Office")
    page = office.read("letters.html")
    assert "none: all premiums are paid" in page
    assert page.count("<section ") == len(rows) and "src=" not in page and "@import" not in page
    assert "20.00 since 2021-03-15" in page and "until 2021-04-15, unless the premium is paid by then" in page
    late = page[page.index('id="letter-5"'):].partition("</section>")[0]
    assert "no longer insured: the last day of grace was 2020-04-01" in late
    assert "<td>in arrears</td>" in late and "in force" not in late
    assert "break-before: page" in page
