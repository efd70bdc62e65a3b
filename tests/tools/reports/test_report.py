"""Tests reports, movements and rows worked out: for the small office by amounts computed by hand
(docs/explanation/reserves.md), for drawn books by sums of SQLite and of the printed rows, and for wrong input."""
import csv
import datetime
import hashlib
import re
import sqlite3
from random import Random

import pytest

from tests.support.folders import Folder
from tests.support.made_books import lay_drawn_book
from tests.support.shown import WORKBOOKS, cents, demand_offline, has, read_workbook

AT = ["report", "2022-12-31", "--at", "11"]
BY_PLAN = """\
by,group,policies,insured,amount insured,lower bound,upper bound,words
plan,endowment,1,1,9000.00,2656.22,2656.23,0
plan,limited,1,1,15000.00,1418.85,1418.86,0
plan,term,2,2,150000.00,0.00,0.00,0
all,total,4,4,174000.00,4075.07,4075.09,0
"""
# a valuation, followed by its groups
PRINTED = """\
2022-12-31 at position 11, terminal
endowment 1 1 9000.00 2656.22 2656.23 0
limited 1 1 15000.00 1418.85 1418.86 0
term 2 2 150000.00 0.00 0.00 0
total 4 4 174000.00 4075.07 4075.09 0
2021, inforce 2 2 24000.00 4075.07 4075.09 0
2022, inforce 1 1 50000.00 0.00 0.00 0
2023, inforce 1 1 100000.00 0.00 0.00 0
"""
# policy 13 matures (2656.22); policy 14 is reduced from 15000.00 to 10000.00, and so from 1418.85 to 945.90, and then grows older
MOVED = """\
policies by lower bounds by upper bounds
opening reserve 4 4075.07 4075.09
maturities 2 -2656.22 -2656.23
alterations 1 -472.95 -472.95
time gone by 1 2956.53 2956.53
closing reserve 6 3902.43 3902.44
premiums received 4905.50, settlements paid 69000.00
"""
MOVEMENT = ["movement", "2022-12-31", "11", "2024-06-30", "27"]


def test_by_plan_and_year_of_issue(small_office: Folder) -> None:
    has(small_office.printed(*AT, "--by", "plan", "--by", "issue-year,status"), PRINTED)


def test_as_csv(small_office: Folder) -> None:
    small_office.printed(*AT, "--by", "plan", "--csv", "report.csv")
    assert small_office.read("report.csv") == BY_PLAN


def test_as_a_page(small_office: Folder) -> None:
    small_office.printed(*AT, "--html", "page.html", "--title", "Sunrise <Life>, book 1")
    page = small_office.read("page.html")
    prefix = hashlib.sha256(small_office.journal.read_bytes()[:17 + 65 * 11]).hexdigest()
    for words in ("The rows add up to the printed total", "<b>174,000.00</b>",
                  "<td>endowment</td><td>1</td><td>1</td><td>9,000.00</td><td>2,656.22</td>",
                  "<title>Sunrise &lt;Life&gt;, book 1: Valuation on 2022-12-31 at position 11</title>",
                  f"<dt>journal</dt><dd>SHA-256 {prefix} up to position 11</dd>"):
        assert words in page, words
    assert re.search("<dt>made</dt><dd>20[0-9-]{8} [0-9]{2}:[0-9]{2} UTC</dd>", page)
    demand_offline(page)
    # the bars have one scale, by hand: 2656.23 of 4075.09 are 65.1 of a hundred
    assert page.count("width:100.0%") == 2 and "width:65.1%" in page


def test_what_moved(small_office: Folder) -> None:
    has(small_office.printed(*MOVEMENT, "--policies", "parts.csv"), MOVED)
    wanted = "13,maturities,2656.22,2656.23,-2656.22,-2656.23,0.00,0.00,0.00,0.00,0.00,0.00"
    assert wanted in small_office.read("parts.csv").splitlines()


def test_a_movement_as_a_page(small_office: Folder) -> None:
    small_office.printed(*MOVEMENT, "--html", "moved.html")
    page = small_office.read("moved.html")
    assert '<td class="text"><span>line</span>closing reserve</td><td><span>policies</span>6</td>' in page
    assert "3,902.44" in page


# --- workbooks ---


@WORKBOOKS
@pytest.mark.parametrize(("words", "lines"), [
    ([*AT, "--title", "=1+1"], "=1+1: Valuation on 2022-12-31 at position 11\ntotal 4 4 174,000.00 4,075.07 4,075.09 0\n"
     "limited 1 1 15,000.00 1,418.85 1,418.86 0"),
    (MOVEMENT, "closing reserve 6 3,902.43 3,902.44\nmaturities 2 -2,656.22 -2,656.23"),
], ids=["report", "movement"])
def test_a_workbook_is_read(small_office: Folder, words: list[str], lines: str) -> None:
    small_office.printed(*words, "--xlsx", "made.xlsx")
    has(read_workbook(small_office, "made"), lines)


@WORKBOOKS
def test_a_workbook_of_the_greatest_amounts_is_read(examples_basis: Folder) -> None:
    folder = examples_basis
    folder.post("".join(f"1,issue,{n},2020-01-15,whole,40,0,100000000.00,100000000.00\n1,premium,{n},2020-01-15,100000000.00\n"
                        for n in range(1, 10)))
    folder.write("basis.csv", "1900-01-01,g.xml,0\n")
    folder.printed("report", "2050-01-15", "--by", "plan", "--xlsx", "great.xlsx")
    _, lower, upper, words = folder.life("value", "2050-01-15").out.splitlines()[-1].split(",")
    has(read_workbook(folder, "great"), f"total 9 9 900,000,000.00 {float(lower):,.2f} {float(upper):,.2f} {words}")


@pytest.mark.needs("python:openpyxl")
def test_a_number_of_a_workbook_is_one(small_office: Folder) -> None:
    """The cell has two decimal places, and the heads of the columns stay in view."""
    import openpyxl

    small_office.printed(*AT, "--xlsx", "book.xlsx")
    sheet = openpyxl.load_workbook(small_office.path / "book.xlsx").worksheets[1]
    cell = sheet["D7"]
    assert cell.value == 174000 and cell.number_format == "#,##0.00" and sheet.freeze_panes


# --- a change of basis, and rows worked out ---

POLICY = "1,issue,7001,2020-01-01,endowment,0,3,1000.00,400.00\n"


@pytest.fixture
def by_hand(table_q: Folder) -> Folder:
    """A book with the policy that is valued by hand from table Q."""
    table_q.post(POLICY + "1,premium,7001,2020-01-01,400.00\n")
    return table_q


def test_a_change_of_basis(by_hand: Folder) -> None:
    by_hand.write("other.csv", "1900-01-01,q.xml,500\n")
    moved = by_hand.printed("movement", "2021-01-01", "2", "2021-01-01", "2", "--basis", "basis.csv", "other.csv")
    _, lower, upper, _ = by_hand.life("value", "2021-01-01", "--basis", "other.csv").out.splitlines()[-1].split(",")
    has(moved, f"opening reserve 1 127.22 127.23\nclosing reserve 1 {lower} {upper}")


def test_a_row_worked_out(by_hand: Folder) -> None:
    has(by_hand.printed("why", "7001", "2021-01-01"), """\
(A) the level premium for what follows: (1 - 0.1) / (2.62 - 1) = 0.555555556
its limit, whole life at age 1 on 4 premiums: 1 / 2.7 = 0.37037037, which is less, so (A) is this
printed: 127.22,127.23: the same""")


@pytest.mark.parametrize(("words", "line"), [
    (["2021-01-01", "--mean"], "printed: 563.61,563.62: the same"),
    (["2021-01-01", "--deficiency"], "printed: 127.22,127.23,280.00,280.00: the same"),
    (["2019-12-31"], "reserve on 2019-12-31: 0.00, since it is issued after 2019-12-31"),
    (["2021-01-01", "--basis", "late.csv"], "printed: nobasis: the same"),
])
def test_a_row_by_another_measure_day_or_basis(by_hand: Folder, words: list[str], line: str) -> None:
    by_hand.write("late.csv", "2020-01-02,q.xml,0\n")
    has(by_hand.printed("why", "7001", *words), line)


# --- drawn books ---

AMOUNTS = ("lower bound", "upper bound", "minimum, lower", "minimum, upper")


def test_groups_add_up_to_the_printed_total_by_sqlite(folder: Folder) -> None:
    """The book has all plans, statuses and words."""
    lay_drawn_book(folder, 7, 300, 6)
    folder.printed("report", "2017-06-30", "--by", "plan,status", "--by", "basis-row", "--by", "age-band", "--deficiency",
                   "--csv", "report.csv")
    lines = folder.life("value", "2017-06-30", "--deficiency").out.splitlines()
    total = [*map(cents, lines[-1].split(",")[1:]), len(lines) - 2]
    with sqlite3.connect(":memory:") as database:
        database.execute("create table part (name text, policies int, a int, b int, c int, d int, words int)")
        rows = list(csv.DictReader(folder.read("report.csv").splitlines()))
        database.executemany("insert into part values (?, ?, ?, ?, ?, ?, ?)", [
            (row["by"], int(row["policies"]), *(cents(row[name]) for name in AMOUNTS), int(row["words"])) for row in rows])
        sums = list(database.execute("select sum(a), sum(b), sum(c), sum(d), sum(words), sum(policies) from part group by name"))
    assert len(sums) == 4 and all(list(each) == total for each in sums)


FIRST, LAST = datetime.date(2000, 1, 1), datetime.date(2030, 12, 31)
PAIRS, BLOCKS = 50, 5
MEASURES: list[list[str]] = [[], ["--mean"], ["--deficiency"]]


def analysed(text: str) -> dict[str, list[str]]:
    """Returns the lines of a movement by their names: policies, lower bound, upper bound."""
    return {line[:17].strip(): line[17:].split() for line in text.splitlines()[2:14]}


@pytest.mark.parametrize("block", range(BLOCKS))
def test_movements_of_drawn_pairs_add_up(folder: Folder, block: int) -> None:
    """The opening and closing reserves are those that the program prints, and the lines add up to the closing reserve."""
    lay_drawn_book(folder, 7, 20, 6)
    draw, count = Random(block), folder.count()
    for _ in range(PAIRS // BLOCKS):
        first, last = sorted(draw.randrange(count + 1) for _ in range(2))
        on1, on2 = sorted(FIRST + datetime.timedelta(draw.randrange((LAST - FIRST).days)) for _ in range(2))
        measure = draw.choice(MEASURES)
        lines = analysed(folder.printed("movement", str(on1), str(first), str(on2), str(last), *measure))
        for name, on, at in (("opening reserve", on1, first), ("closing reserve", on2, last)):
            # the bounds of the minimum reserves stand after the others
            total = folder.life("value", str(on), "--at", str(at), *measure).out.splitlines()[-1].split(",")[-3:-1]
            assert lines[name][1:] == total, (name, on, at, measure)
        for bound in (1, 2):
            moved = sum(cents(fields[bound]) for name, fields in lines.items() if name != "closing reserve")
            assert moved == cents(lines["closing reserve"][bound]), (on1, first, on2, last, measure)


# --- wrong input ---


@pytest.mark.parametrize(("words", "says"), [
    ("report 2022-13-31 --csv written", "is no day"),
    ("report 2022-12-31 --at 28 --csv written", "28 is no position"),
    ("report 2022-12-31 --by colour --csv written", "colour is none of"),
    ("report 2022-12-31 --folder nowhere --csv written", "No such file"),
    ("movement 2022-12-31 x 2024-06-30 27 --policies written", "is no position"),
    ("movement 2022-12-31 11 2024-06-30 3 --policies written", "is before the opening one"),
    ("why 99 2022-12-31", "there is no policy 99"),
    ("why 14 2022-12-31 --basis none.csv", "badbasis,none.csv,0,absent"),
    ("report 2022-12-31 --folder cut --csv written", "record 1: it is cut short"),
    ("movement 2022-12-31 1 2024-06-30 1 --folder cut --policies written", "record 1: it is cut short"),
    ("why 14 2022-12-31 --folder zeros", "notajournal"),
])
def test_refused(small_office: Folder, words: str, says: str) -> None:
    for name, data in (("cut", small_office.journal.read_bytes()[:100]), ("zeros", bytes(64))):
        for file in ("basis.csv", "g.xml", "q.xml"):
            small_office.write(f"{name}/{file}", small_office.read(file))
        small_office.write(f"{name}/journal.life", data)
    small_office.refused(*words.split(), says=says)
