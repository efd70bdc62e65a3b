"""Tests `headroom` of one book and of a list: how many commands are left, how fast they are used, and how many the policies still
need.

The figures of a small book and of one with 19 commands left are worked out by hand. What drawn policies need is compared with a
list of single commands, which is made only with the calendar of `datetime`.
"""
import datetime
import json
import os
import shutil
from random import Random

import numpy as np
import pytest
from hypothesis import given

from life_tools.books.headroom import first_beyond, needed_by
from life_tools.journal.columns import columns_in
from life_tools.journal.file import file_of
from life_tools.rules.commands import Command
from tests.strategies import drawn
from tests.support.folders import EXAMPLES, Folder
from tests.support.full_journals import fill, write_nearly_full
from tests.support.program import Program

HEAD = "commands,left,in_last_year,full,premiums,at_end,full_without_issues\n"
# Policy 1 needs two of three premiums, and a maturity. Policy 2, an endowment of four years, needs all of its premiums (the first
# is overdue), a maturity and its settlement. Policy 3 is claimed and must be settled; 4 has lapsed. Three commands are dated in
# the year before 2024-06-01, and one is dated after it. Premiums: 2 for policy 1, 4 for 2, 2 each for 5 and 6. At the end: 1 for
# policy 1, 2 for 2, 1 for 3, 1 each for 5 and 6.
SCRIPT = """\
1,issue,1,2023-01-10,term,30,3,1000.00,10.00
1,premium,1,2023-01-10,10.00
1,issue,2,2024-02-29,endowment,30,4,1000.00,10.00
1,issue,3,2020-01-01,whole,30,0,1000.00,10.00
1,claim,3,2020-01-05
1,issue,4,2020-01-01,whole,30,0,1000.00,10.00
1,lapse,4,2023-08-01
1,issue,5,2024-05-31,term,30,2,1000.00,10.00
1,issue,6,2081-01-01,term,30,2,1000.00,10.00
"""
NEVER = "after 2199-12-31,10,6,never"


@pytest.fixture
def book(folder: Folder) -> Folder:
    assert folder.post(SCRIPT).count(",accepted,") == 9
    return folder


def gives(folder: Folder, row: str, *words: str, status: int = 0, told: int = 0) -> list[str]:
    """Asserts that `headroom` prints this row and this number of lines on standard error, and returns those lines."""
    ended = folder.tools("headroom", *words)
    assert (ended.status, ended.out, len(ended.err.splitlines())) == (status, f"{HEAD}{row}\n", told), ended
    return ended.err.splitlines()


def noted(folder: Folder, entry: str, day: str, before: int) -> None:
    folder.write(f"log/runs/{entry}/run.json", json.dumps({"begun": f"{day}T18:00:00+00:00", "before": before, "after": 9}))


def test_a_small_book_by_hand(book: Folder) -> None:
    gives(book, f"9,3999991,3,{NEVER}", "--today", "2024-06-01")
    gives(book, f"9,3999991,3,{NEVER}", "journal.life", "--today", "2024-06-01")
    gives(book, f"9,3999991,3,{NEVER}", "--today", "2024-06-01", "--least", "3999991")
    gives(book, f"9,3999991,3,{NEVER}", "--today", "2024-06-01", "--least", "3999992", status=1, told=1)


@pytest.mark.parametrize(("today", "used"), [("2024-05-30", 2), ("2024-05-31", 3), ("2024-07-30", 3), ("2024-07-31", 2)])
def test_the_last_year_has_365_days_and_ends_with_today(book: Folder, today: str, used: int) -> None:
    """The lapse of 2023-08-01 and the issue of 2024-05-31 are at the two ends of the year."""
    printed = book.tools("headroom", "--today", today).out.splitlines()[1]
    assert printed.split(",")[2] == str(used)


def test_two_hundred_years_later_nothing_was_used(book: Folder) -> None:
    """Policy 6 would be 30 years old in that year, and all policies are overdue."""
    gives(book, "9,3999991,0,never,10,6,never", "--today", "2199-06-01")


def test_a_count_that_was_noted_a_year_ago(book: Folder) -> None:
    """The newest recorded count that is a year old is used if it gives a higher number than the days of the commands."""
    (book.path / "log" / "runs" / "strange").mkdir(parents=True)
    noted(book, "000001", "2023-05-01", 2)
    noted(book, "000002", "2024-05-31", 7)
    gives(book, f"9,3999991,7,{NEVER}", "--today", "2024-06-01")
    book.write("month-end-2023-06-02.csv", "main,1\n")
    recorded = ["--recorded", "month-end-2023-06-02.csv", "--name"]
    gives(book, f"9,3999991,8,{NEVER}", "--today", "2024-06-01", *recorded, "main")
    gives(book, f"9,3999991,7,{NEVER}", "--today", "2024-06-01", *recorded, "other")


@pytest.mark.parametrize(("before", "used"), [(7, 3), (0, 9), (10, 3)], ids=["less", "more", "another book's"])
def test_a_count_that_was_noted_within_the_year(book: Folder, before: int, used: int) -> None:
    noted(book, "000002", "2024-05-31", before)
    gives(book, f"9,3999991,{used},{NEVER}", "--today", "2024-06-01")


@pytest.mark.parametrize(("words", "says"), [
    (["--today", "2024-02-30"], "2024-02-30 is no day"),
    (["--least", "-1"], "numbers up to 4000000 and 36525 are wanted"),
    (["--within", "x"], "numbers up to 4000000 and 36525 are wanted"),
    (["--recorded", "month-end.csv"], "month-end.csv has no day YYYY-MM-DD in its name"),
    (["nowhere.life"], "there is no nowhere.life"),
])
def test_refused(book: Folder, words: list[str], says: str) -> None:
    book.write("month-end.csv", "main,1\n")
    book.refused("headroom", *words, says=says)


# --- a book that is nearly full ---


@pytest.fixture(scope="module")
def full(tmp_path_factory: pytest.TempPathFactory, program: Program) -> Folder:
    """A book with 19 commands left, of which 401,000 were used in the last year."""
    folder = Folder(tmp_path_factory.mktemp("full"), program)
    write_nearly_full(folder.journal, 19, datetime.date(2026, 11, 29))
    return folder


def test_19_commands_left(full: Folder) -> None:
    told, = gives(full, "3999981,19,401000,2026-11-29,4159810,479981,2026-11-29", "--today", "2026-11-29", status=1, told=1)
    assert told.endswith("19 commands are left, 401000 were used in the last year, and it is full on 2026-11-29: "
                         "life-tools books split divides it")


def test_10000_commands_left(full: Folder, folder: Folder) -> None:
    """Nine days at this pace are left; the old policies need 64,000 commands at once."""
    shutil.copy(full.journal, folder.journal)
    os.truncate(folder.journal, 17 + 65 * 3990000)
    with open(folder.journal, "ab") as file:
        file.write(b"\x00")
    gives(folder, "3990000,10000,391019,2026-12-08,4060000,470000,2026-11-29", "--today", "2026-11-29", "--within", "0",
          status=1, told=1)


# --- lists ---


@pytest.fixture
def books(folder: Folder, full: Folder) -> Folder:
    """A list with a missing, a cut, a locked, a foreign, a full, a damaged and a good book."""
    for name in ("good", "held"):
        folder.below(name).post(SCRIPT)
    data = folder.below("good").journal.read_bytes()
    folder.write("cut/journal.life", data[:100])
    folder.write("foreign/journal.life", (EXAMPLES / "q.xml").read_bytes())
    folder.write("damaged/journal.life", data[:17 + 65 * 4] + b"\x00" + data[17 + 65 * 4 + 1:])
    (folder.path / "missing").mkdir()
    shutil.copy(full.journal, folder.below("full").journal)
    fill(folder.below("full").journal, datetime.date(2026, 11, 29))
    folder.write("books.csv", "".join(f"{name},{name},basis.csv\n" for name in
                                      ("missing", "cut", "held", "foreign", "full", "damaged", "good")))
    return folder


def test_a_list_with_bad_books(books: Folder) -> None:
    here = os.path.realpath(books.path)
    damaged = f"{here}/damaged/journal.life: 325 bytes follow byte 277, the commit byte of record 4, which isn't 1"
    with books.below("held").in_use():
        ended = books.tools("books", "headroom", "books.csv", "--today", "2026-11-29")
    assert ended.status == 2
    assert ended.out == f"""book,{HEAD}\
missing,failed,2,there is no {here}/missing/journal.life
cut,failed,5,badjournal,badrecord,1
held,9,3999991,0,never,10,6,never
foreign,failed,5,badjournal,notajournal
full,4000000,0,401019,2026-11-29,4160000,480000,2026-11-29
damaged,failed,1,{damaged}
good,9,3999991,0,never,10,6,never
"""
    assert ended.err == f"""missing: status 2: there is no {here}/missing/journal.life
cut: status 5: badjournal,badrecord,1
{here}/held/journal.life is in use by process {os.getpid()}, and may have more commands by now
foreign: status 5: badjournal,notajournal
full: 0 commands are left, 401019 were used in the last year, and it is full on 2026-11-29: life-tools books split divides it
damaged: status 1: {damaged}
"""


@pytest.mark.parametrize(("name", "status"), {"good": 0, "full": 1, "damaged": 1, "missing": 2, "cut": 5, "foreign": 5}.items())
def test_the_status_of_each_alone(books: Folder, name: str, status: int) -> None:
    books.write("one.csv", f"{name},{name},basis.csv\n")
    assert books.tools("books", "headroom", "one.csv", "--today", "2026-11-29").status == status


def test_noted_positions_of_a_list(books: Folder) -> None:
    books.write("month-end-2024-05-31.csv", "good,2\nheld,9\n")
    books.write("two.csv", "good,good,basis.csv\nheld,held,basis.csv\n")
    ended = books.tools("books", "headroom", "two.csv", "--today", "2024-06-01", "--least", "3999992",
                        "--recorded", "month-end-2024-05-31.csv")
    assert ended.status == 1 and len(ended.err.splitlines()) == 2
    rows = ended.out.splitlines()
    assert rows[1].startswith("good,9,3999991,7,") and rows[2].startswith("held,9,3999991,3,")


# --- what drawn policies need ---

EPOCH = datetime.date(1970, 1, 1)
TODAY = datetime.date(2024, 6, 1)


def years_later(day: datetime.date, years: int) -> datetime.date:
    year = day.year + years
    is_leap = year % 4 == 0 and (year % 100 != 0 or year % 400 == 0)
    return datetime.date(year, day.month, 28 if (day.month, day.day) == (2, 29) and not is_leap else day.day)


def drawn_policy(draw: Random, number: int) -> tuple[list[Command], list[datetime.date]]:
    plan, age = draw.choice(["term", "whole", "endowment", "limited"]), draw.randrange(0, 100)
    years = 0 if plan == "whole" else draw.randrange(2, 31)
    issued = draw.choice([datetime.date(2020, 2, 29), datetime.date(2015, 1, 1) + datetime.timedelta(draw.randrange(3600))])
    payments = 131 - age if plan == "whole" else years
    cover = years if plan in ("term", "endowment") else 131 - age
    paid = draw.randrange(0, min(payments, 4) + 1)
    commands = [Command("issue", number, issued, plan, age, years, 100000, 1000)]
    commands += [Command("premium", number, years_later(issued, each), amount=1000) for each in range(paid)]
    days = [years_later(issued, each) for each in range(paid, payments)]
    end = [years_later(issued, cover)] * (1 if plan == "term" else 2)
    last, due = commands[-1].on, years_later(issued, paid)
    what = draw.randrange(5)
    if what == 0 and paid < payments:
        return [*commands, Command("lapse", number, due + datetime.timedelta(40))], []
    if what == 1 and last < years_later(issued, cover):
        return [*commands, Command("claim", number, last)], [TODAY]
    if what == 2 and paid < payments:
        return [*commands, Command("paidup", number, last, amount=500)], end
    return commands, days + end


@given(drawn(lambda draw: [drawn_policy(draw, number) for number in range(1, draw.randrange(1, 20))]))
def test_what_drawn_policies_need(policies: list[tuple[list[Command], list[datetime.date]]]) -> None:
    today = (TODAY - EPOCH).days
    commands = [Command("upgrade"), *(command for some, _ in policies for command in some)]
    due = sorted(max(today, (day - EPOCH).days) for _, days in policies for day in days)
    found = needed_by(columns_in(file_of(commands), "drawn").policies, today)
    assert found.premiums + found.at_end == len(due)
    assert np.array_equal(np.repeat(np.arange(len(found.by_day)) + today, found.by_day), due)
    for left in {0, 1, len(due) // 2, max(len(due) - 1, 0), len(due)}:
        assert first_beyond(found.by_day, left, today) == (due[left] if left < len(due) else None)
