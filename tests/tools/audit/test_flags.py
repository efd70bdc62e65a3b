"""Tests `audit flags`: one flag of each kind worked out by hand, and those of a drawn book compared with SQLite queries over
what `export` wrote."""
import csv
import io
import sqlite3

import pytest

from life_tools.journal.file import file_of
from tests.support.folders import Folder
from tests.support.lived_books import lived

# Policy 1 is claimed five months after its reinstatement; 2 is claimed on the day of its premium, and paid at once in two parts;
# 3 is reinstated on the third anniversary after the one of its unpaid premium; 4 matures 91 days late, 5 matures 90 days late.
SCRIPT = """\
1,issue,1,2020-03-15,whole,41,0,1000.00,10.00
1,issue,2,2020-03-15,whole,41,0,1000.00,10.00
1,issue,3,2020-03-15,whole,41,0,1000.00,10.00
1,issue,4,2020-03-15,endowment,41,2,1000.00,10.00
1,issue,5,2020-03-15,term,41,2,1000.00,10.00
1,lapse,1,2020-04-16
1,reinstate,1,2020-05-01,10.00
1,claim,1,2020-10-01
1,settle,1,2020-10-02,1000.00
1,premium,2,2020-03-20,10.00
1,claim,2,2020-03-20
1,settle,2,2020-03-20,400.00
1,settle,2,2020-03-20,600.00
1,lapse,3,2020-04-16
1,reinstate,3,2023-03-15,40.00
1,premium,4,2020-03-15,10.00
1,premium,4,2021-03-15,10.00
1,premium,5,2020-03-15,10.00
1,premium,5,2021-03-15,10.00
1,mature,4,2022-06-14
1,mature,5,2022-06-13
"""
FLAGS = """\
flag,position,policy,kind,day,amount,since,why
soon-after-reinstatement,8,1,claim,2020-10-01,1000.00,2020-05-01,reinstated within a year before
on-last-day,11,2,claim,2020-03-20,1000.00,2020-03-20,of the day of the posting before it
paid-at-once,13,2,settle,2020-03-20,600.00,2020-03-20,"paid whole on the day of the claim, with this settlement"
last-day-of-right,15,3,reinstate,2023-03-15,40.00,2023-03-15,on the last day of the right to it
late-maturity,20,4,mature,2022-06-14,1000.00,2022-03-15,91 days after the end
"""
COUNTS = "soon-after-reinstatement: 1; on-last-day: 1; paid-at-once: 1; last-day-of-right: 1; late-maturity: 1"

YEAR_LATER = """case when substr({day}, 6) = '02-29' then (substr({day}, 1, 4) + 1) || '-02-28'
                else (substr({day}, 1, 4) + 1) || substr({day}, 5) end"""
# SQLite isn't asked for the last day of a reinstatement
BY_SQL = {
    "soon-after-reinstatement": f"""
        select c.position from command c where c.kind = 'claim' and exists (
            select 1 from command r where r.kind = 'reinstate' and r.policy = c.policy and r.position < c.position
            and c.day <= {YEAR_LATER.format(day='r.day')})""",
    "on-last-day": """
        select c.position from command c where c.kind = 'claim' and c.day = (
            select b.day from command b where b.policy = c.policy and b.position < c.position
            order by b.position desc limit 1)""",
    "paid-at-once": """
        select s.position from command s join command c on c.policy = s.policy and c.kind = 'claim' and c.day = s.day
        where s.kind = 'settle' and (
            select sum(o.amount_cents) from command o where o.policy = s.policy and o.kind = 'settle' and o.position <= s.position
        ) = (select b.cents from booking b where b.position = c.position and b.account = 'incurred')""",
    "late-maturity": """
        select m.position from command m join command i on i.policy = m.policy and i.kind = 'issue'
        where m.kind = 'mature' and julianday(m.day) - julianday(
            case when substr(i.day, 6) = '02-29' and (substr(i.day, 1, 4) + i.cover) % 4 != 0
            then (substr(i.day, 1, 4) + i.cover) || '-02-28' else (substr(i.day, 1, 4) + i.cover) || substr(i.day, 5) end) > 5""",
}


@pytest.fixture
def book(folder: Folder) -> Folder:
    assert folder.post(SCRIPT).count(",accepted,") == 21
    return folder


def test_one_of_each(book: Folder) -> None:
    assert book.finds("audit", "flags", says=f"^{COUNTS}$").out == FLAGS


def test_after_a_position_and_by_another_delay(book: Folder) -> None:
    ended = book.finds("audit", "flags", "--after", "13", "--late", "89", says="last-day-of-right: 1; late-maturity: 2")
    assert ended.out.splitlines()[-1] == "late-maturity,21,5,mature,2022-06-13,0.00,2022-03-15,90 days after the end"


def test_up_to_a_position_without_any(book: Folder) -> None:
    assert book.printed("audit", "flags", "--at", "7") == FLAGS.splitlines(keepends=True)[0]


@pytest.mark.parametrize(("words", "says"), [(["--at", "22"], "has 21 commands"), (["--after", "x"], "x is no position"),
                                             (["--late", "-1"], "0 to 36500 days")])
def test_refused(book: Folder, words: list[str], says: str) -> None:
    book.refused("audit", "flags", *words, says=says)


def test_a_drawn_book_beside_sqlite(folder: Folder) -> None:
    folder.write("journal.life", file_of(lived(3, 3000)))
    rows = list(csv.DictReader(io.StringIO(folder.finds("audit", "flags", "--late", "5", says="late-maturity: ").out)))
    folder.printed("export", "sqlite", "journal.life", "book.db")
    with sqlite3.connect(folder.path / "book.db") as database:
        database.execute("alter table command add column cover int")
        database.execute("update command set cover = case when plan in ('term', 'endowment') then years else 131 - age end")
        for flag, query in BY_SQL.items():
            wanted = sorted(position for position, in database.execute(query))
            assert [int(row["position"]) for row in rows if row["flag"] == flag] == wanted != [], flag
