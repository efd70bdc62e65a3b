"""Tests `import`: a book of 5,000 drawn policies of another system is compared with what was drawn and with exact values; each
way of writing is worked out by hand; and rows and maps that can't be used are refused."""
import argparse
import csv
import io
import subprocess
import sys

import pytest

from life_tools.cli import import_book
from tests.support.folders import EXAMPLES, Folder

DRAWN = 5000
TO = ["--script", "new.csv", "--left", "left.csv"]
MAP = """\
separator,tab
number,no
day,from,MM/DD/YYYY
plan,kind
word,A,endowment
word,B,whole
age,age
years,term
amount,sum,"1,234.56"
premium,premium,cents
paid,paid
"""
HEAD = "from\tkind\tno\tage\tterm\tsum\tpremium\tpaid\tremark\n"
BOOK = HEAD + ('2/29/2020\tA\t0012\t40\t3\t1,000.00\t1234\t2\tof a 29 February\n'
               '01/05/2020\tB\t7\t30\t\t250,000\t99\t0\t"a\ttab"\n')
SCRIPT = """\
1,issue,7,2020-01-05,whole,30,0,250000.00,0.99
1,issue,12,2020-02-29,endowment,40,3,1000.00,12.34
1,premium,12,2020-02-29,12.34
1,premium,12,2021-02-28,12.34
"""
# a row, and why it can't be mapped, or nothing if it can
ROWS = [
    ("1/1/2020\tA\t1\t40\t3\t1,000.00\t1234\t2\t", ""),
    ("2/30/2020\tA\t2\t40\t3\t1,000.00\t1234\t2\t", "isn't in the calendar"),
    ("2020-01-01\tA\t3\t40\t3\t1,000.00\t1234\t2\t", "not as MM/DD/YYYY"),
    ("1/1/1899\tA\t4\t40\t3\t1,000.00\t1234\t2\t", "the day of issue is 1899-01-01"),
    ("1/1/2020\tC\t5\t40\t3\t1,000.00\t1234\t2\t", "no plan for C"),
    ("1/1/2020\tA\t1\t40\t3\t1,000.00\t1234\t2\t", "the number 1 stands in line 2 already"),
    ("1/1/2020\tA\t0\t40\t3\t1,000.00\t1234\t2\t", "the number is 0"),
    ("1/1/2020\tA\tx6\t40\t3\t1,000.00\t1234\t2\t", "the number is x6"),
    ("1/1/2020\tA\t7\t130\t3\t1,000.00\t1234\t2\t", "the age is 130"),
    ("1/1/2020\tA\t8\t40\t1\t1,000.00\t1234\t1\t", "can't have 1 years"),
    ("1/1/2020\tA\t9\t40\t3\t1000.00\t1234\t2\t", ""),
    ("1/1/2020\tA\t10\t40\t3\t1,00.00\t1234\t2\t", "the amount is 1,00.00"),
    ("1/1/2020\tA\t11\t40\t3\t100,000,000.01\t1234\t2\t", "and 0.01 to 100000000.00 can be"),
    ("1/1/2020\tA\t12\t40\t3\t1,000.00\t0\t2\t", "the premium is 0"),
    ("1/1/2020\tA\t13\t40\t3\t1,000.00\t1234\t4\t", "4 premiums are paid, and it has 3"),
    ("1/1/2020\tA\t14\t40\t3\t1,000.00\t1234", "more or fewer fields"),
    ("12/31/2199\tA\t15\t40\t3\t1,000.00\t1234\t2\t", "the last premium is of 2200-12-31"),
]


def import_into(folder: Folder, book: str, text: str, status: int, *words: str) -> str:
    """Imports a text by map.csv, asserts that `import` ends with this status, and returns the script."""
    folder.write(book, text)
    folder.printed("import", book, "--map", "map.csv", *TO, *words, status=status)
    return folder.read("new.csv")


def left(folder: Folder) -> list[list[str]]:
    return list(csv.reader(io.StringIO(folder.read("left.csv"))))[1:]


# --- a drawn book ---


@pytest.mark.slow
def test_a_drawn_book(folder: Folder) -> None:
    """Every 400th policy of 5,000 can't be mapped; the header row is line 1."""
    folder.take("g.xml")
    folder.write("basis.csv", "1900-01-01,g.xml,400\n")
    drawn = subprocess.run([sys.executable, str(EXAMPLES / "other_system.py"), str(DRAWN), "wanted-policies"], cwd=folder.path,
                           capture_output=True, text=True, check=True)
    folder.write("book.csv", drawn.stdout)
    ended = folder.finds("import", "book.csv", "--map", str(EXAMPLES / "other-system-map.csv"), *TO, "--lanes", "8",
                         says="^4988 policies, .* lines in new.csv; 12 rows in left.csv$")
    assert not ended.out and [row[0] for row in left(folder)] == [str(line) for line in range(401, 4802, 400)]
    script = folder.read("new.csv")
    days = [line.split(",")[3] for line in script.splitlines()]
    assert days == sorted(days)
    assert all(",accepted," in line for line in folder.post(script).splitlines() if not line.startswith("watcher,"))
    policies = [line for line in folder.life("state").out.splitlines() if line.startswith("policy,")]
    assert sorted(policies) == sorted(folder.read("wanted-policies").splitlines())
    folder.write("block", folder.life("value", "2024-12-31").out)
    assert "4988 rows are right" in folder.printed("check-values", "journal.life", "basis.csv", "block").splitlines()


# --- each way of writing, by hand ---


@pytest.fixture
def mapped(folder: Folder) -> Folder:
    folder.write("map.csv", MAP)
    folder.write("book.csv", BOOK)
    return folder


def test_each_way_of_writing(mapped: Folder) -> None:
    assert import_into(mapped, "book.csv", BOOK, 0) == SCRIPT
    assert mapped.read("left.csv") == "line,reason,row\n"


def test_a_script_that_is_too_large_is_made_in_parts(mapped: Folder, monkeypatch: pytest.MonkeyPatch) -> None:
    """The limit is 16 MiB; here it is 60 bytes."""
    monkeypatch.setattr(import_book, "MOST_SCRIPT_BYTES", 60)
    monkeypatch.chdir(mapped.path)
    parser = argparse.ArgumentParser()
    import_book.arguments(parser)
    import_book.run(parser.parse_args(["book.csv", "--map", "map.csv", *TO]))
    parts = sorted(mapped.path.glob("new*.csv"))
    assert [part.name for part in parts] == ["new-1.csv", "new-2.csv", "new-3.csv"]
    assert "".join(part.read_text(encoding="ascii") for part in parts) == SCRIPT


@pytest.mark.parametrize(("script", "parts", "last"), [("in/box.csv", 10, "in/box-10.csv"), ("in.d/box", 2, "in.d/box-2"),
                                                       ("box.csv", 1, "box.csv")])
def test_names_of_parts_are_in_order(script: str, parts: int, last: str) -> None:
    names = import_book.names_of(script, parts)
    assert names == sorted(names) and names[-1] == last and len(names) == parts


def test_a_name_with_a_form_feed_and_a_line_separator(mapped: Folder) -> None:
    assert import_into(mapped, "pasted.csv", BOOK.replace("of a", "\f\u2028"), 0) == SCRIPT


def test_rows_that_cant_be_mapped(mapped: Folder) -> None:
    script = import_into(mapped, "bad.csv", HEAD + "".join(f"{row}\n" for row, _ in ROWS), 1)
    assert {line.split(",")[2] for line in script.splitlines()} == {"1", "9"}
    reasons = [reason for _, reason in ROWS if reason]
    told = [row[1] for row in left(mapped)]
    assert len(told) == len(reasons) and all(reason in each for reason, each in zip(reasons, told)), told


# --- birthdays, days to which premiums are paid, statuses and classes, by hand ---

# A person born on 1980-07-02 is 183 days after the last birthday and 183 before the next one on 2020-01-01, and one day later the
# next birthday is nearer; policy 3 has a birth on 29 February. Policy 3 is lapsed: the last day for its premium of 2021-03-01 was
# 2021-04-01. Policy 4 was made paid up when its second premium was due.
STATUS_MAP = """\
number,no
day,from,YYYY-MM-DD
plan,kind
word,E,endowment
birth,born,YYYY-MM-DD
years,term
amount,sum,1234.56
premium,premium,1234.56
paid-to,to,YYYY-MM-DD
status,status
state,A,inforce
state,L,lapsed
state,P,paidup
state,C,left
reduced,now,1234.56
class,lives
"""
STATUS_BOOK = """\
no,from,kind,born,term,sum,premium,to,status,now,lives
1,2020-01-01,E,1980-07-02,10,1000.00,100.00,2021-01-01,A,,smoker
2,2020-01-02,E,1980-07-02,10,1000.00,100.00,2020-01-02,A,,"non, smoker"
3,2020-03-01,E,1980-02-29,10,1000.00,100.00,2021-03-01,L,,smoker
4,2020-02-29,E,1990-01-01,10,1000.00,100.00,2021-02-28,P,250.00,smoker
5,2020-01-01,E,1980-01-01,10,1000.00,100.00,2021-01-01,C,,smoker
6,2020-01-01,E,1980-01-01,10,1000.00,100.00,2021-01-02,A,,smoker
7,2020-01-01,E,1980-01-01,10,1000.00,100.00,2031-01-01,A,,smoker
8,2020-01-01,E,1980-01-01,10,1000.00,100.00,2030-01-01,L,,smoker
9,2020-01-01,E,1980-01-01,10,1000.00,100.00,2021-01-01,P,1000.00,smoker
10,2020-01-01,E,1980-01-01,10,1000.00,100.00,2021-01-01,X,,smoker
11,2020-01-01,E,1980-01-01,10,1000.00,100.00,2021-01-01,A,,
"""
STATUS_SCRIPT = """\
1,upgrade
1,issue,1,2020-01-01,endowment,39,10,1000.00,100.00
1,premium,1,2020-01-01,100.00
1,issue,2,2020-01-02,endowment,40,10,1000.00,100.00
1,issue,4,2020-02-29,endowment,30,10,1000.00,100.00
1,premium,4,2020-02-29,100.00
1,issue,3,2020-03-01,endowment,40,10,1000.00,100.00
1,premium,3,2020-03-01,100.00
1,paidup,4,2021-02-28,250.00
1,lapse,3,2021-04-02
"""
STATUS_LEFT = [
    ["6", "its status is C"],
    ["7", "premiums are paid to 2021-01-02, which is no anniversary of 2020-01-01"],
    ["8", "11 premiums are paid, and it has 10"],
    ["9", "it is L, and all its premiums are paid"],
    ["10", "the reduced amount is 1000.00, and not below 1000.00"],
    ["11", "the map has no state for X"],
    ["12", "the class is empty"],
]
CLASSES = ["--classes", "classes.csv"]


@pytest.fixture
def with_statuses(folder: Folder) -> Folder:
    folder.write("map.csv", STATUS_MAP)
    folder.write("book.csv", STATUS_BOOK)
    return folder


def test_by_the_nearest_birthday(with_statuses: Folder) -> None:
    assert import_into(with_statuses, "book.csv", STATUS_BOOK, 1, *CLASSES, "--age", "nearest") == STATUS_SCRIPT
    assert with_statuses.read("classes.csv") == '1,smoker\n2,"non, smoker"\n3,smoker\n4,smoker\n'
    assert [row[:2] for row in left(with_statuses)] == STATUS_LEFT
    assert "refused" not in with_statuses.post(STATUS_SCRIPT)


def test_by_the_last_birthday(with_statuses: Folder) -> None:
    script = import_into(with_statuses, "book.csv", STATUS_BOOK, 1, *CLASSES)
    assert "1,issue,2,2020-01-02,endowment,39,10,1000.00,100.00" in script.splitlines()


# --- wrong input ---


@pytest.mark.parametrize(("words", "says"), [
    (["nowhere.csv", "--map", "map.csv"], "No such file"),
    (["book.csv", "--map", "nowhere.csv"], "No such file"),
    ([".", "--map", "map.csv"], "Is a directory"),
    (["noise", "--map", "map.csv"], "is no CSV"),
    ([str(EXAMPLES / "first-issues.csv"), "--map", "map.csv"], "has no column no, from"),
    (["book.csv", "--map", "map.csv", "--lanes", "9"], "1 to 8 are wanted"),
])
def test_refused(mapped: Folder, words: list[str], says: str) -> None:
    mapped.write("noise", b"\x01LIFEJRNL\x00\x01\x00\x40\x00\x00\x00\x00\x00")
    mapped.refused("import", *words, *TO, says=says)


@pytest.mark.parametrize(("right", "old", "new", "words", "says"), [
    (MAP, "paid,paid\n", "", "", "names neither of paid and paid-to"),
    (MAP, 'amount,sum,"1,234.56"\n', "", "", "says nothing of amount"),
    (MAP, "age,age\n", "", "", "names neither of age and birth"),
    (MAP, "age,age\n", "age,age\nbirth,remark,DD.MM.YYYY\n", "", "names both of age and birth"),
    (MAP, "age,age", "ages,age", "", "map.csv, line 7: ages is none of"),
    (MAP, "MM/DD", "MM/MM", "", "line 3: a way of writing days"),
    (MAP, ",whole", ",annuity", "", "annuity is no plan"),
    (MAP, ",cents", ",12,34", "", "an amount is written as one of"),
    (STATUS_MAP, "number", "number", "", "--classes and a class in map.csv go together"),
    (STATUS_MAP, "state,A,inforce\nstate,L,lapsed\nstate,P,paidup\nstate,C,left\n", "", "--classes classes.csv",
     "status and its words, state, together"),
    (STATUS_MAP, "reduced,now,1234.56\n", "", "--classes classes.csv", "has no reduced amount"),
    (STATUS_MAP, "paid-to,to,YYYY-MM-DD\n", "paid-to,to,YYYY-MM-DD\npaid,term\n", "--classes classes.csv",
     "names both of paid and paid-to"),
    (STATUS_MAP, "birth,born,YYYY-MM-DD\n", "age,term\n", "--classes classes.csv --age nearest",
     "which says nothing of birthdays"),
])
def test_maps_that_are_refused(folder: Folder, right: str, old: str, new: str, words: str, says: str) -> None:
    assert old in right
    folder.write("map.csv", right.replace(old, new))
    folder.write("book.csv", BOOK if right == MAP else STATUS_BOOK)
    folder.refused("import", "book.csv", "--map", "map.csv", *TO, *words.split(), says=says)


def test_a_book_that_isnt_utf_8(mapped: Folder) -> None:
    mapped.write("latin.csv", BOOK.replace("kind", "gem\u00e4\u00df").encode("latin-1"))
    mapped.write("umlaut-map.csv", MAP.replace("kind", "gem\u00e4\u00df"))
    mapped.refused("import", "latin.csv", "--map", "umlaut-map.csv", *TO, says="isn't UTF-8, as this makes it: iconv")


def test_files_that_are_there_stay(mapped: Folder) -> None:
    mapped.write("new.csv", "kept")
    mapped.refused("import", "book.csv", "--map", "map.csv", *TO, says="new.csv is there already")
    mapped.refused("import", "book.csv", "--map", "map.csv", "--script", "other.csv", "--left", "nowhere/left.csv", says=".")
