"""Tests `statement`: the sheets of a small book are worked out by hand; for drawn pairs of positions they are compared with
exact values; a statement by classes is what a book for each class has; a program
whose output doesn't add up is found; and the files are read as a person reads them."""
import datetime
import hashlib
import shlex
import shutil
from random import Random
from typing import Any

import pytest

from life_tools.journal.file import file_of, read_journal
from life_tools.reports.periods import Asked
from life_tools.reports.statement import of_books, statement_of
from life_tools.rules.commands import Command
from life_tools.tables.basis import read_basis
from life_tools.valuations.class_bases import bases_in, one_basis
from tests.support.folders import Folder
from tests.support.made_books import lay_drawn_book
from tests.support.shown import WORKBOOKS, cents, demand_offline, has, read_workbook
from tests.tools.reports import statement_sums as sums

# By hand, from table Q (0.1, 0.2, 0.25, 0.5, 1). Without interest, an endowment at age 0 for 3 years has beta 343/707.4 =
# 0.484874, a net premium of 0.214504 in its first year, and a reserve of 0.127226 at year 1 (docs/explanation/reserves.md). At 5
# percent its first net premium is 0.202174, and a paid-up term of 3 years is worth 0.413994 at issue and 0.371882 at year 1.
# Policy 7001 is paid ahead for 2022; 7002 is made paid up; 7003 lapses; 7004 dies in its second year; 7005 is on its last day of
# grace, and 7006 is past it.
BASIS = "1900-01-01,q.xml,0\n2020-02-01,q.xml,500\n"
SCRIPT = """\
1,upgrade
1,issue,7001,2020-01-01,endowment,0,3,1000.00,400.00
1,premium,7001,2020-01-01,400.00
1,issue,7002,2020-02-01,term,0,3,1000.00,200.00
1,premium,7002,2020-02-01,200.00
1,issue,7003,2020-03-01,term,0,3,500.00,50.00
1,lapse,7003,2020-04-02
1,paidup,7002,2020-12-01,300.00
1,premium,7001,2021-01-01,400.00
1,issue,7004,2020-01-15,endowment,0,3,2000.00,980.00
1,premium,7004,2020-01-15,980.00
1,claim,7004,2021-01-20
1,settle,7004,2021-02-01,500.00
1,issue,7005,2021-11-30,endowment,0,3,100.00,50.00
1,issue,7006,2021-06-01,endowment,0,3,100.00,50.00
1,premium,7001,2021-12-20,400.00
"""
BETWEEN = ["statement", "2019-12-31", "0", "2021-12-31", "16"]
# The cost of insurance is 0.1 * (3000.00 - 381.68) for the endowments and 0.1 * (300.00 - 111.56) for the paid-up term. The
# interest is 0.05 * 124.20. Policy 7004 releases 254.45. Policy 7001 has the minimum reserve 1000 - 400 * 1.8 = 280.00.
SHEETS = """\
issued 0 0.00 4 3200.00 2 1500.00 0 0.00 0 0.00 6 4700.00 6
decreased 0 0.00 0 0.00 0 -700.00 0 0.00 0 0.00 0 -700.00 0
made paid up 0 0.00 0 0.00 -1 -300.00 0 0.00 1 300.00 0 0.00 1
death 0 0.00 -1 -2000.00 0 0.00 0 0.00 0 0.00 -1 -2000.00 1
lapse 0 0.00 0 0.00 -1 -500.00 0 0.00 0 0.00 -1 -500.00 1
in force at the end 0 0.00 3 1200.00 0 0.00 0 0.00 1 300.00 4 1500.00
q.xml 0.00% CRVM terminal 1900-01-01 before 2020-02-01 1 1000.00 127.22 127.23 152.77
q.xml 5.00% paid up terminal 2020-02-01 1 300.00 111.56 111.57 0.00
total 4 1500.00 238.78 238.80 152.77
first-year premiums collected 3 3 1580.00
renewal premiums collected 2 2 800.00
uncollected in grace at the end 1 1 50.00 20.22
past grace and not lapsed at the end 1 1 50.00 20.22 0.00 0.00
paid in advance at the end 1 1 400.00 484.87
deferred: none, since all premiums are annual and due at the anniversary 0 0 0.00 0.00
premium income 2030.00
net premiums 643.51 643.51
interest 6.21 6.21
cost of insurance -280.68 -280.68
released by death 1 -254.45 -254.45
released by lapse 1 0.00 0.00
made paid up 1 124.20 124.20
rounding -0.01 0.01
reserve at the end 4 238.78 238.80
reported 1 2000.00 0 0.00 1 2000.00 1
settled 0 -500.00 0 0.00 0 -500.00 1
91 to 365 days 1 1500.00 0 0.00 1 1500.00
"""


@pytest.fixture
def book(folder: Folder) -> Folder:
    folder.take("q.xml")
    folder.write("basis.csv", BASIS)
    assert folder.post(SCRIPT).count(",accepted,") == 16
    return folder


def test_each_sheet_by_hand(book: Folder) -> None:
    has(book.printed(*BETWEEN), SHEETS)


def test_by_mean_reserves_policy_by_policy(book: Folder) -> None:
    """In the middle of 2021 and of its policy year, a mean reserve has all of the year's net premium and half of the interest
    and cost. Policy 7001 has 214.50 + 484.87, less 87.28 and less half of 0.2 * (1000 - 515.13) = 96.97."""
    book.printed(*BETWEEN, "--mean", "--policies", "parts")
    wanted = "7001,0.00,0.00,699.38,0.00,-135.76,0.00,0.00,0.00,0.00,0.00,0.00,0.00,563.61,563.62"
    assert wanted in book.read("parts/increase.csv").splitlines()
    wanted = "at the end,paid in advance,7001,2022-01-01,1,400.00,484.87,563.61,563.62"
    assert wanted in book.read("parts/premiums.csv").splitlines()
    assert "7004,claimed,2021-01-20,345,1500.00" in book.read("parts/claims.csv").splitlines()


# --- files ---


def test_as_csv(book: Folder) -> None:
    book.printed(*BETWEEN, "--csv", "sheets")
    assert "total,,,,,4,1500.00,238.78,238.80,152.77" in book.read("sheets/reserves.csv").splitlines()
    assert {path.name for path in (book.path / "sheets").iterdir()} == {
        f"{sheet}.csv" for sheet in ("exhibit", "reserves", "premiums", "increase", "claims", "facts")}
    prefix = hashlib.sha256(book.journal.read_bytes()[:17 + 65 * 16]).hexdigest()
    assert f"journal,SHA-256 {prefix} up to position 16" in book.read("sheets/facts.csv").splitlines()
    book.refused(*BETWEEN, "--csv", "sheets", says="sheets is there already")


def test_as_a_page(book: Folder) -> None:
    book.printed(*BETWEEN, "--html", "page.html", "--title", "=A & <B>")
    page = book.read("page.html")
    demand_offline(page)
    assert "<B>" not in page and "238.78" in page and "1,500.00" in page and "=A &amp; &lt;B&gt;" in page


@WORKBOOKS
def test_as_a_workbook(book: Folder) -> None:
    book.printed(*BETWEEN, "--xlsx", "book.xlsx", "--title", "=1+1")
    has(read_workbook(book, "book"), "total 4 1,500.00 238.78 238.80 152.77\nreserve at the end 4 238.78 238.80\n"
        "premium income 2,030.00\nbook =1+1")


# --- a program whose output doesn't add up ---

# a row, a sum, a policy or a balance is changed, in the same way in rows and totals
FORGERIES = {
    "a row and its total": ("s/^row,7001,inforce,1,127.22,127.23/row,7001,inforce,1,128.22,128.23/;"
                            "s/^total,238.78,238.80/total,239.78,239.80/", "printed row of policy 7001 doesn't hold"),
    "an amount": (r"s/^\(policy,7002,paidup,.*\),300.00/\1,301.00/", "policy 7002 isn't printed"),
    "what is payable": ("s/^balance,payable,-1500.00/balance,payable,-1600.00/", "claims: 1500.00 is outstanding"),
    "premiums": ("s/^balance,premiums,-2380.00/balance,premiums,-2381.00/", "premiums: 2380.00 were collected"),
    "what was incurred": ("s/^balance,incurred,2000.00/balance,incurred,2001.00/", "the account incurred"),
}


@pytest.mark.parametrize("name", FORGERIES)
def test_a_forged_print(book: Folder, name: str) -> None:
    forgery, says = FORGERIES[name]
    book.stand_in(f'"$life" "$@" | sed -e {shlex.quote(forgery)}')
    book.refused(*BETWEEN, "--csv", "written", "--life", "./stand-in", says=says, status=1)


# --- wrong input ---


@pytest.mark.parametrize(("words", "says"), [
    ("2022-01-01 0 2021-12-31 16 --csv written", "is before the opening one"),
    ("2019-12-31 16 2021-12-31 3 --csv written", "is before the opening one"),
    ("2019-12-32 0 2021-12-31 16 --csv written", "is no day"),
    ("2019-12-31 0 2021-12-31 17 --csv written", "17 is no position"),
    ("2019-12-31 0 2021-12-31 16 --basis none.csv --csv written", "badbasis,none.csv,0,absent"),
    ("2019-12-31 0 2021-12-31 16 --csv nowhere/written", "No such file"),
    ("2019-12-31 0 2021-12-31 16 --csv written --policies parts", "parts is there already"),
    ("2019-12-31 0 2021-12-31 16 --csv written --policies ./written", "are one folder"),
])
def test_refused(book: Folder, words: str, says: str) -> None:
    book.below("parts")
    book.refused("statement", *words.split(), says=says)


# --- classes, by hand: 7005 and 7006 have late.csv, which has no row for them; the others have basis.csv ---

CLASSES = ["--classes", "classes.csv", "--bases", "bases.csv"]


@pytest.fixture
def classes(book: Folder) -> Folder:
    book.write("classes.csv", "7001-7004,first\n7005-7006,second\n")
    book.write("bases.csv", "first,basis.csv\nsecond,late.csv\n")
    book.write("late.csv", "2021-12-11,q.xml,0\n")
    return book


def test_a_valuation_by_classes(classes: Folder) -> None:
    assert classes.printed("value", "2021-12-31", *CLASSES) == """\
0,value,2021-12-31,16,6
row,7001,inforce,1,127.22,127.23
row,7002,paidup,1,111.56,111.57
row,7003,lapsed,0,0.00,0.00
row,7004,claimed,0,0.00,0.00
row,7005,inforce,0,nobasis
row,7006,inforce,0,nobasis
total,238.78,238.80,2
"""


def test_reports_by_classes(classes: Folder) -> None:
    has(classes.printed("report", "2021-12-31", *CLASSES, "--by", "basis-row"), """\
basis.csv 1900-01-01 q.xml 0 bp 2 1 1000.00 127.22 127.23 0
basis.csv 2020-02-01 q.xml 500 bp 2 1 300.00 111.56 111.57 0
none 2 2 200.00 0.00 0.00 2
total 6 4 1500.00 238.78 238.80 2""")
    has(classes.printed(*BETWEEN, *CLASSES), "late.csv not valued: issued before the basis 2 200.00")
    has(classes.printed("movement", *BETWEEN[1:], *CLASSES, "--deficiency"), "closing reserve 6 391.56 391.57")


@pytest.mark.parametrize("words", ["value 2021-12-31", "report 2021-12-31", " ".join([*BETWEEN, "--csv", "written"]),
                                   " ".join(["movement", *BETWEEN[1:], "--policies", "written"])])
def test_a_policy_in_no_class(classes: Folder, words: str) -> None:
    classes.write("classes.csv", "7001-7004,first\n7005,second\n")
    classes.refused(*words.split(), *CLASSES, says="policy 7006 is in no class")


@pytest.mark.parametrize(("text", "bases", "says"), [
    ("7001-7004,first\n7004-7006,second\n", "bases.csv", "line 2: policy 7004 has a class in line 1"),
    ("7001-7000,first\n", "bases.csv", "line 1: 7001-7000 is no number"),
    ("7001-7006,third\n", "bases.csv", "no basis of the class third"),
    ("7001-7006,third\n", "wrong.csv", "is no name of a basis file"),
])
def test_classes_that_are_refused(classes: Folder, text: str, bases: str, says: str) -> None:
    classes.write("bad.csv", text)
    classes.write("wrong.csv", "third,../basis.csv\n")
    classes.refused("value", "2021-12-31", "--classes", "bad.csv", "--bases", bases, says=says)


@pytest.mark.parametrize(("words", "says"), [(["--classes", "classes.csv"], "go together"),
                                             ([*CLASSES, "--basis", "basis.csv"], "and not --basis")])
def test_options_that_dont_go_together(classes: Folder, words: list[str], says: str) -> None:
    classes.refused("value", "2021-12-31", *words, says=says)


# --- drawn pairs of positions and days, compared with other sums ---

FIRST, LAST = datetime.date(2000, 1, 1), datetime.date(2026, 12, 31)
PAIRS, EXACT, BLOCKS = 20, 3, 5


@pytest.fixture
def drawn(folder: Folder, monkeypatch: pytest.MonkeyPatch) -> tuple[Folder, list[Command]]:
    """A small book with every kind of posting, in the current folder."""
    lay_drawn_book(folder, 7, 20, 6)
    monkeypatch.chdir(folder.path)
    return folder, read_journal(folder.journal.read_bytes()).commands


@pytest.mark.parametrize("block", range(BLOCKS))
def test_drawn_pairs(drawn: tuple[Folder, list[Command]], block: int) -> None:
    folder, commands = drawn
    draw = Random(f"statement {block}")
    past, basis, known = sums.histories(commands), read_basis("./basis.csv"), dict[Any, Any]()
    for pair in range(PAIRS):
        first, last = sorted(draw.randrange(len(commands) + 1) for _ in range(2))
        on1, on2 = sorted(FIRST + datetime.timedelta(draw.randrange((LAST - FIRST).days)) for _ in range(2))
        measure = "terminal" if pair < EXACT else draw.choice(["terminal", "mean"])
        asked = Asked(".", on1, first, on2, last, one_basis("basis.csv"), measure, str(folder.program.path))
        sheets = {sheet.name: sheet for sheet in statement_of(asked).sheets}
        sums.judge_reserves(folder, sheets, asked)
        if pair < EXACT:
            sums.judge_exactly(sheets, asked, past, basis, known)
            sums.judge_premiums(folder, sheets, asked, commands, past, basis, known)


# --- a book by classes, compared with a book for each class ---

APART = {"north": "basis.csv", "south": "other.csv", "east": "basis.csv"}
ON1, ON2 = datetime.date(2013, 12, 31), datetime.date(2017, 6, 30)
OF = dict[int, str]


@pytest.fixture
def apart(folder: Folder, monkeypatch: pytest.MonkeyPatch) -> tuple[Folder, list[Command], OF]:
    """A drawn book whose policies have classes, a folder with the book of each class, and the class of each policy."""
    lay_drawn_book(folder, 7, 300, 6)
    folder.write("other.csv", "1990-01-01,g.xml,300\n2011-01-01,select.xml,100\n")
    commands, draw = read_journal(folder.journal.read_bytes()).commands, Random(4)
    of, name = OF(), "north"
    for number in sorted({it.number for it in commands if it.number}):
        name = draw.choice(list(APART)) if draw.random() < 0.5 else name
        of[number] = name
    folder.write("classes.csv", "".join(f"{number},{name}\n" for number, name in of.items()))
    folder.write("bases.csv", "".join(f"{name},{basis}\n" for name, basis in APART.items()))
    for name in APART:
        part = folder.below(name)
        part.write("journal.life", file_of(it for it in commands if not it.number or of[it.number] == name))
        for file in [*folder.path.glob("*.xml"), folder.path / "basis.csv", folder.path / "other.csv"]:
            shutil.copy(file, part.path)
    monkeypatch.chdir(folder.path)
    return folder, commands, of


@pytest.mark.parametrize("measure", [[], ["--mean"], ["--deficiency"]], ids=["terminal", "mean", "deficiency"])
def test_a_valuation_by_classes_has_the_rows_of_the_books_apart(apart: tuple[Folder, list[Command], OF],
                                                                measure: list[str]) -> None:
    folder, _, of = apart
    whole = folder.printed("value", str(ON2), *measure, *CLASSES).splitlines()
    rows = {int(line.split(",")[1]): line for name, basis in APART.items()
            for line in folder.printed("value", str(ON2), *measure, "--basis", basis, "--folder", name).splitlines()[1:-1]}
    found = [line for line in whole if line.startswith("row,")]
    assert len(found) == len(of) and all(rows[int(line.split(",")[1])] == line for line in found)
    for place in range(2):
        total = sum(cents(line.split(",")[4 + place]) for line in found if len(line.split(",")) > 5)
        assert cents(whole[-1].split(",")[1 + place]) == total


@pytest.mark.parametrize("measure", ["terminal", "mean"])
def test_a_statement_by_classes_is_that_of_the_books_apart(apart: tuple[Folder, list[Command], OF], measure: str) -> None:
    folder, commands, of = apart
    first, last, life = len(commands) // 3, len(commands), str(folder.program.path)

    def count(name: str, position: int) -> int:
        return sum(not it.number or of[it.number] == name for it in commands[:position])

    whole = statement_of(Asked(".", ON1, first, ON2, last, bases_in(None, "classes.csv", "bases.csv"), measure, life))
    parts = [statement_of(Asked(name, ON1, count(name, first), ON2, count(name, last), one_basis(basis), measure, life))
             for name, basis in APART.items()]
    for one, other in zip(whole.sheets, of_books(list(APART), parts).sheets):
        # each line of the increase is rounded
        slack = 2 * len(one.rows) if one.name == "increase" else 0
        keys = 5 if one.name == "reserves" else 1
        rows, others = ({row.cells[:keys]: row.cells for row in sheet.rows} for sheet in (one, other))
        assert rows.keys() == others.keys()
        for key, cells in rows.items():
            assert all(a == b or isinstance(a, int) and isinstance(b, int) and abs(a - b) <= slack
                       for a, b in zip(cells, others[key])), (one.name, cells, others[key])
