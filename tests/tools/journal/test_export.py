"""Compares the tables of `export`, in SQLite and as frames for pandas, with what the program prints; the days of policies are
worked out by hand."""
import re
import sqlite3
from pathlib import Path
from typing import Any, Iterator

import pytest

from life_tools.journal.file import file_of
from tests.support.folders import Folder
from tests.support.lived_books import lived
from tests.support.shown import cents, money

TABLES = ("command", "booking", "policy", "valuation", "valued")
Tables = dict[str, list[dict[str, Any]]]
# policies of every plan: one awaits a premium from 29 February on; the others are paid in full, lapsed, claimed and paid up
POLICIES = """\
1,issue,801,2020-02-29,whole,40,0,1000.00,10.00
1,premium,801,2020-02-29,10.00
1,issue,802,2020-01-15,endowment,40,2,2000.00,20.00
1,premium,802,2020-01-15,20.00
1,premium,802,2021-01-15,20.00
1,issue,803,2020-03-10,term,40,10,3000.00,30.00
1,lapse,803,2020-06-01
1,issue,804,2020-03-10,limited,40,5,4000.00,40.00
1,premium,804,2020-03-10,40.00
1,claim,804,2020-12-24
1,issue,805,2020-03-10,limited,40,5,4000.00,40.00
1,upgrade
1,paidup,805,2020-03-12,400.00
"""
# by hand: the end of the insurance, the day up to which premiums are paid, the next premium's day, and the last day of its grace
DAYS = {
    "801": ("2111-02-28", "2021-02-28", "2021-02-28", "2021-03-31"),
    "802": ("2022-01-15", "2022-01-15", None, None),
    "803": ("2030-03-10", "2020-03-10", None, None),
    "804": ("2111-03-10", "2021-03-10", None, None),
    "805": ("2111-03-10", "2111-03-10", None, None),
}
VALUATIONS = (["2022-12-31"], ["2023-12-31", "--mean"], ["2024-03-12", "--deficiency"])


def tables_of_sqlite(path: Path) -> Tables:
    with sqlite3.connect(path) as database:
        database.row_factory = sqlite3.Row
        return {name: [dict(row) for row in database.execute(f"select * from {name}")] for name in TABLES}


def tables_of_pandas(folder: Path) -> Tables:
    import pandas  # type: ignore # Debian's package has no types

    def read(name: str) -> list[dict[str, Any]]:
        frame = pandas.read_pickle(folder / f"{name}.pkl").astype(object)
        return list(frame.where(frame.notnull(), None).to_dict("records"))
    return {name: read(name) for name in TABLES}


def row(*values: object) -> str:
    return ",".join("" if value is None else str(value) for value in values)


def state_lines(tables: Tables) -> Iterator[str]:
    """Yields the lines of `state` that the tables give."""
    for it in tables["policy"]:
        yield row("policy", it["policy"], it["status"], it["plan"], it["age"], it["years"], money(it["amount_cents"]),
                  money(it["premium_cents"]), it["issued"], it["premiums_paid"], money(it["outstanding_cents"]))
    for account in ("cash", "premiums", "incurred", "payable"):
        yield row("balance", account, money(sum(it["cents"] for it in tables["booking"] if it["account"] == account)))
    yield row("count", len(tables["command"]))


def entries(tables: Tables) -> Iterator[str]:
    for it in tables["command"]:
        amounts = [None if it[name] is None else money(it[name]) for name in ("amount_cents", "premium_cents")]
        held = [value for value in (it["plan"], it["age"], it["years"], *amounts) if value is not None]
        yield row(it["position"], it["kind"], it["policy"], it["day"], *held)


def valued_rows(tables: Tables) -> Iterator[str]:
    for it in tables["valued"]:
        amounts = [None if it[name] is None else money(it[name]) for name in
                   ("lower_cents", "upper_cents", "minimum_lower_cents", "minimum_upper_cents")]
        shown = [value for value in (*amounts[:2], it["word"], *amounts[2:], it["premium_is"]) if value is not None]
        yield row(it["day"], it["position"], it["measure"], "row", it["policy"], it["status"], it["year"], *shown)
        assert it["plan"] and it["issued"]


def printed_rows(text: str) -> Iterator[str]:
    """Yields the rows of printed valuations, each after its day, position and measure."""
    head = ""
    for line in text.splitlines():
        fields = line.split(",")
        if fields[1:2] == ["value"]:
            head = row(fields[2], fields[3], fields[5] if len(fields) > 5 else "terminal")
        elif fields[0] == "row":
            yield f"{head},{line}"


@pytest.fixture
def office(small_office: Folder) -> Folder:
    """The small office with five more policies, and three valuations of it in the file `printed`."""
    small_office.post(POLICIES)
    small_office.write("printed", "".join(small_office.life("value", *words).out for words in VALUATIONS))
    return small_office


def exported(office: Folder, kind: str) -> Tables:
    to = "book.db" if kind == "sqlite" else "frames"
    office.printed("export", kind, "journal.life", to, "--valuation", "printed")
    return tables_of_sqlite(office.path / to) if kind == "sqlite" else tables_of_pandas(office.path / to)


@pytest.mark.parametrize("kind", ["sqlite", pytest.param("pandas", marks=pytest.mark.needs("python:pandas"))])
def test_the_tables_hold_what_the_program_prints(office: Folder, kind: str) -> None:
    tables = exported(office, kind)
    assert sorted(state_lines(tables)) == sorted(office.life("state").out.splitlines())
    records = [line for line in office.printed("read", "journal.life").splitlines() if line[0].isdigit()]
    assert list(entries(tables)) == [line + ",," if line.endswith(",upgrade") else line for line in records]
    assert sorted(valued_rows(tables)) == sorted(printed_rows(office.read("printed")))
    days = {str(it["policy"]): (it["ends"], it["paid_to"], it["next_due"], it["grace_end"]) for it in tables["policy"]}
    assert {number: days[number] for number in DAYS} == DAYS


def test_sums_by_sqlite_are_the_printed_totals(office: Folder) -> None:
    exported(office, "sqlite")
    with sqlite3.connect(office.path / "book.db") as database:
        found = list(database.execute("select sum(lower_cents), sum(upper_cents) from valued group by measure order by day"))
    totals = [line.split(",") for line in office.read("printed").splitlines() if line.startswith("total,")]
    assert found == [(cents(total[1]), cents(total[2])) for total in totals]


def test_the_tables_of_a_drawn_book(folder: Folder) -> None:
    folder.write("journal.life", file_of(lived(3, 200)))
    folder.printed("export", "sqlite", "journal.life", "drawn.db")
    assert sorted(state_lines(tables_of_sqlite(folder.path / "drawn.db"))) == sorted(folder.life("state").out.splitlines())


@pytest.mark.parametrize(("words", "says"), {
    "sqlite journal.life basis.csv": "basis.csv is there already",
    "sqlite journal.life nowhere/book.db": "is no folder",
    "sqlite journal.life new --valuation nowhere": "No such file",
    "sqlite journal.life new --valuation transcript": "has no valuation in it",
    "sqlite journal.life new --valuation wrong-total": "the rows add up to",
    "sqlite journal.life new --valuation no-total": "its last valuation has no total",
    "sqlite journal.life new --valuation no-head": "no-head, line 2: .*it belongs to no valuation",
}.items())
def test_refused(office: Folder, words: str, says: str) -> None:
    lines = office.read("printed").splitlines(keepends=True)
    office.write("transcript", "1,trim,0\n")
    office.write("wrong-total", re.sub("^total,[^,]*,", "total,1.00,", "".join(lines), flags=re.M))
    office.write("no-total", "".join(lines[:3]))
    office.write("no-head", lines[0].rsplit(",", 2)[0] + "\n" + "".join(lines[1:]))
    office.refused("export", *words.split(), says=says)
