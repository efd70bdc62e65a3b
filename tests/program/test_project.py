"""Tests projections: years worked out by hand, by tables of either kind; policies for which no payment is expected; arguments
and files that are refused; drawn books, for which every year is computed again without the program; and the same output for
each number of workers."""
import fcntl
import itertools
import subprocess

import pytest

from tests.support.big_journals import write as write_big
from tests.program.office import EMPTY, FOREIGN, POLICY, checks, example, prints
from tests.support.folders import Folder
from tests.support.made_books import grid_of_all_ages, lay_drawn_book, select_table

NO_CASH = "0.00,0.00,0.00,0.00,0.00,0.00"
THREE_YEARS = ["400.00,400.00,100.00,100.00,0.00,0.00", "360.00,360.00,180.00,180.00,0.00,0.00",
               "288.00,288.00,180.00,180.00,540.00,540.00"]


def years(head: str, *cash: str, unvalued: int = 0) -> str:
    rows = "".join(f"year,{number},{one}\n" for number, one in enumerate(cash))
    return f"project,{head},{len(cash)}\n{rows}unvalued,{unvalued}\n"


@pytest.fixture
def one_policy(table_q: Folder) -> Folder:
    table_q.post(POLICY)
    return table_q


def projected(folder: Folder, words: str) -> str:
    """Returns a projection, after its years were checked without the program."""
    status, text = prints(folder, "project", *words.split())
    assert status == 0, words
    folder.write("projected", text)
    checks(folder, "check-projection", "journal.life", "basis.csv", "projected")
    return text


@pytest.mark.parametrize("words, wanted", [
    ("2020-12-31 3", years("2020-12-31,1,1", *THREE_YEARS)),
    ("--workers=64 2020-01-01 --basis basis.csv 1", years("2020-01-01,1,1", THREE_YEARS[0])),
    # the second policy year is the current one; after the last year nothing is paid
    ("2021-01-01 3", years("2021-01-01,1,1", "400.00,400.00,200.00,200.00,0.00,0.00", "320.00,320.00,200.00,200.00,600.00,600.00",
                           NO_CASH)),
])
def test_a_policy_by_hand(words: str, wanted: str, one_policy: Folder) -> None:
    before = one_policy.journal.read_bytes()
    assert prints(one_policy, "project", *words.split()) == (0, wanted)
    assert one_policy.journal.read_bytes() == before


def test_the_most_years(one_policy: Folder) -> None:
    lines = projected(one_policy, "2020-12-31 131").splitlines()
    assert len(lines) == 133 and sum(line.endswith(NO_CASH) for line in lines) == 128


def test_an_output_that_is_full(one_policy: Folder) -> None:
    words = [*one_policy.program.words, "project", "2020-12-31", "3"]
    with open("/dev/full", "wb") as full:
        assert subprocess.run(words, cwd=one_policy.path, stdout=full, check=False).returncode == 7


def test_a_journal_that_another_run_has(one_policy: Folder) -> None:
    with open(one_policy.journal, "rb") as held:
        fcntl.flock(held, fcntl.LOCK_EX)
        assert prints(one_policy, "project", "2020-12-31", "3") == (8, "diskfault\n")


def test_a_paid_premium_and_then_a_lapse(one_policy: Folder) -> None:
    one_policy.post("1,premium,7001,2020-01-01,400.00\n")
    wanted = years("2020-12-31,2,1", "0.00,0.00,100.00,100.00,0.00,0.00")
    assert prints(one_policy, "project", "2020-12-31", "1") == (0, wanted)
    one_policy.post("1,lapse,7001,2021-02-02\n")
    assert prints(one_policy, "project", "2021-01-01", "1") == (0, years("2021-01-01,3,1", NO_CASH))


def test_words_in_place_of_a_value(one_policy: Folder) -> None:
    one_policy.journal.unlink()
    one_policy.post("1,issue,9,2020-01-01,whole,4,0,1000.00,400.00\n")
    wanted = (0, years("2021-01-01,1,1", NO_CASH, unvalued=1))
    assert prints(one_policy, "project", "2021-01-01", "1") == wanted
    one_policy.write("basis.csv", "")
    assert prints(one_policy, "project", "2021-01-01", "1") == wanted


def test_an_empty_book(table_q: Folder) -> None:
    assert prints(table_q, "project", "2021-01-01", "1") == (0, years("2021-01-01,0,0", NO_CASH))
    assert table_q.journal.read_bytes() == EMPTY


@pytest.mark.parametrize("layout", ["select", "select-inner", "select-outer"])
def test_select_tables_by_hand(layout: str, folder: Folder) -> None:
    """The figures follow from the rates of the issue age, 0.05 and 0.1, and then the ultimate rate of age 2, 0.25."""
    folder.write("s.xml", example(f"{layout}.xml"))
    folder.write("basis.csv", "1900-01-01,s.xml,325\n")
    folder.post(POLICY)
    wanted = years("2020-12-31,1,1", "400.00,400.00,50.00,50.00,0.00,0.00", "380.00,380.00,95.00,95.00,0.00,0.00",
                   "342.00,342.00,213.75,213.75,641.25,641.25")
    assert prints(folder, "project", "2020-12-31", "3") == (0, wanted)


@pytest.mark.parametrize("words", [
    "project", "project 2021-01-01", "project 2021-01-01 0", "project 2021-01-01 132", "project 2021-01-01 007",
    "project 2021-01-01 -1", "project 2021-01-01 +1", "project 2021-01-01 1.0", "project 2021-01-01 1 1", "project 1 2021-01-01",
    "project 2021-02-29 1", "project 1899-12-31 1", "project 2200-01-01 1", "project 2021-01-01 1 --workers 0",
    "project 2021-01-01 1 --workers 65", "project 2021-01-01 1 --at 0", "project 2021-01-01 1 --mean",
    "project 2021-01-01 1 --basis ../basis.csv", "project 2021-01-01 --years 1", "projection 2021-01-01 1",
    "Project 2021-01-01 1",
    "project 2021-01-01 18446744073709551617", "--workers 2 project 2021-01-01 1"])
def test_arguments_that_are_no_projections(words: str, table_q: Folder) -> None:
    assert prints(table_q, *words.split()) == (2, "usage\n")
    assert not table_q.journal.exists()


CUT = '<XTbML><Table><Values><Axis><Y t="0">0.1</Y><Y t="1">0.'


@pytest.mark.parametrize("table, words, wanted", [
    ("", "", (4, "badbasis,q.xml,1,absent\n")), ("", "--basis other.csv", (4, "badbasis,other.csv,0,absent\n")),
    (CUT, "", (4, "badbasis,q.xml,55,notdocument\n")), (None, "", (6, "readfault\n"))],
    ids=["no table", "no basis", "a cut table", "a folder"])
def test_bad_bases(table: str | None, words: str, wanted: tuple[int, str], folder: Folder) -> None:
    folder.write("basis.csv", "1900-01-01,q.xml,0\n")
    if table is None:
        (folder.path / "q.xml").mkdir()
    elif table:
        folder.write("q.xml", table)
    assert prints(folder, "project", "2021-01-01", "1", *words.split()) == wanted
    assert not folder.journal.exists()


def test_a_foreign_file_and_a_folder(table_q: Folder) -> None:
    table_q.write("journal.life", FOREIGN)
    assert prints(table_q, "project", "2021-01-01", "1") == (5, "badjournal,notajournal\n")
    assert table_q.journal.read_bytes() == FOREIGN
    table_q.journal.unlink()
    table_q.journal.mkdir()
    assert prints(table_q, "project", "2021-01-01", "1") == (8, "diskfault\n")


@pytest.mark.parametrize("seed", range(1, 7))
def test_every_year_of_a_drawn_book(seed: int, folder: Folder) -> None:
    """Policies of all plans and statuses by four tables, one of them a select table, at ages around the ends of the tables."""
    lay_drawn_book(folder, seed, 300, 4)
    before, found = folder.journal.read_bytes(), ""
    for words in ("2003-06-01 1", "2007-02-28 6", "2014-12-31 131", "2019-06-30 40", "2120-01-01 2"):
        text = projected(folder, words)
        for workers in ("2", "64"):
            assert prints(folder, "project", *words.split(), "--workers", workers) == (0, text)
        found += text
    assert folder.journal.read_bytes() == before
    assert any(line.startswith("unvalued,") and line != "unvalued,0" for line in found.splitlines())


@pytest.fixture
def drawn(folder: Folder) -> Folder:
    lay_drawn_book(folder, 6, 300, 4)
    return folder


@pytest.mark.parametrize("field, by", [*itertools.product(range(2, 8), (-100, 100)), (0, 0)])
def test_the_judge_sees_a_changed_line(field: int, by: int, drawn: Folder) -> None:
    """One bound of a year is changed by more than the bounds may differ, or the number of policies without a value is changed."""
    lines = [line.split(",") for line in projected(drawn, "2014-12-31 9").splitlines()]
    if field:
        line = next(line for line in lines if line[:2] == ["year", "1"])
        cents = int(line[field].replace(".", "")) + by
        line[field] = f"{'-' if cents < 0 else ''}{abs(cents) // 100}.{abs(cents) % 100:02}"
    else:
        lines[-1][1] = "1000"
    drawn.write("wrong", "".join(",".join(line) + "\n" for line in lines))
    assert drawn.tools("check-projection", "journal.life", "basis.csv", "wrong").status == 1


@pytest.mark.parametrize("table", ["g.xml", "made.xml"])
def test_every_year_of_every_age(table: str, folder: Folder) -> None:
    """By a table by age, and by a select table whose ultimate rates begin after some of its issue ages."""
    folder.write("journal.life", grid_of_all_ages())
    folder.write("made.xml", select_table(18, 70, 25, 40, 118))
    folder.take("g.xml")
    folder.write("basis.csv", f"1900-01-01,{table},0\n")
    for words in ("2000-02-29 131", "2001-02-27 3", "2001-02-28 3", "2011-06-01 30", "2130-01-01 1"):
        projected(folder, words)


def test_every_year_of_a_generated_book(examples_basis: Folder) -> None:
    examples_basis.post(prints(examples_basis, "generate", "7", "2000", "1")[1])
    for words in ("2000-06-01 40", "2009-12-31 101", "2190-01-01 3"):
        projected(examples_basis, words)


def test_each_number_of_workers_writes_the_same(folder: Folder) -> None:
    """A further worker starts for every 8,192 policies."""
    lay_drawn_book(folder, 7, 40001, 0)
    alone = projected(folder, "2014-12-31 40")
    for workers in ("1", "2", "3", "8", "64"):
        assert prints(folder, "project", "2014-12-31", "40", "--workers", workers) == (0, alone)


def greatest(folder: Folder, count: int) -> None:
    """Projects policies of the greatest amount and premium; the expected sums are computed by hand."""
    write_big("greatest", count, str(folder.journal))
    each = 100_000_000

    def cash(*shares: int) -> str:
        return ",".join(f"{each * count * share // 1000}.00" for share in shares for _ in range(2))
    wanted = years(f"2020-01-01,{count},{count}", cash(1000, 100, 0), cash(900, 180, 0), cash(720, 180, 540), NO_CASH)
    for workers in ("1", "4"):
        assert prints(folder, "project", "2020-01-01", "4", "--workers", workers) == (0, wanted)


def test_the_greatest_policies(table_q: Folder) -> None:
    greatest(table_q, 4000)


@pytest.mark.needs_proof
def test_the_greatest_sums(table_q: Folder) -> None:
    greatest(table_q, 4_000_000)
