"""Tests `books`: many books are valued, projected and added up, compared with a run of each; a book that fails is reported,
and never left out."""
import csv
import hashlib
import json
import os
import re
import shutil
import sqlite3
import subprocess
import sys
from collections import Counter
from pathlib import Path
from typing import Callable

import pytest

from tests.support.folders import Folder
from tests.support.program import ROOT, Program
from tests.support.shown import cents, money
from tests.support.tools import Ended

EMPTY = b"\x01LIFEJRNL\x00\x01\x00\x40\x00\x00\x00\x00\x00"
BOOKS = ("book1", "book2", "book3")
VALUE = ["books", "books.csv", "value", "2010-12-31"]


def each(three: Folder, *words: str) -> list[str]:
    """Returns the lines that the program prints for each book, after the book's name."""
    return [f"{name},{line}" for name in BOOKS for line in three.below(name).life(*words).out.splitlines()]


def added(lines: list[str]) -> str:
    """Returns the last line of a list's valuation, with the totals of these lines added up by the test."""
    totals = [line.split(",")[2:] for line in lines if line.split(",")[1] == "total"]
    sums = [money(sum(cents(total[place]) for total in totals)) for place in range(len(totals[0]) - 1)]
    return ",".join(["all,total", *sums, str(sum(int(total[-1]) for total in totals)), "3", "3"])


@pytest.mark.parametrize("measure", [[], ["--mean"], ["--deficiency", "--workers", "2"]], ids=["terminal", "mean", "deficiency"])
def test_valuations(three: Folder, measure: list[str]) -> None:
    lines = each(three, "value", "2010-12-31", *measure)
    assert three.printed(*VALUE, *measure).splitlines() == [*lines, added(lines)]
    without_rows = [line for line in [*lines, added(lines)] if ",row," not in line]
    assert three.printed(*VALUE, *measure, "--totals").splitlines() == without_rows


def test_projections(three: Folder) -> None:
    lines = each(three, "project", "2010-12-31", "2")
    sums: Counter[tuple[str, int]] = Counter()
    for fields in (line.split(",") for line in lines if ",year," in line):
        for place, field in enumerate(fields[3:]):
            sums[fields[2], place] += cents(field)
    years = [",".join([f"all,year,{year}", *(money(sums[year, place]) for place in range(6))]) for year in ("0", "1")]
    words = sum(int(line.split(",")[2]) for line in lines if ",unvalued," in line)
    assert three.printed("books", "books.csv", "project", "2010-12-31", "2").splitlines() == [
        *lines, *years, f"all,unvalued,{words},3,3"]


def test_states_and_checkpoints(three: Folder) -> None:
    lines = each(three, "state")
    found = three.printed("books", "books.csv", "state").splitlines()
    assert found[:len(lines)] == lines and "all,count,720,3,3" in found[len(lines):]
    wanted = "".join(f"{name},checkpoint,240\n" for name in BOOKS) + "all,checkpoint,720,3,3\n"
    assert three.printed("books", "books.csv", "checkpoint") == wanted


def test_at_a_position_of_each(three: Folder) -> None:
    three.write("positions.csv", "book1,10\nbook2,0\nbook3,240\n")
    wanted = [f"{name},{line}" for name, at in zip(BOOKS, ("10", "0", "240"))
              for line in three.below(name).life("value", "2010-12-31", "--at", at).out.splitlines()]
    assert three.printed(*VALUE, "--at", "positions.csv").splitlines()[:-1] == wanted
    states = three.printed("books", "books.csv", "state", "--at", "positions.csv").splitlines()
    assert "all,count,250,3,3" in states


def test_a_position_that_isnt_there_yet(three: Folder) -> None:
    three.write("positions.csv", "book1,10\nbook2,0\nbook3,241\n")
    ended = three.tools(*VALUE, "--at", "positions.csv")
    assert ended.status == 10 and "book3: status 10: refused,ahead,240" in ended.err, ended


def test_parts(three: Folder) -> None:
    three.printed(*VALUE, "--parts", "parts")
    assert [line for name in BOOKS for line in three.read(f"parts/{name}.csv").splitlines()] == each(three, "value", "2010-12-31")
    for *_, file, total in csv.reader(three.read("parts/parts.csv").splitlines()):
        assert hashlib.sha256((three.path / "parts" / file).read_bytes()).hexdigest() == total


def test_parts_as_tables(three: Folder) -> None:
    three.printed(*VALUE, "--parts", "tables", "--sqlite")
    totals = [line.split(",") for line in each(three, "value", "2010-12-31") if ",total," in line]
    for name, _, lower, upper, _ in totals:
        with sqlite3.connect(three.path / "tables" / f"{name}.db") as database:
            [sums] = database.execute("select book, sum(lower_cents), sum(upper_cents) from valuation group by book")
        assert sums == (name, cents(lower), cents(upper))


# --- books that fail are each tried once more, and never left out ---


def fails(ended: Ended, status: int, line: str) -> None:
    assert ended.status == status, ended
    assert re.search("^tried once more: book2$", ended.err, re.M) and len(re.findall("^book2: status", ended.err, re.M)) == 2
    assert re.search(f"^book2,failed,{status},{line}", ended.out, re.M), ended
    assert re.search("^all,total,.*,2,3$", ended.out, re.M), ended


@pytest.mark.parametrize("change, status, line", [
    (lambda book: book.journal.unlink(), 2, "there is no .*book2/journal.life"),
    (lambda book: os.truncate(book.journal, 100), 5, "badjournal,badrecord,1"),
    (lambda book: (book.path / "g.xml").unlink(), 4, "badbasis,g.xml,1,absent"),
], ids=["no journal", "a journal cut short", "no table"])
def test_a_book_that_lacks_a_file(three: Folder, change: Callable[[Folder], None], status: int, line: str) -> None:
    change(three.below("book2"))
    before = three.files()
    fails(three.tools(*VALUE, "--totals"), status, line)
    assert three.files().keys() == before.keys()


def test_a_book_in_use_and_who_waits_for_it(three: Folder) -> None:
    with three.below("book2").in_use():
        fails(three.tools(*VALUE, "--totals"), 8, f"diskfault: .*book2/journal.life is in use by process {os.getpid()}")
    with subprocess.Popen(["flock", three.path / "book2/journal.life", "sh", "-c", "echo; exec sleep 2"],
                          stdout=subprocess.PIPE) as waits:
        assert waits.stdout and waits.stdout.readline()
        assert re.search("^all,total,.*,3,3$", three.printed(*VALUE, "--totals", "--wait", "60"), re.M)


def test_one_that_is_well_when_it_is_tried_once_more(three: Folder) -> None:
    flaky = three.stand_in('[ -e tried ] || { touch tried; echo diskfault; exit 8; }\nexec "$life" "$@"')
    lines = each(three, "value", "2010-12-31")
    ended = three.tools(*VALUE, program=flaky)
    assert ended.status == 0 and "tried once more: book1, book2, book3" in ended.err.splitlines(), ended
    assert ended.out.splitlines() == [*lines, added(lines)]


def test_a_program_that_prints_half_a_valuation(three: Folder) -> None:
    ended = three.tools(*VALUE, program=three.stand_in("echo 0,value,2010-12-31,0,0"))
    assert ended.status == 2
    assert ended.out == "".join(f"{name},failed,2,it ended with 0,value,2010-12-31,0,0\n" for name in BOOKS) + "all,nothing,0,3\n"


def test_a_total_beyond_64_bits(three: Folder) -> None:
    for name in ("new1", "new2"):
        three.write(f"{name}/journal.life", EMPTY)
        shutil.copytree(three.path / "book1", three.path / name, dirs_exist_ok=True,
                        ignore=shutil.ignore_patterns("journal.life", "checkpoint.life"))
    three.write("new.csv", "new1,new1,basis.csv\nnew2,new2,basis.csv\n")
    rich = three.stand_in('printf "0,value,2010-12-31,0,0\\ntotal,184467440737095516.15,184467440737095516.15,0\\n"')
    ended = three.tools("books", "new.csv", "value", "2010-12-31", program=rich)
    assert "all,total,368934881474191032.30,368934881474191032.30,0,2,2" in ended.out.splitlines(), ended


def test_a_number_in_two_books(three: Folder) -> None:
    shutil.copytree(three.path / "book1", three.path / "copy")
    three.write("twice.csv", three.read("books.csv") + "copy,copy,basis.csv\n")
    ended = three.tools("books", "twice.csv", "value", "2010-12-31", "--totals")
    assert ended.status == 1 and re.search("^policy 1 stands in book1, copy$", ended.err, re.M), ended
    assert re.search("^and 110 more numbers stand in two books$", ended.err, re.M)
    assert re.search("^all,total,.*,4,4$", ended.out, re.M)


def test_another_program_than_the_one_installed(three: Folder, program: Program) -> None:
    installed = three.path / "installed"
    shutil.copytree(ROOT / "tools" / "life_tools", installed / "life_tools", ignore=shutil.ignore_patterns("__pycache__"))
    shutil.copy(ROOT / "tools" / "life-tools", installed)
    shutil.copy(program.path, installed / "life")
    (installed / "life_tools" / "built.json").write_text(
        json.dumps({"sum": hashlib.sha256(program.path.read_bytes()).hexdigest()}), encoding="ascii")
    words = [sys.executable, str(installed / "life-tools"), *VALUE, "--totals"]
    env = {name: value for name, value in os.environ.items() if name != "LIFE_PROGRAM"}
    ran = subprocess.run(words, cwd=three.path, env=env, capture_output=True, text=True, check=False)
    assert ran.returncode == 0, ran.stderr
    with open(installed / "life", "ab") as file:
        file.write(b"\n")
    ran = subprocess.run(words, cwd=three.path, env=env, capture_output=True, text=True, check=False)
    assert ran.returncode == 2 and "installed/life isn't the program that these tools were installed with" in ran.stderr


# --- wrong input ---


@pytest.mark.parametrize(("text", "says"), [
    ("book1,book1\n", "1: it has a name, a folder and a basis file"),
    ("book1,book1,basis.csv\nbook1,book2,basis.csv\n", "2: the name book1 stands twice"),
    ("book1,../book1,basis.csv\nother,../book2/../book1,basis.csv\n", "2: other is the folder of book1"),
    ("book1,../book1,basis.csv\nother,../linked,basis.csv\n", "2: other has the journal of book1"),
    ("all,book1,basis.csv\n", "1: all is no name of a book"),
    ("a b,book1,basis.csv\n", "1: a b is no name of a book"),
    ("a,book1,../basis.csv\n", "1: ../basis.csv is no name of a basis file"),
])
def test_a_list_that_is_none(three: Folder, text: str, says: str) -> None:
    (three.path / "linked").mkdir()
    os.link(three.path / "book1/journal.life", three.path / "linked/journal.life")
    three.write("lists/list", text)
    three.refused("books", "lists/list", "state", says=f"lists/list, line {says}")


@pytest.mark.parametrize(("words", "says"), [
    ("nowhere.csv state", "No such file"),
    ("no-list state", "is no name of a book|it has a name, a folder"),
    ("no-book state", "no-book has no book"),
    ("books.csv run", "run is none of value, project"),
    ("books.csv value", "value takes 1 arguments"),
    ("books.csv value 2021-02-29", "2021-02-29 is no day"),
    ("books.csv project 2020-01-01 132", "1 to 131 years are wanted"),
    ("books.csv value 2020-01-01 --mean --deficiency", "of --mean and --deficiency one stands"),
    ("books.csv state --mean", "belongs to value"),
    ("books.csv value 2020-01-01 --workers 65", "1 to 64 are wanted"),
    ("books.csv value 2020-01-01 --processes 0", "1 to 64 are wanted"),
    ("books.csv value 2010-12-31 --at few.csv", "has no position of book3"),
    ("books.csv value 2010-12-31 --at many.csv", "has a position of book4"),
    ("books.csv value 2010-12-31 --at no-number.csv", "line 2: book2,x is no name with a position"),
])
def test_refused(three: Folder, words: str, says: str) -> None:
    three.write("no-list", EMPTY)
    three.write("no-book", b"")
    three.write("few.csv", "book1,10\nbook2,0\n")
    three.write("many.csv", "book1,10\nbook2,0\nbook3,1\nbook4,2\n")
    three.write("no-number.csv", "book1,10\nbook2,x\nbook3,1\n")
    three.refused("books", *words.split(), says=says)


def test_a_program_that_isnt_there(three: Folder) -> None:
    ended = three.tools(*VALUE, program=Path("nowhere"))
    assert ended.status == 2 and "nowhere is no program" in ended.err and not ended.out
