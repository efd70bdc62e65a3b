"""Tests `books split`: books are divided after every kind of command and compared with the undivided ones; runs are killed;
programs print something else for a new book; and what can't be divided is refused.

The comparisons of the tool aren't used here: the test sorts lines and adds up amounts itself, and reads commands one by one.
"""
import os
import re
import shlex
import shutil
import signal
import subprocess
import sys
import time
from collections import defaultdict
from collections.abc import Iterable
from pathlib import Path
from random import Random
from typing import Any

import pytest

from life_tools.books import new_books
from life_tools.common.formats import KINDS, Wrong
from life_tools.journal.file import file_of, read_journal
from life_tools.rules.commands import words_of
from tests.support.drawn_scripts import make_book, make_script
from tests.support.folders import Folder
from tests.support.lived_books import lived
from tests.support.made_books import lay_basis
from tests.support.program import ROOT
from tests.support.shown import cents

DIVISIONS = [["numbers=1-20", "numbers=21-40", "others"], ["years=1999-2004", "years=2005-"], ["class=even", "class=odd"]]
ON = "2013-07-28"
HALVES = ["numbers=1-1000", "numbers=1001-", "low", "high"]

# --- after every kind of command ---


def printed(folder: Folder, *words: str, script: str = "") -> list[str]:
    ran = folder.life(*words, given=script)
    assert ran.status == 0, (folder.path, words, ran)
    return ran.out.splitlines()


def summed(lines_of_books: Iterable[list[str]], begins: str) -> tuple[list[str], dict[tuple[str, str | int], int]]:
    """Returns the lines of policies of several books, sorted, and the sums of their last lines in cents."""
    sums: defaultdict[tuple[str, str | int], int] = defaultdict(int)
    policies: list[str] = []
    for lines in lines_of_books:
        for line in lines:
            head, *fields = line.split(",")
            if head == begins:
                policies.append(line)
            elif head == "balance":
                sums[head, fields[0]] += cents(fields[1])
            elif head == "total":
                for place, field in enumerate(fields):
                    sums[head, place] += cents(field)
    return sorted(policies), dict(sums)


def commands_of(folder: Folder) -> dict[int, list[list[str]]]:
    """Returns each policy's commands in their order; the upgrades have the key 0."""
    found: defaultdict[int, list[list[str]]] = defaultdict(list)
    for command in read_journal(folder.journal.read_bytes()).commands:
        found[command.number].append(words_of(command))
    return found


def demand_alike(old: Folder, parts: list[Folder]) -> None:
    for words, begins in ((["state"], "policy"), (["value", ON, "--deficiency"], "row")):
        one, other = summed([printed(old, *words)], begins), summed([printed(part, *words) for part in parts], begins)
        assert one == other and one[0], words
    wanted, found = commands_of(old), dict[int, list[list[str]]]()
    upgrades = wanted.pop(0, [])
    for part in parts:
        of_part = commands_of(part)
        assert of_part.pop(0, []) == upgrades and not set(found) & set(of_part)
        found.update(of_part)
    assert wanted == found


def answers(folder: Folder, rows: list[str]) -> dict[str, list[list[str]]]:
    """Returns the answers to one clerk's rows by policy. The position of an accepted row is left out, and so is that of an
    upgrade."""
    found: defaultdict[str, list[list[str]]] = defaultdict(list)
    for line in printed(folder, "run", script="".join(f"{row}\n" for row in rows)):
        fields = line.split(",")
        if fields[0] != "watcher":
            found[fields[2]].append(fields[:4] if fields[3] == "accepted" or fields[1] == "upgrade" else fields)
    return found


def demand_same_answers(old: Folder, parts: list[Folder], rows: list[str]) -> None:
    wanted, found = answers(old, rows), dict[str, list[list[str]]]()
    belongs = {number: place for place, part in enumerate(parts) for number in commands_of(part) if number}
    for place, part in enumerate(parts):
        mine = [row for row in rows if row.split(",")[1] == "upgrade" or belongs.get(int(row.split(",")[2]), 0) == place]
        for number, each in answers(part, mine).items():
            assert number == "0" or number not in found
            found[number] = each
    assert wanted == found


@pytest.mark.parametrize("kind", KINDS.values())
def test_a_book_after_each_kind_of_command(folder: Folder, kind: str) -> None:
    draw = Random(11)
    book = make_book(draw, 60)
    while {command.kind for command in book.commands} != set(KINDS.values()):
        make_script(draw, book)
    commands, kinds = list(book.commands), [command.kind for command in book.commands]
    rows = [",".join(["1", *row.split(",")[1:]]) for row in make_script(draw, book).splitlines()
            if row.split(",")[1] not in ("value", "trim")]
    folder.write("classes.csv", "".join(f"{number},{'odd' if number % 2 else 'even'}\n" for number in sorted(book.policies)))
    # the prefix that ends with the last command of the kind
    lay_basis(folder.below("old"))
    old = folder.below("old")
    old.journal.write_bytes(file_of(commands[:len(kinds) - kinds[::-1].index(kind)]))
    before = old.journal.read_bytes()
    rules = DIVISIONS[list(KINDS.values()).index(kind) % len(DIVISIONS)]
    names = [f"part-{place}" for place in range(len(rules))]
    classes = ["--classes", "classes.csv"] if "class" in rules[0] else []
    said = folder.printed("books", "split", "old/journal.life", *rules, *names, *classes)
    assert said == "".join(f"{name},{name},basis.csv\n" for name in names) and old.journal.read_bytes() == before
    parts = [folder.below(name) for name in names]
    demand_alike(old, parts)
    if kind in ("paidup", "lapse"):
        demand_same_answers(old, parts, rows)
        demand_alike(old, parts)


# --- killed at each step of putting new books in place ---

STEPS = ("mkdir", "fsync", "rename", "posix_fadvise", "open")
SHARED = {"old.seal": b"a seal\n", "basis.csv": b"1900-01-01,q.xml,0\n", "q.xml": b"a table\n"}
FOLDERS = ["low", "middle", "high"]


def put() -> None:
    new_books.demand_new_folders(FOLDERS, ["journal.life", *SHARED])
    new_books.put_in_place(FOLDERS, [f"made-{folder}" for folder in FOLDERS], SHARED)


def killed_at(most: int) -> bool:
    child = os.fork()
    if child == 0:
        done = 0
        for name in STEPS:
            real = getattr(os, name)

            def counted(*words: Any, real: Any = real) -> Any:
                nonlocal done
                done += 1
                if done == most:
                    os.kill(os.getpid(), signal.SIGKILL)
                return real(*words)
            setattr(os, name, counted)
        put()
        os._exit(0)
    return os.waitstatus_to_exitcode(os.waitpid(child, 0)[1]) == -signal.SIGKILL


def demand_whole(folder: str) -> None:
    assert sorted(os.listdir(folder)) == sorted(["journal.life", *SHARED])
    for name, data in {"journal.life": f"the journal of {folder}".encode() * 1000, **SHARED}.items():
        assert (Path(folder) / name).read_bytes() == data, name


@pytest.fixture
def made(tmp_path: Path, monkeypatch: pytest.MonkeyPatch) -> None:
    monkeypatch.chdir(tmp_path)
    for folder in FOLDERS:
        Path(f"made-{folder}").mkdir()
        Path(f"made-{folder}/journal.life").write_text(f"the journal of {folder}" * 1000, encoding="ascii")


@pytest.mark.usefixtures("made")
def test_killed_at_each_step() -> None:
    """After a kill, each new book that exists is complete and isn't overwritten, and everything else that was left is removed."""
    step, seen = 1, set[int]()
    while killed_at(step):
        there = [folder for folder in FOLDERS if os.path.exists(folder)]
        seen.add(len(there))
        for folder in there:
            demand_whole(folder)
        if there:
            with pytest.raises(Wrong, match=f"{there[0]} is there already"):
                put()
            for folder in there:
                shutil.rmtree(folder)
        put()
        for folder in FOLDERS:
            demand_whole(folder)
            assert not os.path.exists(f"{folder}.new"), step
            shutil.rmtree(folder)
        step += 1
    assert seen == {0, 1, 2, 3} and step > 30


@pytest.mark.usefixtures("made")
def test_a_strangers_folder_stays() -> None:
    Path("middle.new").mkdir()
    Path("middle.new/letters").touch()
    with pytest.raises(Wrong, match="middle.new is there already, and isn't what a killed run left"):
        put()
    assert os.listdir("middle.new") == ["letters"] and not os.path.exists("low") and not os.path.exists("low.new")


# --- killed while the program runs ---


@pytest.fixture
def main(folder: Folder) -> Folder:
    for name in ("basis.csv", "q.xml", "g.xml"):
        folder.below("main").take(name)
    folder.write("main/journal.life", file_of(lived(7, 60)))
    folder.write("old.life", file_of(lived(7, 60)))
    return folder


def demand_nothing_made(main: Folder) -> None:
    assert (main.path / "main" / "journal.life").read_bytes() == (main.path / "old.life").read_bytes()
    assert not [name for name in ("low", "low.new", "high", "high.new") if (main.path / name).exists()]


def killed_in(main: Folder, phase: str) -> None:
    stays = main.path / "stays"
    stand_in = main.stand_in(f'[ "$1" != {phase} ] || {{ touch "{stays}"; while [ -e "{stays}" ]; do sleep 0.1; done; }}\n'
                             'exec "$life" "$@"')
    (main.path / "room").mkdir(exist_ok=True)
    env = {**os.environ, "TMPDIR": str(main.path / "room"), "LIFE_PROGRAM": str(stand_in)}
    words = [sys.executable, str(ROOT / "tools" / "life-tools"), "books", "split", "main/journal.life", *HALVES]
    with subprocess.Popen(words, cwd=main.path, env=env, stdout=subprocess.PIPE, stderr=subprocess.DEVNULL) as run:
        while not stays.exists() and run.poll() is None:
            time.sleep(0.02)
        run.kill()
        assert run.stdout and not run.stdout.read()
    assert stays.exists(), "the program wasn't asked"
    stays.unlink()


def test_killed_while_the_program_runs(main: Folder, monkeypatch: pytest.MonkeyPatch) -> None:
    for phase in ("run", "state", "value"):
        killed_in(main, phase)
        demand_nothing_made(main)
    left = list((main.path / "room").glob("life-split-*"))
    assert len(left) == 3
    time.sleep(0.5)
    for folder in left:
        os.utime(folder, (time.time() - 3600,) * 2)
    monkeypatch.setenv("TMPDIR", str(main.path / "room"))
    ended = main.tools("books", "split", "main/journal.life", *HALVES)
    assert (ended.status, ended.out) == (0, "low,low,basis.csv\nhigh,high,basis.csv\n"), ended
    assert not list((main.path / "room").iterdir())
    assert "nothing was done to main/journal.life. To put it away" in ended.err


def test_what_new_books_have(main: Folder) -> None:
    main.printed("books", "split", "main/journal.life", *HALVES)
    for name in ("low", "high"):
        assert sorted(os.listdir(main.path / name)) == ["basis.csv", "g.xml", "journal.life", "old.seal", "q.xml"]
        main.printed("seal", "--check", f"{name}/old.seal", "--folder", "main")
        assert main.printed("verify", f"{name}/journal.life").endswith("whole\n")
    main.refused("books", "split", "main/journal.life", *HALVES[:2], "low", "other", says="low is there already")


# --- programs that print something else for a new book ---

# by name: the new book and the command, what the stand-in does in place of the program, and what is reported
LIES = {
    "another status": ("1state", "$life state | sed '3s/^\\(policy,[0-9]*\\),[a-z]*/\\1,strange/'",
                       "state: the old book has policy,.*, and new book 2 has policy,"),
    "a policy twice": ("1state", "$life state | sed '2{p}'",
                       "state: there are more policies in new book 2|state: the old book has"),
    "another balance": ("1state", "$life state | sed '/^balance,cash/y/0123456789/1234567891/'",
                        "state: the old book has balance,cash,.*, and the new ones together balance,cash,"),
    "another count": ("1state", "$life state | sed '/^count/s/.$/7/;/^count/s/$/7/'", "state: the old book has count,"),
    "another row": ("1value", '$life "$@" | sed \'5s/row,./row,8/\'', "value: the old book has row,.*, and new book 2 has row,"),
    "another total": ("1value", '$life "$@" | sed \'/^total/s/.$/7/\'',
                      "value: the old book has total,.*, and the new ones together total,"),
    "a line lost": ("1run", "sed '$d' | $life run", "the journal of new book 2 hasn't the records of the old one"),
    "a line twice": ("0run", "sed 2p | $life run", "a line of the old book was answered 1,[a-z]*,[0-9]*,refused,"),
}


@pytest.mark.parametrize("name", LIES)
def test_a_program_that_says_something_else(main: Folder, name: str) -> None:
    where, does, says = LIES[name]
    stand_in = main.stand_in(f'case $PWD$1 in */{where}) {does} ;; *) exec "$life" "$@" ;; esac')
    ended = main.tools("books", "split", "main/journal.life", *HALVES, program=stand_in)
    assert ended.status == 1 and not ended.out and "Traceback" not in ended.err, ended
    assert re.search(says, ended.err), ended
    demand_nothing_made(main)


# --- what can't be divided ---


@pytest.mark.parametrize(("words", "says"), [
    ("main/journal.life numbers=1-1000 numbers=1500- low high", "policy [0-9]* falls under no rule"),
    ("main/journal.life numbers=1-1000 numbers=900- low high", "policy [0-9]* falls under numbers=1-1000 and numbers=900-"),
    ("main/journal.life years=1900-1950 others low high", "no policy falls under years=1900-1950"),
    ("main/journal.life numbers=x others low high", "x is no span from 1 to 4294967295"),
    ("main/journal.life numbers=5-4 others low high", "5-4 is no span"),
    ("main/journal.life class=smoker others low high", "wants --classes"),
    ("main/journal.life class=smoker class=other low high --classes classes.csv", "has no class other"),
    ("main/journal.life others low", "by 2 to 64 rules"),
    ("main/journal.life numbers=1-1000 others low", "there are 2 rules and 1 folders"),
    ("main/journal.life numbers=1-1000 low others high", "the rules come before the folders"),
    ("main/journal.life numbers=1-1000 others low ./low", "two new books have one name"),
    ("main/journal.life numbers=1-1000 others low 'a b'", "a b is no name of a book"),
    ("main/journal.life numbers=1-1000 others low nowhere/high", "there is no folder for nowhere/high"),
    ("main numbers=1-1000 others low high", "main is no journal.life"),
    ("nowhere/journal.life numbers=1-1000 others low high", "there is no nowhere/journal.life"),
    ("main/journal.life numbers=1-1000 others low high --basis other.csv", "there is no main/other.csv"),
])
def test_refused(main: Folder, words: str, says: str) -> None:
    main.write("classes.csv", "1-99999999,smoker\n")
    main.refused("books", "split", *shlex.split(words), says=says)


def test_a_book_in_use(main: Folder) -> None:
    with main.below("main").in_use():
        main.refused("books", "split", "main/journal.life", *HALVES, says="main/journal.life is in use by another run")


def test_a_book_without_a_table(main: Folder) -> None:
    (main.path / "main" / "g.xml").unlink()
    main.refused("books", "split", "main/journal.life", *HALVES, says="g.xml")


def test_a_damaged_book(main: Folder) -> None:
    main.below("main").damage(100)
    main.refused("books", "split", "main/journal.life", *HALVES, says="bytes follow byte 6517", status=1)
