"""Tests waiting for a book: whoever waits gets it, alone or among many, and delays nobody else. A folder without a book is
reported."""
import fcntl
import os
import subprocess
import time
from pathlib import Path

import pytest

from tests.support.folders import EXAMPLES, Folder
from tests.support.launchers import Begun, await_that, in_use, issue, stopped
from tests.tools.launcher.conftest import ran

WAITERS = 6
# the seconds for which the book is locked again and again while somebody waits; the waiter looks five times a second
SECONDS_TRIED = 2
FIRST_ISSUES = (EXAMPLES / "first-issues.csv").read_text(encoding="utf-8")


@pytest.fixture
def launcher(proved_clone: Path) -> list[str]:
    return ["sh", str(proved_clone / "life")]


@pytest.fixture
def book(folder: Folder) -> Folder:
    folder.post(FIRST_ISSUES)
    return folder


def test_at_the_end_of_the_time_the_program_answers(book: Folder, launcher: list[str]) -> None:
    with in_use(book.journal) as user:
        done = ran([*launcher, "--wait", "0", "state"], book.path)
    assert (done.status, done.out) == (8, "diskfault\n") and f"still {user}" in done.err, done


def test_a_free_book_is_had_at_once(book: Folder, launcher: list[str]) -> None:
    done = ran([*launcher, "--wait", "30", "state"], book.path)
    assert done.status == 0 and done.err == "", done


def test_what_needs_no_book_doesnt_wait(book: Folder, launcher: list[str]) -> None:
    with in_use(book.journal):
        done = ran([*launcher, "--wait", "60", "generate", "1", "1", "1"], book.path)
    assert done.status == 0 and done.err == "", done


def test_none_of_many_that_wait_is_refused(book: Folder, launcher: list[str]) -> None:
    """The script is a pipe, which can be read only once."""
    with in_use(book.journal) as user:
        waiters = [Begun([*launcher, "--wait", "600", "run"], book.path, f"waiter{n}", given=subprocess.PIPE)
                   for n in range(WAITERS)]
        for n, waiter in enumerate(waiters):
            waiter.type(issue(7600 + n))
        await_that(lambda: all(waiter.says(f"waiting: {user}") for waiter in waiters))
        assert all(waiter.says(f"waiting: {user}") for waiter in waiters)
        assert book.count() == 4
    ended = [waiter.ended() for waiter in waiters]
    assert all(done.status == 0 and f"1,issue,{7600 + n},accepted," in done.out for n, done in enumerate(ended)), ended
    assert book.count() == 4 + WAITERS


def test_one_that_waits_keeps_nobody_off(book: Folder, launcher: list[str]) -> None:
    """A launcher that waits for its turn never locks the book meanwhile, not even for a moment, because a program that starts
    then would be refused. The launcher whose turn it is holds a lock on the folder."""
    turn = os.open(book.path, os.O_RDONLY)
    fcntl.flock(turn, fcntl.LOCK_EX)
    waiter = Begun([*launcher, "--wait", "600", "state"], book.path)
    await_that(lambda: waiter.says("waiting: another one that waited for this folder has its turn"))
    with open(book.journal, "rb") as journal:
        until = time.monotonic() + SECONDS_TRIED
        while time.monotonic() < until:
            fcntl.flock(journal, fcntl.LOCK_EX | fcntl.LOCK_NB)
            fcntl.flock(journal, fcntl.LOCK_UN)
    assert waiter.process.poll() is None
    os.close(turn)
    done = waiter.ended()
    assert done.status == 0 and "has its turn" in done.err and "count,4" in done.out, done


def test_one_that_waits_is_stopped(book: Folder, clone: Path) -> None:
    with in_use(book.journal):
        done = stopped(["sh", clone / "life", "--wait", "600", "run"], book.path, lambda begun: begun.says("is in use"))
    assert done.out == "" and done.err.endswith("life: stopped waiting, and nothing was run\n"), done
    assert done.status == 130 and book.count() == 4


@pytest.mark.parametrize("words", ["state", "state 7001", "checkpoint", "value 2021-01-01", "project 2021-01-01 2",
                                   "--wait 5 state"])
def test_a_folder_without_a_book_is_reported(tmp_path: Path, launcher: list[str], words: str) -> None:
    done = ran([*launcher, *words.split()], tmp_path)
    assert (done.status, done.out, done.err) == (66, "", f"life: there is no journal.life in {tmp_path}, so nothing was run\n")
    assert os.listdir(tmp_path) == []


def test_a_new_book_is_reported(folder: Folder, launcher: list[str]) -> None:
    done = ran([*launcher, "run"], folder.path, FIRST_ISSUES)
    assert (done.status, done.out) == (0, (EXAMPLES / "first-issues.transcript").read_text(encoding="utf-8"))
    assert done.err == f"life: there is no journal.life in {folder.path}, so a new book is begun\n"
    assert ran([*launcher, "state"], folder.path).err == ""
