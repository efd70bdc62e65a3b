"""Tests what `life-tools backup` copies and what it leaves, what it refuses, and the book that `restore` makes from a copy."""
import fcntl
import hashlib
import os
import re
import subprocess
import sys
from pathlib import Path
from typing import Callable

import pytest

from life_tools.common.formats import day_in
from life_tools.journal.file import file_of, gate_of
from life_tools.rules.commands import Command
from tests.support.folders import Folder
from tests.support.program import ROOT
from tests.support.tools import Ended

DAY = day_in("2020-01-01")
# stands in for ssh in the tests: it runs the command on this machine
SSH = """#!/bin/sh
while [ "${1#-}" != "$1" ]; do shift; done
shift
exec sh -c "$*"
"""


def issues(count: int) -> bytes:
    return file_of([Command("issue", number, DAY, plan="whole", age=30, years=0, amount=100000, premium=2000)
                    for number in range(1, count + 1)])


@pytest.fixture
def book(table_q: Folder) -> Folder:
    """A book of five policies, in a folder that also takes its copies."""
    made = table_q.below("book")
    for name in ("basis.csv", "q.xml"):
        made.write(name, table_q.read(name))
    made.write("journal.life", issues(5))
    table_q.write("ssh", SSH).chmod(0o755)
    return made


@pytest.fixture(params=["folder", pytest.param("machine", marks=pytest.mark.needs("rsync"))])
def place(request: pytest.FixtureRequest, book: Folder) -> list[str]:
    """Returns where the copy is, in a folder or on another machine, and the options by which it is reached."""
    copy = book.path.parent / "copy"
    return [str(copy)] if request.param == "folder" else [f"far:{copy}", "--ssh", str(book.path.parent / "ssh")]


@pytest.fixture
def copy(book: Folder) -> Path:
    return book.path.parent / "copy"


def prefix_of(copy: Path) -> bytes:
    return (copy / "journal.prefix").read_bytes()


def everything(copy: Path) -> dict[str, bytes]:
    return {str(path.relative_to(copy)): path.read_bytes() for path in copy.rglob("*") if path.is_file() and path.name != ".lock"}


def backed_up(book: Folder, place: list[str], count: int, added: int) -> Ended:
    ended = book.tools("backup", *place)
    assert (ended.status, ended.out) == (0, f"count,{count}\nadded,{added}\n"), ended
    return ended


def restored(book: Folder, place: list[str]) -> Folder:
    """Restores a copy, asserts that `restore` reports it as whole, and returns the restored book."""
    made = book.path.parent / "restored"
    printed = book.printed("restore", *place, "--folder", str(made))
    assert printed.splitlines()[-1] == "whole"
    return Folder(made, book.program)


# --- what is copied ---

def test_a_copy_grows_with_the_book(book: Folder, place: list[str], copy: Path) -> None:
    backed_up(book, place, 5, 5)
    assert prefix_of(copy) == issues(5)[:gate_of(5)]
    backed_up(book, place, 5, 0)
    book.write("journal.life", issues(8))
    backed_up(book, place, 8, 3)
    made = restored(book, place)
    assert made.journal.read_bytes() == issues(8)
    assert made.life("state").out == book.life("state").out


def test_the_seal_is_that_of_the_book(book: Folder, place: list[str], copy: Path) -> None:
    backed_up(book, place, 5, 5)
    assert (copy / "backup.seal").read_text() == book.printed("seal")


def test_basis_tables_settings_seals_and_log_are_kept(book: Folder, place: list[str], copy: Path) -> None:
    given = {"desk.toml": "", "one.seal": "seal\n", "log/000001-2026-12-01-monday/transcript": "1,issue,1,accepted,1\n"}
    for name, text in given.items():
        book.write(name, text)
    book.write("log/.lock", "")
    backed_up(book, place, 5, 5)
    made = restored(book, place)
    assert {name: made.read(name) for name in given} == given
    assert made.read("basis.csv") == book.read("basis.csv") and made.read("q.xml") == book.read("q.xml")
    assert not (made.path / "log" / ".lock").exists()
    # a file that changed is copied again, and a file that was removed stays in the copy
    book.write("log/000001-2026-12-01-monday/transcript", "1,issue,1,accepted,1\n1,issue,2,accepted,2\n")
    (book.path / "one.seal").unlink()
    backed_up(book, place, 5, 0)
    assert (copy / "files/log/000001-2026-12-01-monday/transcript").read_text().count("\n") == 2
    assert (copy / "files/one.seal").exists()


@pytest.mark.needs("strace")
def test_only_what_was_added_is_written_and_nothing_is_locked(book: Folder, copy: Path) -> None:
    backed_up(book, [str(copy)], 5, 5)
    book.write("journal.life", issues(7))
    log = book.path.parent / "calls"
    words = [sys.executable, str(ROOT / "tools" / "life-tools"), "backup", str(copy)]
    subprocess.run(["strace", "-f", "-y", "-o", log, "-e", "trace=pwrite64,flock,fcntl,fsync,rename", *words], cwd=book.path,
                   check=True, stdout=subprocess.DEVNULL)
    calls = log.read_text()
    written = re.findall(r"pwrite64\(\d+<[^>]*journal\.prefix>, .*, (\d+), (\d+)\) = (\d+)", calls)
    assert written == [(str(2 * 65), str(gate_of(5)), str(2 * 65))]
    assert not re.search(r"(flock|F_SETLK|F_OFD_SETLK)[^<]*<[^>]*journal\.life", calls)
    # the copy is synced before its new seal replaces the old one
    assert calls.index("journal.prefix>) = 0") < calls.index("backup.seal")


# --- what may not be safe yet ---

@pytest.mark.parametrize("after, count", [(b"", 4), (bytes(30), 5), (bytes(65), 5)],
                         ids=["not acknowledged", "the next one is being written", "the next one is written"])
def test_of_a_run_that_goes_on_the_last_posting_waits_for_the_next(book: Folder, copy: Path, after: bytes, count: int) -> None:
    book.write("journal.life", issues(5) + after)
    with book.in_use():
        said = backed_up(book, [str(copy)], count, count)
    assert ("1 postings of a run that goes on" in said.err) == (count == 4)
    backed_up(book, [str(copy)], 5, 5 - count)


def test_what_was_copied_stays_copied_when_the_next_run_begins(book: Folder, copy: Path) -> None:
    backed_up(book, [str(copy)], 5, 5)
    with book.in_use():
        backed_up(book, [str(copy)], 5, 0)


@pytest.mark.needs("strace")
def test_nothing_is_copied_where_the_journals_sync_fails(book: Folder, copy: Path) -> None:
    words = [sys.executable, str(ROOT / "tools" / "life-tools"), "backup", str(copy)]
    inject = ["-P", str(book.journal), "-P", "./journal.life", "-e", "inject=fsync:error=EIO"]
    ran = subprocess.run(["strace", "-f", "-o", "/dev/null", *inject, *words], cwd=book.path, check=False, capture_output=True,
                         text=True)
    assert ran.returncode == 2 and "mount the disk anew" in ran.stderr, ran
    assert prefix_of(copy) == b"" and not (copy / "backup.seal").exists()
    backed_up(book, [str(copy)], 5, 5)


# --- what differs ---

def flip_a_bit(path: Path, place: int) -> None:
    with open(path, "r+b") as file:
        file.seek(place)
        byte = file.read(1)[0]
        file.seek(place)
        file.write(bytes([byte ^ 1]))


CHANGES: dict[str, tuple[Callable[[Folder, Path], object], str]] = {
    "a posting of the journal": (lambda book, copy: flip_a_bit(book.journal, gate_of(2) + 40),
                                 r"journal\.life: its first 342 bytes"),
    "a posting of the copy": (lambda book, copy: flip_a_bit(copy / "journal.prefix", gate_of(2) + 40), "its first 342 bytes"),
    "a shorter journal": (lambda book, copy: book.write("journal.life", issues(4)), r"journal\.life: its first 342 bytes"),
    "a shorter copy": (lambda book, copy: os.truncate(copy / "journal.prefix", gate_of(4)), "342"),
}


@pytest.mark.parametrize("change, says", CHANGES.values(), ids=CHANGES)
def test_a_difference_stops_it_and_nothing_is_changed(change: Callable[[Folder, Path], object], says: str, book: Folder,
                                                      place: list[str], copy: Path) -> None:
    backed_up(book, place, 5, 5)
    change(book, copy)
    before = everything(copy)
    ended = book.tools("backup", *place)
    assert ended.status == 1 and re.search(says, ended.err), ended
    assert everything(copy) == before


def test_a_damaged_book_is_not_copied(book: Folder, copy: Path) -> None:
    backed_up(book, [str(copy)], 5, 5)
    book.write("journal.life", issues(9))
    flip_a_bit(book.journal, gate_of(7))
    ended = book.tools("backup", str(copy))
    assert ended.status == 1 and "nothing was copied" in ended.err, ended
    assert prefix_of(copy) == issues(5)[:gate_of(5)]


def test_a_copy_of_another_book_is_refused(book: Folder, copy: Path) -> None:
    copy.mkdir()
    (copy / "journal.prefix").write_bytes(b"\1LIFEJRNL" + bytes(300))
    ended = book.tools("backup", str(copy))
    assert ended.status == 1 and "has no seal" in ended.err, ended


@pytest.mark.parametrize("tail", [issues(7)[gate_of(5):gate_of(7) - 20], b"?" * 1000], ids=["the same", "another"])
def test_what_a_killed_copier_left_is_kept_or_cut_off(tail: bytes, book: Folder, place: list[str], copy: Path) -> None:
    backed_up(book, place, 5, 5)
    with open(copy / "journal.prefix", "ab") as file:
        file.write(tail)
    book.write("journal.life", issues(8))
    backed_up(book, place, 8, 3)
    assert prefix_of(copy) == issues(8)[:gate_of(8)]


def test_a_copy_that_finds_no_space_goes_on_later(book: Folder, copy: Path) -> None:
    """No file may have more than 512 bytes, so only this much of the postings is copied at first."""
    book.write("journal.life", issues(20))
    words = [sys.executable, "-B", str(ROOT / "tools" / "life-tools"), "backup", str(copy)]
    ran = subprocess.run(["sh", "-c", 'ulimit -f 1; exec "$@"', "sh", *words], cwd=book.path, check=False, capture_output=True,
                         text=True)
    assert ran.returncode == 2 and "the next backup goes on" in ran.stderr, ran
    assert len(prefix_of(copy)) == 512 and not (copy / "backup.seal").exists()
    backed_up(book, [str(copy)], 20, 20)


def test_two_backups_at_once(book: Folder, copy: Path) -> None:
    copy.mkdir()
    with open(copy / ".lock", "w") as file:
        fcntl.flock(file, fcntl.LOCK_EX)
        assert "another backup is writing" in book.tools("backup", str(copy)).err


# --- a book is made of a copy ---

def test_a_book_is_not_overwritten(book: Folder, place: list[str]) -> None:
    backed_up(book, place, 5, 5)
    book.refused("restore", *place, says=r"journal\.life is there already; nothing was restored")


def test_a_changed_copy_is_not_restored(book: Folder, place: list[str], copy: Path) -> None:
    backed_up(book, place, 5, 5)
    flip_a_bit(copy / "journal.prefix", gate_of(3) + 10)
    ended = book.tools("restore", *place, "--folder", "../restored")
    assert ended.status == 1 and "nothing was restored" in ended.err, ended
    assert not (book.path.parent / "restored" / "journal.life").exists()


def test_a_changed_table_is_reported(book: Folder, place: list[str], copy: Path) -> None:
    backed_up(book, place, 5, 5)
    (copy / "files" / "q.xml").write_text("<other/>")
    ended = book.tools("restore", *place, "--folder", "../restored")
    assert ended.status == 1 and "q.xml has" in ended.err, ended


def test_what_the_log_knows_more_is_posted_anew(book: Folder, place: list[str]) -> None:
    """A posting was logged and not copied any more: the restored book lacks it, and `day --restored` posts it."""
    book.journal.unlink()
    handed_in = book.write("inbox/monday.csv", "1,issue,1,2020-01-01,endowment,0,3,1000.00,400.00\n")
    os.utime(handed_in, (1, 1))
    day = ("--today", "2020-01-02", "--life", str(book.program.path))
    assert book.tools("day", "--new", *day).status == 0
    backed_up(book, place, 1, 1)
    handed_in = book.write("inbox/tuesday.csv", "1,issue,2,2020-01-01,endowment,0,3,1000.00,400.00\n")
    os.utime(handed_in, (1, 1))
    assert book.tools("day", *day).status == 0
    # the last posting isn't copied, because the journal is in use and the posting may not be safe yet; the log is copied whole
    with book.in_use():
        backed_up(book, place, 1, 0)
    ended = book.tools("restore", *place, "--folder", "../restored")
    assert ended.status == 1 and "day --restored" in ended.err, ended
    made = Folder(book.path.parent / "restored", book.program)
    assert made.tools("day", "--restored", *day).status in (0, 1)
    assert made.life("state").out == book.life("state").out


# --- again and again ---

def test_every_second(book: Folder, copy: Path) -> None:
    words = [sys.executable, str(ROOT / "tools" / "life-tools"), "backup", str(copy), "--every", "1"]
    with subprocess.Popen(words, cwd=book.path, stdout=subprocess.PIPE, stderr=subprocess.PIPE, text=True) as backup:
        assert backup.stdout and backup.stderr
        assert [backup.stdout.readline(), backup.stdout.readline()] == ["count,5\n", "added,5\n"]
        # `backup` looks again after a second, and copies the new posting
        book.write("journal.life", issues(6))
        assert [backup.stdout.readline(), backup.stdout.readline()] == ["count,6\n", "added,1\n"]
        flip_a_bit(book.journal, gate_of(2) + 40)
        assert backup.wait(30) == 1
    assert hashlib.sha256(prefix_of(copy)).digest() == hashlib.sha256(issues(6)[:gate_of(6)]).digest()


@pytest.mark.parametrize("words, says", [
    (("nowhere:",), "nowhere:"), (("copy", "--every", "0"), "--every 0"), (("copy", "--basis", "a/b"), "no name of a basis"),
    ((".",), "own folder"), (("copy", "--folder", "nowhere"), "there is no nowhere/journal.life"),
], ids=lambda words: " ".join(words) if isinstance(words, tuple) else "")
def test_refused(words: tuple[str, ...], says: str, book: Folder) -> None:
    ended = book.tools("backup", *words)
    assert ended.status == 2 and says in ended.err, ended
