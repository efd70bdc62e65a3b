"""Tests checkpoints: bytes worked out by hand; a second file that is no checkpoint, is locked, can't be opened or fails; a
checkpoint that is older than the journal or than its upgrade; drawn books, for which every checkpoint is computed again
without the program, byte by byte; and `state`, which prints with a checkpoint what it prints without one."""
import fcntl
import os
import resource
import subprocess
from collections.abc import Callable, Iterator
from contextlib import contextmanager
from pathlib import Path

import pytest

from life_tools.journal.checkpoints import bytes_of_checkpoint, checkpoint_of
from life_tools.journal.file import read_journal
from tests.program.office import EMPTY, FIRST_BYTES, FOREIGN, NONE_WATCHED, POLICY, RECORD, prints
from tests.support.folders import Folder
from tests.support.made_books import lay_drawn_book

CLAIMED = POLICY + "1,premium,7001,2020-01-01,400.00\n1,claim,7001,2020-06-01\n1,settle,7001,2020-07-01,400.00\n"
SETTLED = "1,settle,7001,2020-07-03,600.00\n"
# bytes as docs/reference/journal.md writes them out by hand
BY_HAND = bytes.fromhex(
    "01 4c494645 4348 4b50 0001 0030 00000000 00000004 00000000 00000001"
    "0000000000000000 ffffffffffff63c0 00000000000186a0 ffffffffffff15a0 000000"
    "00001b59 03 00 03 01 03 000000 00004756 0000480c 00000000000186a0 0000000000009c40 000000000000ea60 00000000")


def kept(folder: Folder) -> Path:
    return folder.path / "checkpoint.life"


@pytest.fixture
def claimed(table_q: Folder) -> Folder:
    table_q.post(CLAIMED)
    assert prints(table_q, "checkpoint") == (0, "checkpoint,4\n")
    return table_q


def stated_without(folder: Folder) -> tuple[int, str]:
    alone = folder.below("alone")
    alone.write("journal.life", folder.journal.read_bytes())
    kept(alone).unlink(missing_ok=True)
    return prints(alone, "state")


def stated_alike(folder: Folder) -> bool:
    """Returns whether `state` prints what it prints without the checkpoint, and leaves the checkpoint as it is."""
    before = kept(folder).read_bytes()
    stated = prints(folder, "state")
    return stated[0] == 0 and stated == stated_without(folder) and kept(folder).read_bytes() == before


def is_right(folder: Folder) -> None:
    """Asserts that the checkpoint is, byte by byte, that of the journal; bytes of an earlier checkpoint may follow it."""
    assert folder.printed("read-checkpoint", "checkpoint.life", "journal.life") == folder.life("state").out
    made = bytes_of_checkpoint(checkpoint_of(read_journal(folder.journal.read_bytes()).commands))
    assert kept(folder).read_bytes().startswith(made)


def put(path: Path, at: int, byte: int) -> None:
    content = bytearray(path.read_bytes())
    content[at] = byte
    path.write_bytes(bytes(content))


@contextmanager
def held(path: Path) -> Iterator[None]:
    with open(path, "rb") as file:
        fcntl.flock(file, fcntl.LOCK_EX)
        yield


def test_a_claim_and_a_settlement(claimed: Folder) -> None:
    assert kept(claimed).read_bytes() == BY_HAND
    is_right(claimed)
    assert prints(claimed, "run", given=SETTLED) == (0, "1,settle,7001,accepted,5\nwatcher,1,1,1\nwatcher,2,1,0\n")
    settled = ("policy,7001,settled,endowment,0,3,1000.00,400.00,2020-01-01,1,0.00\nbalance,cash,-600.00\n"
               "balance,premiums,-400.00\nbalance,incurred,1000.00\nbalance,payable,0.00\ncount,5\n")
    for gate in (1, 0):
        put(kept(claimed), 0, gate)
        assert prints(claimed, "state") == (0, settled)
    # if its commit byte is 0, the tool doesn't take it for a checkpoint either
    assert claimed.tools("read-checkpoint", "checkpoint.life", "journal.life").status == 2


def test_an_empty_book(folder: Folder) -> None:
    assert prints(folder, "checkpoint") == (0, "checkpoint,0\n")
    assert folder.journal.read_bytes() == EMPTY and kept(folder).stat().st_size == 64
    is_right(folder)


OTHERS = ["run", "state 7001", "value 2021-01-01", "project 2021-01-01 3", "load 1 2 1 1"]


def test_no_other_mode_makes_one(table_q: Folder) -> None:
    more = ["generate 1 1 1", "value 2021-01-01 --at 9", "checkpoint now", "checkpoint --at 1", "Checkpoint", "help"]
    for words in [*OTHERS, *more]:
        table_q.life(*words.split())
        assert not kept(table_q).exists(), words


@pytest.mark.parametrize("words", OTHERS)
def test_no_other_mode_touches_one(words: str, table_q: Folder) -> None:
    """Another process has locked the checkpoint meanwhile: a command that doesn't open it doesn't meet the lock."""
    table_q.post("")
    file = table_q.write("checkpoint.life", os.urandom(200))
    os.utime(file, (978307200, 978307200))
    before = file.read_bytes(), file.stat().st_mtime_ns
    with held(file):
        assert table_q.life(*words.split()).status in (0, 1)
    assert (file.read_bytes(), file.stat().st_mtime_ns) == before


@pytest.mark.parametrize("words", [["checkpoint", "1"], ["checkpoint", "--basis", "basis.csv"], ["checkpoint", "--workers", "2"],
                                   ["checkpoint", "state"], ["checkpoints"], ["checkpoint", ""]], ids=" ".join)
def test_arguments_that_are_no_checkpoint(words: list[str], folder: Folder) -> None:
    assert prints(folder, *words) == (2, "usage\n")
    assert not folder.journal.exists() and not kept(folder).exists()


@pytest.mark.parametrize("at, byte, status", [
    (0, 0, 2), (0, 2, 2), (8, ord("K"), 2), (12, 0o61, 2),
    # a position above the count of the journal, and one above the greatest count
    (20, 5, 1), (17, 1, 2),
    # an upgrade and more policies than commands, balances out of range, an invalid policy
    (24, 5, 2), (28, 5, 2), (29, 0o177, 2), (45, 0o200, 2), (63, 1, 2), (70, 1, 2), (71, 4, 2), (72, 1, 2), (78, 255, 2),
    (104, 255, 2), (111, 1, 2)])
def test_a_changed_byte_makes_it_none(at: int, byte: int, status: int, claimed: Folder) -> None:
    put(kept(claimed), at, byte)
    assert stated_alike(claimed)
    assert claimed.tools("read-checkpoint", "checkpoint.life", "journal.life").status == status


def test_a_cut_one_is_none(claimed: Folder) -> None:
    for length in range(len(BY_HAND)):
        kept(claimed).write_bytes(BY_HAND[:length])
        assert stated_alike(claimed), length


def test_a_number_that_stands_twice_makes_it_none(claimed: Folder) -> None:
    kept(claimed).write_bytes(BY_HAND + BY_HAND[-48:])
    put(kept(claimed), 28, 2)
    assert stated_alike(claimed)
    assert claimed.tools("read-checkpoint", "checkpoint.life").status == 2


@pytest.mark.parametrize("content", [BY_HAND + b"more\n", EMPTY, b"\1LIFEJRNL" + bytes(200), Path("/bin/sh").read_bytes()],
                         ids=["bytes after it", "an empty journal", "another journal", "a program"])
def test_a_foreign_file_is_none_and_is_written_over(content: bytes, claimed: Folder) -> None:
    kept(claimed).write_bytes(content)
    assert stated_alike(claimed)
    assert prints(claimed, "checkpoint") == (0, "checkpoint,4\n")
    assert kept(claimed).read_bytes().startswith(BY_HAND)


def test_one_of_another_journal_is_seen(claimed: Folder) -> None:
    """With another book's checkpoint `state` prints something else, so the tests of this file would notice it."""
    other = claimed.below("other")
    other.post("1,issue,9,2020-01-01,term,0,3,500.00,200.00\n")
    other.life("checkpoint")
    kept(claimed).write_bytes(kept(other).read_bytes())
    ended = claimed.tools("read-checkpoint", "checkpoint.life", "journal.life")
    assert ended.status != 0 and "aren't the books of the first 1 commands" in ended.err
    assert not stated_alike(claimed)
    kept(claimed).unlink()
    assert claimed.life("state").out.endswith("count,4\n")


def test_one_that_is_older_than_an_upgrade(folder: Folder) -> None:
    folder.post(POLICY + "1,premium,7001,2020-01-01,400.00\n")
    folder.life("checkpoint")
    assert "1,paidup,7001,accepted,4\n" in folder.post("1,upgrade\n1,paidup,7001,2020-12-01,300.00\n")
    assert stated_alike(folder)
    folder.life("checkpoint")
    is_right(folder)
    # the byte with the position of the upgrade
    assert kept(folder).read_bytes()[24] == 3
    folder.post("1,issue,7002,2021-01-01,term,0,3,500.00,200.00\n")
    assert stated_alike(folder)


def test_bad_records(claimed: Folder) -> None:
    """`state` refuses a bad record after the checkpoint's position as it does without a checkpoint. It doesn't read earlier
    records again; a run does."""
    claimed.post(SETTLED)
    longer = claimed.journal.read_bytes()
    put(claimed.journal, FIRST_BYTES + 4 * RECORD, 9)
    before = claimed.journal.read_bytes()
    for word in ("state", "checkpoint"):
        assert prints(claimed, word) == (5, "badjournal,badrecord,4\n")
        assert claimed.journal.read_bytes() == before
    claimed.journal.write_bytes(longer)
    put(claimed.journal, FIRST_BYTES, 9)
    assert claimed.life("state").status == 0
    assert prints(claimed, "run") == (5, "badjournal,badrecord,0\n")
    claimed.journal.write_bytes(FOREIGN)
    for word in ("state", "checkpoint"):
        assert prints(claimed, word) == (5, "badjournal,notajournal\n")
    assert kept(claimed).read_bytes() == BY_HAND


def folder_in_its_place(file: Path) -> None:
    file.mkdir()


SECONDS: dict[str, Callable[[Path], None]] = {
    "a folder": folder_in_its_place,
    "a link to nowhere": lambda file: file.symlink_to("nowhere/checkpoint.life"),
    # the hard link is the journal itself, which is locked already
    "a hard link to the journal": lambda file: os.link(file.with_name("journal.life"), file),
    "a link to the journal": lambda file: file.symlink_to("journal.life"),
}


@pytest.mark.parametrize("second", ["held", *SECONDS])
def test_a_second_file_that_fails(second: str, claimed: Folder) -> None:
    """`state` and `checkpoint` end with status 8, and the other commands don't."""
    before = claimed.journal.read_bytes()
    if second == "held":
        with held(kept(claimed)):
            fails_by_the_second(claimed)
        assert kept(claimed).read_bytes() == BY_HAND
    else:
        kept(claimed).unlink()
        SECONDS[second](kept(claimed))
        fails_by_the_second(claimed)
    assert claimed.journal.read_bytes() == before


def fails_by_the_second(folder: Folder) -> None:
    for word in ("state", "checkpoint"):
        assert prints(folder, word) == (8, "diskfault\n")
    assert prints(folder, "run") == (0, NONE_WATCHED)
    assert folder.life("state", "7001").status == 0


def test_a_file_that_cannot_grow(claimed: Folder) -> None:
    kept(claimed).unlink()
    ran = subprocess.run([*claimed.program.words, "checkpoint"], cwd=claimed.path, capture_output=True, check=False,
                         preexec_fn=lambda: resource.setrlimit(resource.RLIMIT_FSIZE, (0, 0)))
    assert ran.returncode == 8 and kept(claimed).stat().st_size == 0
    assert stated_alike(claimed)


@pytest.mark.parametrize("word", ["checkpoint", "state"])
def test_an_output_that_is_full(word: str, claimed: Folder) -> None:
    """If the output is full, the status is 7 and the checkpoint stays as it was."""
    with open("/dev/full", "wb") as full:
        ran = subprocess.run([*claimed.program.words, word], cwd=claimed.path, stdin=subprocess.DEVNULL, stdout=full, check=False)
    assert ran.returncode == 7 and kept(claimed).read_bytes() == BY_HAND


def test_a_journal_that_another_run_has(claimed: Folder) -> None:
    kept(claimed).unlink()
    with held(claimed.journal):
        for word in ("state", "checkpoint"):
            assert prints(claimed, word) == (8, "diskfault\n")
            assert not kept(claimed).exists()


def test_closed_streams(claimed: Folder) -> None:
    """No closed stream's number is taken by one of the two files."""
    before = claimed.journal.read_bytes()
    words = ["sh", "-c", 'exec "$0" checkpoint <&- >&- 2>&-', str(claimed.program.path)]
    assert subprocess.run(words, cwd=claimed.path, check=False).returncode == 7
    assert (kept(claimed).read_bytes(), claimed.journal.read_bytes()) == (BY_HAND, before)
    words = ["sh", "-c", 'exec "$0" state 2>&- <&-', str(claimed.program.path)]
    assert subprocess.run(words, cwd=claimed.path, stdout=subprocess.PIPE, check=False).returncode == 0


@pytest.mark.parametrize("seed", [1, 2, 3])
def test_drawn_books(seed: int, folder: Folder) -> None:
    """Policies of all plans and statuses; a checkpoint of each of several prefixes of the book is used with the whole book."""
    lay_drawn_book(folder, seed, 300, 4)
    before = folder.journal.read_bytes()
    assert folder.life("checkpoint").status == 0
    is_right(folder)
    for part in (0, 1, 50, 299, 300, 301, 350):
        prefix = folder.below("prefix")
        prefix.write("journal.life", before[:17 + RECORD * part] + b"\0")
        kept(prefix).unlink(missing_ok=True)
        assert prefix.life("checkpoint").status == 0
        kept(folder).write_bytes(kept(prefix).read_bytes())
        assert stated_alike(folder), part
        folder.life("checkpoint")
        is_right(folder)
    assert folder.journal.read_bytes() == before
