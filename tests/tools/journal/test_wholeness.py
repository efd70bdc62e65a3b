"""Tests that a damaged byte isn't reported as a shorter book: commit bytes at the start, in the middle and at the end, with
and without a checkpoint, a log and a seal, by each tool that reads a book. Damage is distinguished from what a crash leaves if
a greater count was recorded somewhere. The lengths and counts are those of docs/reference/journal.md, worked out by hand."""
import json
import os
import re

import pytest

from tests.support.folders import EXAMPLES, Folder
from tests.support.tools import Ended

EMPTY = b"\x01LIFEJRNL\x00\x01\x00\x40\x00\x00\x00\x00\x00"
LENGTH = 17 + 65 * 40 + 1
WHOLE = f"count,40\nlength,{LENGTH}\nwhole\n"
UNDECIDED = f"count,39\nlength,{LENGTH}\nundecided\n"


def commit_byte(record: int) -> int:
    return 17 + 65 * record


def ends(folder: Folder, status: int, says: str, *words: str) -> Ended:
    """Asserts that a tool ends with this status and says this on standard error, or nothing if it is empty; returns how it
    ended."""
    ended = folder.tools(*words)
    assert ended.status == status and "Traceback" not in ended.err, ended
    assert re.search(says, ended.err, re.M) if says else not ended.err, ended
    return ended


@pytest.fixture
def book(examples_basis: Folder) -> Folder:
    """A book of 40 commands, its script and transcript, and a list of this book."""
    book = examples_basis
    book.write("script", book.life("generate", "1", "20", "2").out)
    book.write("transcript", book.post(book.read("script")))
    book.write("books.csv", "main,.,basis.csv\n")
    assert book.journal.stat().st_size == LENGTH
    return book


def demand_damaged(book: Folder, says: str, *words: str) -> None:
    """Asserts that `verify` reports that commands are gone, and that a list of books values nothing of the book."""
    assert ends(book, 1, says, "verify", *words).out.endswith("damaged\n")
    rows = ends(book, 1, says, "books", "books.csv", "state").out.splitlines()
    assert rows[0].startswith("main,failed,1,") and rows[1:] == ["all,nothing,0,1"], rows


def test_a_whole_book(book: Folder) -> None:
    assert ends(book, 0, "", "verify").out == WHOLE
    book.write("sealed", book.printed("seal", "--no-basis"))
    assert ends(book, 0, "", "verify", "--seal", "sealed").out == WHOLE.replace("whole", "noted,sealed,40\nwhole")
    ends(book, 0, "", "read", "journal.life")


@pytest.mark.parametrize("record", [0, 25, 38])
def test_a_closed_commit_byte_before_the_last(book: Folder, record: int) -> None:
    book.damage(record)
    # the program itself takes the journal to end there, as its format says
    assert book.life("state").out.endswith(f"count,{record}\n")
    after = LENGTH - 18 - 65 * record
    demand_damaged(book, f"{after} bytes follow byte {commit_byte(record)}, the commit byte of record {record}, which isn't 1")


def test_each_value_but_1_closes(book: Folder) -> None:
    book.damage(25, 0o201)
    demand_damaged(book, "which isn't 1")


# --- the last commit byte, which may also be 0 after a crash ---


@pytest.fixture
def ended(book: Folder) -> Folder:
    """The book after its last commit byte was set to 0, which a crash may leave, too."""
    book.damage(39)
    return book


def test_of_the_last_nobody_has_noted_anything(ended: Folder) -> None:
    says = (f"65 bytes follow byte {commit_byte(39)}, the commit byte of record 39, as after a crash, or as with a damaged "
            "last commit byte")
    assert ends(ended, 1, says, "verify").out == UNDECIDED
    assert ends(ended, 1, "is undecided", "read", "journal.life").out.endswith("count,39\n")
    valued = ends(ended, 1, "^main: .*65 bytes follow byte", "books", "books.csv", "value", "2010-12-31").out
    assert re.search(r"^all,total,.*,1,1\Z", valued.rstrip("\n"), re.M)
    assert ends(ended, 1, "65 bytes follow byte", "books", "books.csv", "position-on", "2199-12-31").out == "main,39\n"
    headroom = ends(ended, 1, "65 bytes follow byte", "books", "headroom", "books.csv", "--today", "2020-01-01").out
    assert headroom.splitlines()[1].startswith("main,39,")


def test_one_byte_more_after_the_last_shows(ended: Folder) -> None:
    ended.journal.write_bytes(ended.journal.read_bytes() + b"x")
    demand_damaged(ended, "66 bytes follow byte")


def test_a_checkpoint_of_more_commands(book: Folder) -> None:
    assert book.life("checkpoint").status == 0
    assert ends(book, 0, "", "verify").out == WHOLE.replace("whole", "noted,checkpoint.life,40\nwhole")
    book.damage(39)
    demand_damaged(book, "journal.life has 39 commands, and had 40 by .*checkpoint.life")
    assert not ends(book, 1, "had 40 by checkpoint.life", "read", "journal.life").out


@pytest.mark.parametrize("checkpoint", [b"", b"\x00"], ids=["empty", "closed"])
def test_what_is_no_checkpoint_notes_nothing(ended: Folder, checkpoint: bytes) -> None:
    ended.write("checkpoint.life", checkpoint)
    assert ends(ended, 1, "is undecided", "verify").out == UNDECIDED


def test_of_another_file_only_what_is_named_is_asked(book: Folder) -> None:
    book.life("checkpoint")
    book.damage(39)
    book.write("copy.life", book.journal.read_bytes())
    ends(book, 1, "is undecided", "verify", "copy.life")
    ends(book, 1, "had 40 by checkpoint.life", "verify", "copy.life", "--checkpoint", "checkpoint.life")


def noted(book: Folder, run: str, before: int, after: int | None) -> None:
    book.write(f"log/runs/{run}/run.json", json.dumps({"before": before, "after": after}))


def test_a_log_of_more_commands_and_its_newest_run(ended: Folder) -> None:
    (ended.path / "log" / "runs" / ".new").mkdir(parents=True)
    noted(ended, "000001", 0, 7)
    noted(ended, "000009", 0, 40)
    demand_damaged(ended, "journal.life has 39 commands, and had 40 by .*log")
    # the run with the highest number is the newest
    noted(ended, "000010", 0, 39)
    ends(ended, 1, "is undecided", "verify")


def test_a_run_that_was_interrupted_notes_what_it_printed(ended: Folder) -> None:
    noted(ended, "000010", 0, None)
    transcript = ended.read("transcript")
    ended.write("log/runs/000010/transcript", transcript)
    demand_damaged(ended, "had 40 by .*log")
    ended.write("log/runs/000010/transcript", "".join(line for line in transcript.splitlines(keepends=True)
                                                      if not line.endswith(",accepted,40\n")))
    ends(ended, 1, "is undecided", "verify")
    noted(ended, "000010", 40, None)
    ends(ended, 1, "had 40 by .*log", "verify")


def test_a_log_that_is_none(ended: Folder) -> None:
    ended.write("log/runs/000010/run.json", "nonsense")
    ends(ended, 2, "log/runs/000010/run.json is not the record of a run", "verify")


# --- seals ---


def test_a_seal_of_more_commands(book: Folder) -> None:
    book.write("sealed", book.printed("seal", "--no-basis"))
    book.damage(39)
    says = "journal.life has 39 commands, and had 40 by sealed"
    assert ends(book, 1, says, "verify", "--seal", "sealed").out.endswith("damaged\n")


def test_an_amount_that_was_changed_is_known_by_a_seal_alone(book: Folder) -> None:
    book.write("sealed", book.printed("seal", "--no-basis"))
    # the last byte of the amount of record 3: its body begins after its commit byte, and the amount ends with byte 19 of the body
    data = bytearray(book.journal.read_bytes())
    data[commit_byte(3) + 1 + 19] = 0o377
    book.journal.write_bytes(data)
    ends(book, 0, "", "verify")
    says = r"the first 17 \+ 65 \* 40 bytes aren't those that were sealed, by sealed"
    assert ends(book, 1, says, "verify", "--seal", "sealed").out.endswith("damaged\n")


def test_a_journal_that_has_grown_is_still_that_of_its_seal(book: Folder) -> None:
    book.write("sealed", book.printed("seal", "--no-basis"))
    book.post("1,issue,99,2024-01-01,term,30,10,1000.00,10.00\n")
    ends(book, 0, "", "verify", "--seal", "sealed")


# --- what can't be verified ---


def test_a_journal_in_use(book: Folder) -> None:
    with book.in_use():
        ends(book, 2, f"journal.life is in use by process {os.getpid()}", "verify")


@pytest.mark.parametrize(("data", "says"), [(None, "there is no journal.life"), (b"", "is empty"),
                                            ((EXAMPLES / "q.xml").read_bytes(), "badjournal,notajournal")],
                         ids=["none", "empty", "a table"])
def test_what_is_no_journal(book: Folder, data: bytes | None, says: str) -> None:
    book.journal.unlink()
    if data is not None:
        book.write("journal.life", data)
    # an empty file is an unfinished creation, and not a book yet
    ends(book, 1 if data == b"" else 2, says, "verify")


def test_a_journal_cut_short(book: Folder) -> None:
    book.journal.write_bytes(book.journal.read_bytes()[:100])
    assert not ends(book, 2, "badjournal,badrecord,1", "verify").out


def test_an_empty_book_beside_a_checkpoint(book: Folder) -> None:
    book.life("checkpoint")
    book.journal.write_bytes(EMPTY)
    ends(book, 1, "journal.life has 0 commands, and had 40 by checkpoint.life", "verify")
    (book.path / "checkpoint.life").unlink()
    ends(book, 0, "", "verify")


@pytest.mark.parametrize("option", ["--seal", "--checkpoint", "--log"])
def test_what_is_named_and_isnt_there(book: Folder, option: str) -> None:
    ends(book, 2, "No such file", "verify", option, "nowhere")
