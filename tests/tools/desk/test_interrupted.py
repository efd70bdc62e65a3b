"""Tests that after an interruption the next `day` goes on: it reports what was posted, and posts the rest."""
import contextlib
import os
import re
import shlex
import signal
import time

import pytest

from tests.support.desks import Desk, started
from tests.support.folders import Folder
from tests.support.killed_days import start_day
from tests.support.program import Program

ROWS = 120


@pytest.fixture
def desk(folder: Folder) -> Desk:
    """A desk whose book is begun, with a file of many rows in the inbox."""
    desk = Desk(folder)
    desk.hand_in("first.csv", "1,issue,9000,2024-05-01,whole,40,0,1000.00,40.00\n")
    desk.day("--new", status=1)
    desk.hand_in("many.csv", "".join(f"1,issue,{number},2024-05-01,whole,40,0,1000.00,40.00\n" for number in range(1, ROWS + 1)))
    return desk


def posted(desk: Desk) -> int:
    """Returns how many records the file has begun; the last ones may not be postings yet."""
    return (desk.folder.journal.stat().st_size - 18) // 65


def until_posted(desk: Desk, count: int) -> None:
    end = time.monotonic() + 60
    while posted(desk) < count and time.monotonic() < end:
        time.sleep(0.001)


def kill(child: int) -> None:
    with contextlib.suppress(ProcessLookupError):
        os.killpg(child, signal.SIGKILL)
    os.waitpid(child, 0)
    time.sleep(0.2)


def kill_day(desk: Desk, postings: int, *words: str) -> None:
    """Starts a `day`, and kills it and its program once they have begun this many records."""
    child = start_day(desk, "said", "none", 0, words)
    until_posted(desk, postings)
    kill(child)


def test_the_rest_of_a_killed_run_is_posted(desk: Desk) -> None:
    kill_day(desk, 20)
    status = desk.day("--status", status=1)
    assert "run 2, begun" in status.err and f"{ROWS} rows of inbox/many.csv are still to be posted" in status.err
    ended = desk.day(status=1)
    found = re.search(rf"run 2 of inbox/many.csv, begun .*, was interrupted: (\d+) of its {ROWS} rows were posted as positions "
                      r"2 to (\d+), 0 were refused\nday: the other (\d+) rows are posted now\n", ended.err)
    assert found and int(found[1]) >= 17 and int(found[2]) == int(found[1]) + 1 and int(found[3]) == ROWS - int(found[1])
    assert desk.count() == ROWS + 1 and ended.out.endswith(f"-many,{ROWS},0,0,0\n")
    assert len(desk.log()) == ROWS + 1 and desk.day().err == ""


def test_a_transcript_that_is_missing_or_lost_is_no_hindrance(desk: Desk) -> None:
    """Such as after a power failure: the journal is safe, and what was printed is lost."""
    kill_day(desk, 20)
    os.remove(desk.folder.path / "log/runs/000002/transcript")
    assert "of its 120 rows were posted as positions 2 to" in desk.day(status=1).err
    assert desk.count() == ROWS + 1 and [int(row["position"]) for row in desk.log()] == list(range(1, ROWS + 2))


def test_after_a_kill_that_posted_nothing_the_whole_file_is_posted(desk: Desk) -> None:
    """Once such a file was refused as sent before; a clerk who believed this lost the file."""
    run = desk.folder.path / "log/runs/000002"
    child = start_day(desk, "said", "none", 0)
    while not (run / "run.json").exists():
        time.sleep(0.001)
    kill(child)
    done = desk.count() - 1
    ended = desk.day(status=1)
    assert re.search(rf": {done} of its {ROWS} rows were posted.*\nday: the other {ROWS - done} rows are posted now", ended.err)
    assert desk.count() == ROWS + 1


def slow(desk: Desk) -> Desk:
    """Returns the same desk with a program whose syncs take 20 ms each; a fast program would have posted everything before the
    next `day` looks."""
    program = shlex.quote(str(desk.folder.program.path))
    traced = "strace -f -qq -o /dev/null -e trace=fsync -e inject=fsync:delay_exit=20000"
    wrapper = desk.folder.write("slow", f'#!/bin/sh\n[ "$1" = run ] || exec {program} "$@"\nexec {traced} {program} "$@"\n')
    wrapper.chmod(0o755)
    return Desk(Folder(desk.folder.path, Program(wrapper, False)))


@pytest.mark.needs("strace")
def test_a_program_whose_day_was_killed_is_waited_for(desk: Desk) -> None:
    """The program goes on without `day`, and meanwhile no other `day` posts its rows."""
    child = start_day(slow(desk), "said", "none", 0)
    until_posted(desk, 10)
    os.kill(child, signal.SIGKILL)
    os.waitpid(child, 0)
    ended = desk.day(status=1)
    assert "day: waiting: the run of a `day` that was killed still goes on in this book" in ended.err
    assert f"{ROWS} of its {ROWS} rows were posted as positions 2 to {ROWS + 1}, 0 were refused" in ended.err
    assert "nothing of it is left to post" in ended.err and desk.count() == ROWS + 1


@pytest.mark.parametrize("number", [signal.SIGTERM, signal.SIGINT])
def test_a_signal_during_a_posting_is_noted_in_the_entry(desk: Desk, number: signal.Signals) -> None:
    with started(desk) as ran:
        until_posted(desk, 20)
        ran.send_signal(number)
        out, err = ran.communicate(timeout=60)
    assert ran.returncode == 130 and "Traceback" not in err, (ran.returncode, out, err)
    run = desk.entry(2)["runs"][0]
    accepted = len(desk.entry(2)["accepted"])
    assert run["status"] == -number and accepted == desk.count() - 1 and 17 <= accepted < ROWS
    assert f"run 2 was ended by signal {number}; {accepted} rows were posted, {ROWS - accepted} are left" in err
    assert out.endswith(f"-many,{accepted},0,0,{ROWS - accepted}\n")
    desk.day(status=1)
    assert desk.count() == ROWS + 1


def test_a_released_row_that_equals_another_is_found_again(desk: Desk) -> None:
    """A release has two equal part settlements, and its run is killed."""
    desk.day(status=1)
    desk.hand_in("a.csv", "1,claim,1,2024-05-20\n" + "1,settle,1,2024-05-21,1.00\n" * 60)
    desk.day(status=1)
    kill_day(desk, ROWS + 1 + 2 + 15, "--release", "3", "--by", "anna")
    desk.day(status=1)
    assert desk.count() == ROWS + 1 + 61 and len(desk.log("--policy", "1")) == 62


def test_a_row_is_not_held_with_a_later_one_of_its_policy(desk: Desk) -> None:
    """The file's last row equals its 100th, and is held before the run that is killed; after it the 100th row isn't held."""
    row = "1,issue,{},2024-05-01,whole,40,0,1000.00,40.00\n"
    desk.hand_in("many.csv", "".join(row.format(number) for number in range(1, ROWS + 1)) + row.format(100))
    kill_day(desk, 10)
    ended = desk.day(status=1)
    assert ended.out.endswith(f"-many,{ROWS},0,1,0\n") and "it equals line 100 of inbox/many.csv" in ended.err
    assert desk.count() == ROWS + 1


def test_an_interrupted_release_is_not_made_twice(desk: Desk) -> None:
    """The release is on the disk, but the entry from which its rows come doesn't record it yet."""
    desk.day(status=1)
    desk.hand_in("a.csv", "1,claim,1,2024-05-20\n" + "1,settle,1,2024-05-21,1.00\n" * 2)
    desk.day(status=1)
    held = (desk.entry_folder(3) / "entry.json").read_text()
    desk.day("--release", "3", "--by", "anna")
    (desk.entry_folder(3) / "entry.json").write_text(held)
    (desk.entry_folder(3) / "done").unlink()
    (desk.entry_folder(4) / "done").unlink()
    assert re.search("no row of log/000003.* is held", desk.day("--release", "3", status=2).err)
    assert len(desk.log("--policy", "1")) == 4


# --- claims ---

def test_a_claim_that_was_interrupted_before_the_rename_is_made_again(desk: Desk) -> None:
    entry_folder = desk.folder.path / "log/000002-2024-06-03-many"
    entry_folder.mkdir()
    assert desk.day(status=1).out.endswith(f"-many,{ROWS},0,0,0\n")
    assert not entry_folder.exists() and desk.count() == ROWS + 1


@pytest.mark.parametrize("call", range(1, 60, 3))
def test_a_claim_killed_at_any_call_is_finished(desk: Desk, call: int) -> None:
    """The kill comes before every third of the first calls of a `day`, which verifies the book and claims the file."""
    child = start_day(desk, "said", "call", call)
    os.waitpid(child, 0)
    desk.day(status=1)
    assert desk.count() == ROWS + 1 and desk.inbox == [] and len(desk.log()) == ROWS + 1
