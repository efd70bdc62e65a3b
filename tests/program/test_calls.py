"""Checks the calls that the program makes on real files, recorded by strace: in order and number, exactly those that the journal
and its checkpoint allow.

A sync that is left out or made too late is found here and by no proof; likewise a write to a file that can only be read, and a
line that is written before its record is safe.
"""
import subprocess
from pathlib import Path

import pytest

from life_tools.journal.file import file_of
from tests.program.archives import archive
from tests.program.calls_judge import BOTH, BOTH_ENDED, ENDED, HELD, OPENED, creation, judge, judge_run, postings, saving
from tests.program.faults.scenes import many_policies
from tests.program.office import example
from tests.support.folders import Folder

pytestmark = pytest.mark.needs("strace")
TRACED = "openat,flock,pread64,read,pwrite64,write,fsync,fdatasync,ftruncate,close,dup,dup2"
THREE = "".join(example("first-issues.csv").splitlines(keepends=True)[:3])


def record(folder: Path, program: list[str], *words: str, given: str = "", traced: str = TRACED) -> tuple[Path, str]:
    """Returns strace's record of a run, which must end with status 0, and what the run prints."""
    made = folder.parent / "record"
    ran = subprocess.run(["strace", "-f", "-s", "400", "-xx", "-o", made, "-e", f"trace={traced}", *program, *words], cwd=folder,
                         input=given.encode(), capture_output=True, check=False)
    assert ran.returncode == 0, ran
    return made, ran.stdout.decode()


@pytest.fixture
def desk(folder: Folder) -> Folder:
    return folder.below("desk")


def test_a_first_run(desk: Folder) -> None:
    made, out = record(desk.path, [str(desk.program.path)], "run", given=THREE)
    journal = desk.journal.read_bytes()
    judge_run(made, HELD + OPENED + creation() + postings(journal, 3) + ENDED, 3)
    desk.journal.unlink()
    assert desk.post(THREE) == out


@pytest.fixture
def posted(desk: Folder) -> Folder:
    desk.post(THREE)
    return desk


def test_a_run_that_accepts_nothing(posted: Folder) -> None:
    judge_run(record(posted.path, [str(posted.program.path)], "run", given=THREE)[0], HELD + OPENED + ENDED, 0)


def test_states_and_checkpoints(posted: Folder) -> None:
    """Over an empty file and over a checkpoint; a run doesn't touch the checkpoint."""
    program = [str(posted.program.path)]
    judge(record(posted.path, program, "state")[0], BOTH + BOTH_ENDED)
    (posted.path / "checkpoint.life").unlink()
    for words in ("checkpoint", "state", "checkpoint"):
        made = record(posted.path, program, words)[0]
        saved = saving((posted.path / "checkpoint.life").read_bytes()) if words == "checkpoint" else []
        judge(made, BOTH + saved + BOTH_ENDED)
    judge_run(record(posted.path, program, "run", given=THREE)[0], HELD + OPENED + ENDED, 0)


@pytest.mark.parametrize("words", ["state", "run"])
def test_an_archive_that_nobody_may_write(words: str, posted: Folder) -> None:
    with archive(posted.path, posted.program) as program:
        made = record(posted.path, program, words, given=THREE if words == "run" else "")[0]
    if words == "run":
        judge_run(made, HELD + ["refused journal"] + OPENED + ENDED, 0)
    else:
        judge(made, HELD + ["refused journal"] + OPENED + ["refused checkpoint"] * 2 + ENDED)


RECORDS = 20_000
JOURNAL_BYTES, CHECKPOINT_BYTES = 18 + 65 * RECORDS, 960_064


@pytest.fixture
def long_journal(desk: Folder) -> Folder:
    desk.write("journal.life", bytes(file_of(many_policies(RECORDS).commands)))
    return desk


def many_calls(folder: Folder, call: str, *words: str) -> tuple[int, str]:
    made, out = record(folder.path, [str(folder.program.path)], *words, traced=call)
    return made.read_text(encoding="ascii").count(f"{call}("), out


def test_a_long_journal_is_read_by_pieces(long_journal: Folder) -> None:
    """A journal is read in large pieces, twice: for its commit bytes and for its bodies. The state of one policy reads it
    twice more."""
    reads, out = many_calls(long_journal, "pread64", "state")
    assert reads <= JOURNAL_BYTES // 32768 + 40 and out.endswith(f"count,{RECORDS}\n")
    reads, out = many_calls(long_journal, "pread64", "state", "7")
    assert reads <= 2 * (JOURNAL_BYTES // 32768 + 40) and out.count("\n") == 2


def test_a_long_checkpoint_is_written_and_read_by_pieces(long_journal: Folder) -> None:
    """A checkpoint is written and read in large pieces; `state` with it reads all commit bytes and no body."""
    writes, _ = many_calls(long_journal, "pwrite64", "checkpoint")
    assert (long_journal.path / "checkpoint.life").stat().st_size == CHECKPOINT_BYTES and writes <= CHECKPOINT_BYTES // 65536 + 4
    reads, out = many_calls(long_journal, "pread64", "state")
    assert reads <= JOURNAL_BYTES // 65536 + CHECKPOINT_BYTES // 65536 + 20 and out.endswith(f"count,{RECORDS}\n")
