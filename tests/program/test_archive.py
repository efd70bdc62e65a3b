"""Tests a journal that can't be written, such as in an archive: commands that only read print what they print over a writable
file, a posting is answered `fault`, and nothing is created or changed."""
import fcntl
import os
import subprocess

import pytest

from tests.program.archives import archive
from tests.program.office import FIRST_BYTES, RECORD, example
from tests.support.folders import Folder

ISSUE = "1,issue,{},2023-06-30,endowment,0,3,1000.00,400.00\n"
READERS = ["state", "value 2023-06-30", "project 2023-06-30 5"]


def ran(words: list[str], folder: Folder, asked: str, given: str = "") -> tuple[int, str]:
    """Returns the status and the output of a command, and asserts that the folder stays as it is."""
    before = folder.files()
    ended = subprocess.run([*words, *asked.split()], cwd=folder.path, input=given.encode(), capture_output=True, check=False)
    assert folder.files() == before
    return ended.returncode, ended.stdout.decode()


@pytest.fixture
def desk(folder: Folder) -> Folder:
    made = folder.below("archive")
    made.take("basis.csv", "q.xml", "g.xml")
    made.post(example("whole-life.csv"))
    return made


@pytest.mark.parametrize("has_checkpoint", [False, True], ids=["no checkpoint", "a checkpoint"])
def test_an_archive(has_checkpoint: bool, desk: Folder) -> None:
    number = example("whole-life.transcript").split(",")[2]
    wanted = {asked: desk.life(*asked.split()) for asked in [*READERS, f"state {number}"]}
    assert all(one.status == 0 for one in wanted.values())
    if has_checkpoint:
        desk.life("checkpoint")
    else:
        (desk.path / "checkpoint.life").unlink(missing_ok=True)
    # two postings that the rules accept, one that they refuse, and a valuation
    lines = ISSUE.format(99) + "1,claim,98,2023-06-30\n1,value,2023-06-30,now,1\n" + ISSUE.format(100)
    faults = ("1,issue,99,fault\n1,claim,98,refused,unknown\n" + wanted[READERS[1]].out.replace("0,value", "1,value", 1)
              + "1,issue,100,fault\nwatcher,1,0,0\nwatcher,2,0,0\n")
    with archive(desk.path, desk.program) as words:
        for asked, one in wanted.items():
            assert ran(words, desk, asked) == (0, one.out)
        assert ran(words, desk, "run", lines) == (8, faults)
        assert ran(words, desk, "checkpoint") == (8, "diskfault\n")


def test_an_archive_that_another_process_has(desk: Folder) -> None:
    with archive(desk.path, desk.program) as words, open(desk.journal, "rb") as held:
        fcntl.flock(held, fcntl.LOCK_EX)
        assert ran(words, desk, "state") == (8, "diskfault\n")


@pytest.mark.parametrize("journal", [None, b"\0LIFEJRNL\0"], ids=["none", "a creation that was cut short"])
@pytest.mark.parametrize("asked", ["state", "run", "value 2023-06-30"])
def test_a_creation_that_an_archive_refuses(asked: str, journal: bytes | None, desk: Folder) -> None:
    desk.journal.unlink()
    if journal is not None:
        desk.write("journal.life", journal)
    with archive(desk.path, desk.program) as words:
        assert ran(words, desk, asked) == (8, "diskfault\n")


def test_a_file_that_can_be_written_in_a_folder_that_cannot(desk: Folder) -> None:
    records = (desk.journal.stat().st_size - FIRST_BYTES) // RECORD
    with archive(desk.path, desk.program) as words:
        os.chmod(desk.journal, 0o666)
        ended = subprocess.run([*words, "run"], cwd=desk.path, input=ISSUE.format(99).encode(), capture_output=True, check=False)
    assert (ended.returncode, ended.stdout.decode()) == (0, f"1,issue,99,accepted,{records + 1}\nwatcher,1,1,1\nwatcher,2,1,0\n")
