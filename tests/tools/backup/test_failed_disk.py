"""Tests a backup after a failure of the disk: it copies what the disk has, whatever the system keeps in memory."""
import os
from pathlib import Path
from typing import Iterator

import pytest

from life_tools.common.formats import day_in
from life_tools.journal.file import OPEN, file_of, gate_of
from life_tools.rules.commands import Command
from tests.support.failing_medium import SYSTEMS, Medium, Mounts
from tests.support.folders import Folder
from tests.support.program import Program

pytestmark = [pytest.mark.root, pytest.mark.needs("losetup", "unshare", "nsenter", "chattr")]

# the last commit byte is the last byte of a page
RECORDS = 1135


@pytest.fixture
def medium(tmp_path: Path) -> Iterator[Medium]:
    with Mounts(tmp_path) as mounts:
        yield Medium(mounts, SYSTEMS[0])


def test_a_posting_that_the_disk_never_received_is_not_copied(medium: Medium, tmp_path: Path, program: Program) -> None:
    """The last commit byte was written, but its sync failed, and the failure was reported to another program; so the byte
    exists only in memory."""
    day = day_in("2020-01-01")
    whole = file_of([Command("issue", number, day, plan="whole", age=30, years=0, amount=100000, premium=2000)
                     for number in range(1, RECORDS + 1)])
    last = gate_of(RECORDS - 1)
    book = Folder(medium.files, program)
    book.write("journal.life", whole[:last] + bytes(1) + whole[last + 1:])
    assert medium.write_back()
    medium.fail()
    with open(book.journal, "r+b", buffering=0) as file, pytest.raises(OSError):
        file.seek(last)
        file.write(bytes([OPEN]))
        os.fsync(file.fileno())
    medium.heal()
    assert book.journal.read_bytes() == whole, "the system keeps nothing of it in memory"
    ended = book.tools("backup", str(tmp_path / "copy"))
    assert (ended.status, ended.out.splitlines()[0]) == (0, f"count,{RECORDS - 1}"), ended
    assert (tmp_path / "copy" / "journal.prefix").read_bytes() == whole[:last]
