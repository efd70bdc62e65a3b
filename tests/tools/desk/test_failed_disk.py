"""Tests a disk that fails while `day` posts: what the log records as accepted is on the disk."""
import os
import re
import signal
import subprocess
import sys
import time
from pathlib import Path
from typing import Iterator

import pytest

from life_tools.common.formats import day_in
from life_tools.journal.file import file_of
from life_tools.rules.commands import Command
from tests.support.desks import TODAY, Desk
from tests.support.failing_medium import SYSTEMS, Medium, Mounts
from tests.support.folders import Folder
from tests.support.program import ROOT, Program

pytestmark = [pytest.mark.root, pytest.mark.needs("strace", "losetup", "unshare", "nsenter", "chattr")]

# the commit byte of the next record is the last byte of a page
RECORDS = 1134
ROW = "1,issue,2001,2024-05-01,whole,40,0,1000.00,40.00\n"
# the program, stopped after the second write of its posting, which writes the commit byte
STOPPED = """#!/bin/sh
exec strace -f -qq -o {log} -e trace=pwrite64 -e inject=pwrite64:signal=SIGSTOP:when=2 {program} "$@"
"""


@pytest.fixture
def medium(tmp_path: Path) -> Iterator[Medium]:
    with Mounts(tmp_path) as mounts:
        # a file system without a journal of its own goes on once the medium works again
        yield Medium(mounts, SYSTEMS[1])


def stopped(log: Path, day: subprocess.Popen[str]) -> int:
    while day.poll() is None:
        found = re.search(r"^(\d+) .*stopped by SIGSTOP", log.read_text() if log.exists() else "", re.M)
        if found:
            return int(found[1])
        time.sleep(0.02)
    raise AssertionError(f"the program wasn't stopped: {day.communicate()}")


def test_a_row_that_the_disk_never_received_is_posted_by_the_next_day(medium: Medium, tmp_path: Path, program: Program) -> None:
    """The program is killed after it wrote a commit byte, and the disk takes no more writes; only the journal lies on that
    disk."""
    desk = Desk(Folder(medium.files, program))
    for name in ("inbox", "log"):
        (tmp_path / "sound" / name).mkdir(parents=True)
        (medium.files / name).symlink_to(tmp_path / "sound" / name)
    day = day_in("2020-01-01")
    book = [Command("issue", number, day, plan="whole", age=30, years=0, amount=100000, premium=2000)
            for number in range(1, RECORDS + 1)]
    desk.folder.write("journal.life", file_of(book))
    assert medium.write_back()
    desk.hand_in("monday.csv", ROW)
    log, life = tmp_path / "calls", tmp_path / "life"
    life.write_text(STOPPED.format(log=log, program=program.path))
    life.chmod(0o755)
    words = medium.within(sys.executable, str(ROOT / "tools" / "life-tools"), "day", "--today", TODAY, "--life")
    with subprocess.Popen([*words, str(life)], stdout=subprocess.PIPE, stderr=subprocess.PIPE, text=True) as first:
        process = stopped(log, first)
        medium.fail()
        os.kill(process, signal.SIGKILL)
        _, said = first.communicate()
    assert first.returncode == 2 and "mount the disk anew" in said, said
    medium.heal()
    second = subprocess.run([*words, str(program.path)], capture_output=True, text=True, check=False)
    assert second.returncode == 1 and "0 of its 1 rows were posted" in second.stderr, second
    assert desk.entry(1)["accepted"] == [[1, RECORDS + 1]]
    copy = medium.copy()
    medium.unmount()
    with medium.files_on(copy) as files:
        there = Folder(files, program)
        assert there.life("state").out.splitlines()[-1] == f"count,{RECORDS + 1}"
        assert there.life("state", "2001").out.startswith(f"entry,{RECORDS + 1},issue,2024-05-01,")
