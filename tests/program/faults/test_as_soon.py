"""Tests that each accepted line can be read at the other end of a pipe after the sync that makes its record safe and before the
next record is safe.

The program is run with each sync delayed, and the times at which its lines are read are compared with the times of its syncs. The
last line has no later sync. It must be read before the watchers' lines are written; the program writes these only after the
thread that writes for the lanes has ended, and that thread's end is delayed.
"""
import re
import subprocess
import time
from pathlib import Path

import pytest

from tests.program.runs import Desk, strace
from tests.support.program import Program

pytestmark = [pytest.mark.alone, pytest.mark.timeout(300), pytest.mark.needs("strace")]
POSTINGS = 6
# milliseconds by which a thread's end is delayed; more than a sync, since only the reader must come before it
ENDS_MS = 500
# a run takes a second or two, or doesn't end
LONGEST_SECONDS = "30"
# a record takes two syncs: of its body, and of its commit byte (which the code calls the gate)
SYNCS = 2
HOLDS = ["dd", "bs=8192", "iflag=fullblock", "status=none"]
HOLDS_LAST = ["sh", "-c", f"sed -u {POSTINGS - 1}q; exec {' '.join(HOLDS)}"]


def amiss(program: Program, folder: Path, reader: list[str], lane: int = 1) -> list[str]:
    """Runs the postings on a lane with the output sent through a reader, if there is one. Returns what is wrong with the times at
    which the lines were read."""
    desk, delay = Desk(program, folder / "desk"), 50 if program.is_proved else 200
    desk.write("script.csv", "".join(f"{lane},issue,{7001 + k},2020-01-01,whole,40,0,1000.00,{20 + k}.00\n"
                                     for k in range(POSTINGS)))
    traced = strace(desk, "-ttt", "-s", "200", "-e", "trace=fsync,fdatasync,write,exit",
                    "-e", f"inject=fsync,fdatasync:delay_exit={delay * 1000}",
                    "-e", f"inject=exit:delay_enter={ENDS_MS * 1000}", "timeout", LONGEST_SECONDS)
    run = desk.start(["run"], traced, out=subprocess.PIPE)
    last = subprocess.Popen(reader, stdin=run.stdout, stdout=subprocess.PIPE) if reader else run
    assert last.stdout
    read = [time.time() for line in iter(last.stdout.readline, b"") if b",accepted," in line]
    last.wait()
    assert run.wait() != 124, "the run doesn't return"
    assert not (last.returncode or run.returncode), "the program failed under strace"
    log = "\n".join(desk.lines_of("log"))
    began, watched = ([float(moment) for moment in re.findall(r"^\d+ +(\d+\.\d+) " + call, log, re.M)]
                      for call in (r"f(?:data)?sync\(", r'write\(1, ".*watcher,'))
    began = began[-SYNCS * POSTINGS:]
    if not watched:
        return ["no watcher's line was written, before which the last line has to be read"]
    if len(read) != POSTINGS or len(began) != SYNCS * POSTINGS:
        return [f"{len(read)} accepted lines and {len(began)} syncs of {POSTINGS} postings"]
    wrong = []
    for k, moment in enumerate(read):
        safe = began[SYNCS * k + 1] + delay / 1000
        if moment < safe:
            wrong.append(f"line {k + 1} was read {(safe - moment) * 1000:.0f} ms before its record was safe")
        # the sync of the next record's commit byte begins once the sync of its body has returned
        if k + 1 < POSTINGS and moment > began[SYNCS * (k + 1) + 1]:
            late = (moment - began[SYNCS * (k + 1) + 1]) * 1000
            wrong.append(f"line {k + 1} was read {late:.0f} ms after the next body was safe")
    if read[-1] > watched[0]:
        wrong.append(f"the last line was read {(read[-1] - watched[0]) * 1000:.0f} ms after the watchers' lines were written")
    return wrong


@pytest.mark.parametrize("lane", [1, 8])
def test_a_line_is_read_as_soon_as_its_record_is_safe(lane: int, program: Program, tmp_path: Path) -> None:
    assert amiss(program, tmp_path, [], lane) == []


@pytest.mark.parametrize("reader", [HOLDS, HOLDS_LAST], ids=["all lines", "the last line"])
def test_a_reader_that_holds_lines_back_is_found(reader: list[str], program: Program, tmp_path: Path) -> None:
    assert any(line.startswith("the last line") for line in amiss(program, tmp_path, reader))
