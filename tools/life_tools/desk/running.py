"""Runs the program on up to eight entries, each of which is one lane of the script.

The record of the run, with its script, is on the disk before the program starts. So whatever happens then, the next `day` knows
which rows may have been posted, and finds out which of them were.
"""
from __future__ import annotations

import hashlib
import os
import shutil
import subprocess
import time
from dataclasses import dataclass
from typing import Iterable, Sequence

from life_tools.common.formats import MOST_LANES, MOST_SCRIPT_BYTES, Wrong
from life_tools.common.locks import holder_of
from life_tools.common.program import Program as Asked
from life_tools.desk.claiming import caller, sum_of
from life_tools.desk.entries import BEGUN, REMARKS, RUN, SCRIPT, TRANSCRIPT, Entry, Log, Run
from life_tools.desk.records import now, sync_folder, write_record, write_safely
from life_tools.desk.stopping import Stopping
from life_tools.desk.waiting import LOOK_EVERY, Patience, wait_for_journal
from life_tools.journal.wholeness import shape_at
from life_tools.scripts.lines import Line, lines_in

UNBEGUN = ".new"
DISK_FAULT = 8
# how often a run is repeated if the journal cannot be used although no process is seen to use it
MOST_UNSEEN = 5
# the statuses for which the script or its basis was refused and nothing was posted
BAD_SCRIPT, BAD_BASIS = REFUSED_STATUSES = (3, 4)
PACKAGE = os.path.dirname(os.path.dirname(os.path.abspath(__file__)))


def posted_row(line: Line, lane: int) -> str:
    """Returns a row as it is posted: without quotes, and with the lane of its entry."""
    return ",".join([str(lane), *line.row.fields[1:]])


def keys_of(lines: Iterable[Line]) -> set[int]:
    """Returns what two lanes of a run must not share, because it is not known which lane is answered first.

    These are the policies' numbers, and 0 if a row upgrades the journal or needs it to be upgraded.
    """
    found = set()
    for line in lines:
        if line.command:
            found.add(0 if line.kind in ("upgrade", "paidup") else line.command.number)
            found.add(line.command.number)
    return found


def is_alone(lines: Iterable[Line]) -> bool:
    """Returns whether any row is a valuation or a trim.

    Such an entry gets a run of its own, because a refused basis would refuse the whole run.
    """
    return any(line.command is None for line in lines)


def chosen(entries: Sequence[Entry]) -> list[Entry]:
    """Returns the entries of the next run, in their order: none of them shares a policy with an entry before it."""
    found: list[Entry] = []
    taken: set[int] = set()
    size = 0
    for entry in entries:
        lines = entry.left
        keys, bytes_of_it = keys_of(lines), sum(len(line.row.text) + 1 for line in lines)
        fits = not keys & taken and len(found) < MOST_LANES and size + bytes_of_it <= MOST_SCRIPT_BYTES
        if found and is_alone(lines):
            break
        if found and not fits:
            taken |= keys
            continue
        found.append(entry)
        taken |= keys
        size += bytes_of_it
        if is_alone(lines):
            break
    return found


# --- the record of a run ---

def tools_sum() -> str:
    """Returns the SHA-256 of the tools: of their single file if they are installed, and otherwise of the files of their
    package."""
    if os.path.isfile(os.path.dirname(PACKAGE)):
        return sum_of(os.path.dirname(PACKAGE))
    found = hashlib.sha256()
    for folder, below, names in os.walk(PACKAGE):
        below.sort()
        for name in sorted(name for name in names if name.endswith(".py")):
            found.update(sum_of(os.path.join(folder, name)).encode())
    return found.hexdigest()


def count_of(journal: str) -> int:
    return shape_at(journal).count if os.path.exists(journal) else 0


def new_run(log: Log, entries: Sequence[Entry], before: int, program: Asked) -> Run:
    """Makes the record of a run together with its script: either both are there, or neither."""
    numbers = log.run_numbers()
    number = numbers[-1] + 1 if numbers else 1
    part = os.path.join(log.runs, UNBEGUN)
    shutil.rmtree(part, ignore_errors=True)
    os.makedirs(part)
    lanes = [(lane, entry, entry.left) for lane, entry in enumerate(entries, 1)]
    script = "".join(f"{posted_row(line, lane)}\n" for lane, _, lines in lanes for line in lines).encode("ascii")
    write_safely(os.path.join(part, SCRIPT), script)
    record = {"state": BEGUN, "before": before, "after": None, "status": None, "begun": now(), "ended": None,
              "caller": caller(),
              "lanes": [{"lane": lane, "entry": entry.name, "rows": [line.row.number for line in lines]}
                        for lane, entry, lines in lanes],
              "sha256": {"script": hashlib.sha256(script).hexdigest(), "program": program.sum, "tools": tools_sum()},
              "unproved": program.why or None}
    write_record(os.path.join(part, RUN), record)
    folder = os.path.join(log.runs, f"{number:06}")
    os.rename(part, folder)
    sync_folder(log.runs)
    return Run(folder, {"format": 1, **record})


def rows_of(run: Run) -> dict[int, tuple[str, int]]:
    """Returns for each row number of a run's script the name of its entry and its row number there."""
    found, row = {}, 0
    for lane in run.record["lanes"]:
        for each in lane["rows"]:
            row += 1
            found[row] = lane["entry"], each
    return found


def script_of(run: Run) -> list[Line]:
    with open(run.path(SCRIPT), "rb") as file:
        return lines_in(file.read(), run.path(SCRIPT))


# --- the program ---

@dataclass(frozen=True)
class Program:
    """How the program is started: which program, the folder, the basis file, and the lock that it inherits."""

    asked: Asked
    folder: str
    basis: str
    lock: int

    def run(self, run: Run, stop: Stopping) -> int:
        """Runs the script. Returns the program's status, or minus the signal that ended it."""
        words = [*self.asked.words, "run", *(["--basis", self.basis] if self.basis != "basis.csv" else [])]
        with open(run.path(SCRIPT), "rb") as script, open(run.path(TRANSCRIPT), "wb") as text, \
                open(run.path(REMARKS), "wb") as remarks:
            try:
                # SIGXFSZ stays ignored, so that a write past a limit on file sizes fails like any other write
                ran = subprocess.Popen(words, cwd=self.folder, stdin=script, stdout=text, stderr=remarks,
                                       pass_fds=(self.lock,), restore_signals=False)
            except OSError as error:
                raise Wrong(f"{words[0]} can't be run: {error.strerror}; the files stay in log/, and the next `day` posts "
                            "them") from error
            stop.began(ran)
            status = ran.wait()
            os.fsync(text.fileno())
        sync_folder(run.folder)
        return status


def run_when_free(program: Program, run: Run, journal: str, patience: Patience, stop: Stopping) -> int:
    """Runs the program, and runs it again if another run used the journal, because then it posted nothing."""
    unseen, until = 0, time.monotonic() + patience.seconds
    while True:
        status = program.run(run, stop)
        is_over = stop.caught or time.monotonic() >= until
        if is_over or status != DISK_FAULT or run.transcript() != "diskfault\n":
            return status
        # the process that used it may have ended; a failed disk has no holder either, so the number of attempts is limited
        unseen = 0 if holder_of(journal) else unseen + 1
        if unseen > MOST_UNSEEN:
            return status
        stop.is_posting = False
        try:
            wait_for_journal(journal, patience)
            time.sleep(LOOK_EVERY)
        finally:
            stop.is_posting = True


def refused_rows(lines: Iterable[Line], answer: str) -> list[int]:
    """Returns the rows for which a whole script was refused: the row that is not a line, or the rows that need the basis."""
    words = answer.split(",")
    if words[0] == "badscript":
        return [line.row.number for line in lines if words[1:2] == [str(line.row.number)]]
    return [line.row.number for line in lines if line.kind == "value"]
