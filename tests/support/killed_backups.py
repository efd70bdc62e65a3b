"""A trial of `life-tools backup`: it copies a book while the program runs, and both are killed at any moment.

A backup is a process that is forked off the test. It is killed after a drawn time, or before a drawn system call; the run is
killed after a drawn time, or ends by itself.
"""
import contextlib
import os
import random
import shutil
import signal
import subprocess
import time
from collections import Counter
from dataclasses import dataclass, field
from pathlib import Path

from life_tools.backup.copies import PREFIX, seal_in_copy
from life_tools.cli.entry import main
from life_tools.journal.seals import Seal
from tests.support.folders import Folder
from tests.support.killed_days import kill_before

# the most system calls of a backup that are counted, and the most seconds that a backup or a run takes
MOST_CALLS, MOST_SECONDS = 70, 0.5
MOST_ROWS = 12
PATIENCE = 60
# a book is used until this number of kills; then a new one is begun
KILLS_EACH = 100
RESTORED_EACH = 10


@dataclass
class Trial:
    """A book that grows, its second copy, and counts of what was killed."""

    top: Folder
    draw: random.Random
    kills: int = 0
    ways: Counter[str] = field(default_factory=Counter)
    book: Folder = field(init=False)
    number: int = 0
    copied: int = 0
    books: int = 0

    def begin(self) -> None:
        self.books, self.number, self.copied = self.books + 1, 0, 0
        self.book = self.top.below(f"book-{self.books}")
        self.book.write("basis.csv", "1900-01-01,q.xml,0\n")
        self.book.take("q.xml")
        self.book.post(self.rows(1))

    @property
    def copy(self) -> Path:
        return self.top.path / f"copy-{self.books}"

    def rows(self, many: int) -> str:
        self.number += many
        return "".join(f"1,issue,{number},2020-01-01,whole,30,0,1000.00,20.00\n"
                       for number in range(self.number - many + 1, self.number + 1))

    # --- what is killed ---

    def start_backup(self, calls: int) -> int:
        """Starts a backup that is killed before its system call of this number, if it makes as many; 0 means that it isn't
        killed so."""
        child = os.fork()
        if child:
            return child
        try:
            quiet = os.open(os.devnull, os.O_RDWR)
            for standard in (0, 1, 2):
                os.dup2(quiet, standard)
            if calls:
                kill_before(calls, lambda: os.kill(os.getpid(), signal.SIGKILL))
            os._exit(main(["backup", str(self.copy), "--folder", str(self.book.path)]))
        finally:
            os._exit(70)

    def start_run(self) -> subprocess.Popen[bytes]:
        script = self.book.write("script", self.rows(self.draw.randint(1, MOST_ROWS)))
        with open(script, "rb") as given:
            return subprocess.Popen([str(self.book.program.path), "run"], cwd=self.book.path, stdin=given,
                                    stdout=subprocess.DEVNULL, stderr=subprocess.DEVNULL)

    def kill_some(self) -> None:
        """Starts a run and a backup at the same time, and kills one of them, both or neither."""
        way = self.draw.choice(("backup at a call", "backup at a time", "run", "both", "neither"))
        calls = self.draw.randint(1, MOST_CALLS) if way == "backup at a call" else 0
        run = self.start_run()
        time.sleep(self.draw.uniform(0, MOST_SECONDS / 2))
        backup = self.start_backup(calls)
        ends = []
        if way in ("backup at a time", "both"):
            ends.append((self.draw.uniform(0, MOST_SECONDS), backup))
        if way in ("run", "both"):
            ends.append((self.draw.uniform(0, MOST_SECONDS), run.pid))
        begun = time.monotonic()
        for moment, process in sorted(ends):
            time.sleep(max(begun + moment - time.monotonic(), 0))
            with contextlib.suppress(ProcessLookupError):
                os.kill(process, signal.SIGKILL)
        _, status = os.waitpid(backup, 0)
        run.wait(PATIENCE)
        ended = os.waitstatus_to_exitcode(status)
        assert ended in (0, 2, -signal.SIGKILL), f"a backup ends with {ended} after {way}"
        killed = (ended < 0) + (run.returncode < 0)
        self.kills += killed
        self.ways[way if killed else "neither"] += 1

    # --- what is judged ---

    def sealed(self) -> Seal | None:
        """Returns the copy's seal, and asserts that the copy is a prefix of the journal and has no fewer postings than before."""
        seal = seal_in_copy(str(self.copy)) if self.copy.exists() else None
        if seal is None:
            assert not self.copied, "the seal is gone"
            return None
        journal = self.book.journal.read_bytes()
        assert (self.copy / PREFIX).read_bytes()[:seal.size] == journal[:seal.size], "the copy isn't a prefix of the journal"
        assert self.copied <= seal.position, f"{self.copied} postings were copied, and the copy has {seal.position}"
        self.copied = seal.position
        return seal

    def judge_restored(self, seal: Seal) -> None:
        """Asserts that the program opens the book restored from the copy, with as many postings as were sealed."""
        to = self.top.path / "restored"
        shutil.rmtree(to, ignore_errors=True)
        ended = self.book.tools("restore", str(self.copy), "--folder", str(to))
        assert (ended.status, ended.out.splitlines()[0]) == (0, f"count,{seal.position}"), ended
        opened = Folder(to, self.book.program).life("state")
        assert (opened.status, opened.out.splitlines()[-1]) == (0, f"count,{seal.position}"), opened

    def finish(self) -> None:
        """Makes a last backup, while no run uses the book, and asserts that nothing is missing."""
        count = int(self.book.life("state").out.rpartition(",")[2])
        ended = self.book.tools("backup", str(self.copy))
        assert (ended.status, ended.out.splitlines()[0]) == (0, f"count,{count}"), ended
        seal = self.sealed()
        assert seal and seal.position == count
        self.judge_restored(seal)

    def go_on(self, kills: int) -> None:
        judged = 0
        self.begin()
        while self.kills < kills:
            self.kill_some()
            seal = self.sealed()
            if seal and self.kills // RESTORED_EACH > judged:
                judged = self.kills // RESTORED_EACH
                self.judge_restored(seal)
            if self.kills >= KILLS_EACH * self.books:
                self.finish()
                self.begin()
        self.finish()
