"""A folder of a book in a test: its files, runs of the program and the tools in it, and checks of what a refusal leaves."""
from __future__ import annotations

import fcntl
import os
import re
import shlex
import shutil
import subprocess
from contextlib import contextmanager
from dataclasses import dataclass, field
from pathlib import Path
from typing import BinaryIO, Callable, Iterator

from tests.support.program import ROOT, Program
from tests.support.tools import Ended, nothing, run_tool

EXAMPLES = ROOT / "examples"
# the most lines of a refusal, unless it shows a usage
MOST_LINES = 3
# the only output that a tool may print with a refusal: the line by which the program refuses
REFUSAL = re.compile(r"(usage|bad(script|basis|journal),.*)\n")


@dataclass
class Folder:
    """A folder, empty at first; the program under test; and what the process of a tool does first, see `run_tool`."""

    path: Path
    program: Program
    first: Callable[[], object] = field(default=nothing, repr=False)

    @property
    def journal(self) -> Path:
        return self.path / "journal.life"

    def write(self, name: str, content: str | bytes) -> Path:
        file = self.path / name
        file.parent.mkdir(parents=True, exist_ok=True)
        file.write_bytes(content.encode() if isinstance(content, str) else content)
        return file

    def read(self, name: str) -> str:
        return (self.path / name).read_text(encoding="utf-8")

    def take(self, *names: str) -> None:
        for name in names:
            shutil.copy(EXAMPLES / name, self.path / name)

    def below(self, name: str) -> Folder:
        (self.path / name).mkdir(exist_ok=True)
        return Folder(self.path / name, self.program)

    def life(self, *words: str, given: str | bytes = b"") -> Ended:
        given = given.encode() if isinstance(given, str) else given
        ran = subprocess.run([*self.program.words, *words], cwd=self.path, input=given, capture_output=True, check=False)
        return Ended(ran.returncode, ran.stdout.decode("ascii", "replace"), ran.stderr.decode("utf-8", "replace"))

    def count(self) -> int:
        """Returns the number of commands in the journal: its records up to the first commit byte that isn't 1."""
        data, count = self.journal.read_bytes(), 0
        while data[17 + 65 * count] == 1:
            count += 1
        return count

    def post(self, script: str) -> str:
        """Runs a script, asserts that the run ends with status 0, and returns its transcript."""
        ran = self.life("run", given=script)
        assert ran.status == 0, ran
        return ran.out

    def stand_in(self, text: str) -> Path:
        """Writes a shell script that stands in for the program, which the script can call as $life."""
        script = self.write("stand-in", f"#!/bin/sh\nlife={shlex.quote(str(self.program.path))}\n{text}\n")
        script.chmod(0o755)
        return script

    def damage(self, record: int, value: int = 0) -> None:
        """Sets the commit byte of a record, counted from 0."""
        with open(self.journal, "r+b") as file:
            file.seek(17 + 65 * record)
            file.write(bytes([value]))

    @contextmanager
    def in_use(self) -> Iterator[BinaryIO]:
        """Locks the journal, as a run does."""
        with open(self.journal, "rb") as file:
            fcntl.flock(file, fcntl.LOCK_EX)
            yield file

    def tools(self, *words: str, given: str | bytes = b"", program: Path | None = None) -> Ended:
        """Runs a command of life-tools with its arguments, over the program under test or over another one."""
        given = given.encode() if isinstance(given, str) else given
        return run_tool(words, self.path, {"LIFE_PROGRAM": str(program or self.program.path)}, given, self.first)

    def printed(self, *words: str, given: str | bytes = b"", status: int = 0) -> str:
        """Runs a tool, asserts that it ends with this status and without a traceback, and returns its output."""
        ended = self.tools(*words, given=given)
        assert ended.status == status and "Traceback" not in ended.err, ended
        return ended.out

    def command(self, *words: str) -> str:
        """Runs another command here, asserts that it ends with status 0, and returns its output."""
        ran = subprocess.run(words, cwd=self.path, capture_output=True, text=True, check=False)
        assert ran.returncode == 0, (words, ran.stderr)
        return ran.stdout

    def finds(self, *words: str, says: str, given: str | bytes = b"") -> Ended:
        """Runs a tool, and asserts that it ends with status 1 and without a traceback, and that the pattern matches a line of
        its standard error."""
        ended = self.tools(*words, given=given)
        assert ended.status == 1 and re.search(says, ended.err, re.M) and "Traceback" not in ended.err, ended
        return ended

    def files(self) -> dict[str, tuple[int, int, int]]:
        """Returns each file and folder below this one, with the figures that change if it is written or made anew."""
        found = {}
        for top, folders, names in os.walk(self.path):
            for name in (*folders, *names):
                path = os.path.join(top, name)
                stat = os.lstat(path)
                found[os.path.relpath(path, self.path)] = stat.st_ino, stat.st_size, stat.st_mtime_ns
        return found

    def refused(self, *words: str, says: str, status: int = 2, given: str | bytes = b"") -> Ended:
        """Runs a tool, and asserts that it ends with this status and a message of a few lines that the pattern matches; that
        it prints nothing except the line by which the program refuses; and that it writes nothing."""
        before = self.files()
        ended = self.tools(*words, given=given)
        assert ended.status == status, ended
        assert re.search(says, ended.err, re.M), f"{says!r} isn't in: {ended.err}"
        assert "Traceback" not in ended.err, ended.err
        assert ended.err.startswith("usage: ") or len(ended.err.splitlines()) <= MOST_LINES, ended.err
        assert not ended.out or REFUSAL.fullmatch(ended.out), ended.out
        after = self.files()
        assert after == before, f"it changed {sorted({name for name, _ in before.items() ^ after.items()})}"
        return ended
