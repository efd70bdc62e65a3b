"""Runs the program in a folder that the test lays out: a journal, a checkpoint, a script, and a command such as strace before
the program's own arguments."""
import shutil
import signal
import subprocess
from collections.abc import Iterator, Sequence
from contextlib import contextmanager
from dataclasses import dataclass
from functools import cached_property
from pathlib import Path
from typing import Any

from life_tools.journal.file import read_journal
from life_tools.reserves.exact import Known
from life_tools.tables.basis import BasisRow, read_basis
from tests.support.folders import Folder
from tests.support.program import Program

JOURNAL, KEPT = "journal.life", "checkpoint.life"
LONGEST_SECONDS = 60


@dataclass
class Ended:
    """How a run ended: its status, negative if a signal ended it; its output; its standard error; and the journal afterwards."""

    status: int
    text: str
    complaints: str
    after: bytes


class Desk(Folder):
    """A new folder with the basis of the examples, in which a program runs. Its journal is used again by the next run unless
    `lay` replaces it; `before` and `script` are what `lay` put there."""

    # exact values that were computed, by what they depend on
    known: Known = {}

    def __init__(self, program: Program, path: Path) -> None:
        shutil.rmtree(path, ignore_errors=True)
        path.mkdir(parents=True)
        super().__init__(path.resolve(), program)
        self.take("basis.csv", "q.xml", "g.xml")
        self.lay(b"")

    @cached_property
    def basis(self) -> list[BasisRow]:
        return read_basis(str(self.path / "basis.csv"))

    def bytes_of(self, name: str = JOURNAL) -> bytes:
        """Returns the content of a file, which is empty if there is no file."""
        file = self.path / name
        return file.read_bytes() if file.exists() else b""

    def lines_of(self, name: str) -> list[str]:
        return self.bytes_of(name).decode("utf-8", "replace").splitlines()

    def lay(self, journal: bytes, script: bytes = b"", kept: bytes = b"") -> None:
        """Puts this journal, this checkpoint and this script into the folder; an empty journal or checkpoint means that there
        is none."""
        self.before, self.script = journal, script
        for name, data in ((JOURNAL, journal), (KEPT, kept)):
            (self.path / name).unlink(missing_ok=True)
            if data:
                self.write(name, data)
        self.write("script.csv", script)

    def start(self, words: Sequence[str], before: Sequence[str] = (), out: int | None = None,
              given: int | None = None) -> subprocess.Popen[bytes]:
        """Starts the program with the script as its input and a file as its output, unless other streams are given; `before` is
        a command that runs it, such as strace."""
        with open(self.path / "script.csv", "rb") as script, open(self.path / "out", "wb") as text, \
                open(self.path / "err", "wb") as err:
            return subprocess.Popen([*before, str(self.program.path), *words], cwd=self.path, bufsize=0, stderr=err,
                                    stdin=script if given is None else given, stdout=text if out is None else out,
                                    preexec_fn=default_signals)

    def ended(self, run: subprocess.Popen[bytes], text: bytes | None = None) -> Ended:
        """Waits for a run, whose output is this text or in the file."""
        status = run.wait(LONGEST_SECONDS)
        complaints = "\n".join(line for line in self.lines_of("err") if not line.startswith("strace: Requested path"))
        text = self.bytes_of("out") if text is None else text
        return Ended(status, text.decode("ascii", "replace"), complaints, self.bytes_of())

    def run(self, words: Sequence[str], before: Sequence[str] = ()) -> Ended:
        return self.ended(self.start(words, before))

    def judge_reopening(self) -> None:
        """Asserts that what is left opens to exactly its records, that one more can be posted, and that `state` with the
        checkpoint prints what it prints without it."""
        count = len(read_journal(self.bytes_of()).commands)
        self.write("script.csv", "1,issue,4294967295,2020-01-01,endowment,0,3,1000.00,400.00\n")
        again = self.run(["run"])
        wanted = f"1,issue,4294967295,accepted,{count + 1}\nwatcher,1,1,1\nwatcher,2,1,0\n"
        assert (again.status, again.text) == (0, wanted), f"reopened, it ended with {again.status}: {again.text[:200]!r}"
        assert len(read_journal(again.after).commands) == count + 1, "the record after reopening isn't there"
        if (self.path / KEPT).exists():
            by_it = self.run(["state"])
            (self.path / KEPT).unlink()
            assert (by_it.status, by_it.text) == (0, self.run(["state"]).text), f"by the checkpoint: {by_it.text[:200]!r}"


def default_signals() -> None:
    """Makes the program heed signals that the shell of the test ignores."""
    for number in (signal.SIGINT, signal.SIGTERM, signal.SIGPIPE):
        signal.signal(number, signal.SIG_DFL)


@contextmanager
def case(what: object) -> Iterator[None]:
    """Names the case that fails; a folder of a desk is named, too."""
    try:
        yield
    except Exception as wrong:
        raise AssertionError(f"{what}: {wrong}") from wrong


def strace(desk: Desk, *words: Any) -> list[str]:
    """Returns the command that traces a program and its threads, and writes the record to the file `log`."""
    return ["strace", "-f", "-qq", "-o", str(desk.path / "log"), *map(str, words)]
