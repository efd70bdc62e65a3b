"""Runs the program and the other tools, one at a time in a private folder, with a time limit; runs end with the window."""
from __future__ import annotations

import os
import signal
import subprocess
import sys
import threading
from typing import Iterator, Sequence

from life_tools.common.formats import Wrong, demand
from life_tools.common.packages import ANEW

# seconds that a run may take, far more than the largest book needs
LIMIT = 300
ONE_AT_A_TIME = threading.Lock()
RUNNING: set[subprocess.Popen[bytes]] = set()
IS_CLOSED = threading.Event()


def end_all() -> None:
    """Ends all runs; no further run is started."""
    IS_CLOSED.set()
    for run in list(RUNNING):
        end(run)


def end(run: subprocess.Popen[bytes]) -> None:
    try:
        os.killpg(run.pid, signal.SIGKILL)
    except OSError:
        pass


class Unchanged:
    """A file that must not change, such as the program that a window runs; it is checked before each run."""

    def __init__(self, path: str) -> None:
        self.path = path
        self.stamp = self.look()

    def look(self) -> tuple[int, ...]:
        try:
            seen = os.stat(self.path)
        except OSError:
            return ()
        return seen.st_dev, seen.st_ino, seen.st_size, seen.st_mtime_ns

    def demand_same(self) -> None:
        demand(self.look() == self.stamp, "the program is no longer the one with which this window was opened: open another "
               "window, which checks it anew")


# files that each run needs unchanged
NEEDED: list[Unchanged] = []


def run_to(path: str, words: Sequence[str], folder: str, scratch: str, given: str | None = None) -> tuple[int, str]:
    """Runs a command in a folder with its output in a file, and returns the status and the end of its remarks."""
    environment = {name: text for name, text in os.environ.items() if name != ANEW}
    environment["TMPDIR"] = scratch
    demand(not IS_CLOSED.is_set(), "the window is being closed")
    for each in NEEDED:
        each.demand_same()
    with ONE_AT_A_TIME, open(path, "wb") as out, open(given or os.devnull, "rb") as script:
        try:
            run = subprocess.Popen(words, cwd=folder, stdin=script, stdout=out, stderr=subprocess.PIPE, env=environment,
                                   start_new_session=True)
        except OSError as error:
            raise Wrong(f"{words[0]}: {error.strerror}") from error
        RUNNING.add(run)
        try:
            remarks = run.communicate(timeout=LIMIT)[1]
        except subprocess.TimeoutExpired:
            end(run)
            run.communicate()
            raise Wrong(f"it took more than {LIMIT} seconds, and was ended") from None
        finally:
            RUNNING.discard(run)
    return run.returncode, remarks.decode("utf-8", "replace")[-4000:].strip()


def printed_by(life: Sequence[str], words: Sequence[str], folder: str, scratch: str, path: str, given: str | None = None) -> str:
    """Writes what the program prints with these arguments to a file, and returns its path; the run must end with status 0."""
    status, remarks = run_to(path, [*life, *words], folder, scratch, given)
    if status:
        with open(path, encoding="ascii", errors="replace") as file:
            said = file.readline().strip() or remarks
        raise Wrong(f"life {' '.join(words)} ended with status {status}" + (f": {said}" if said else ""))
    return path


def lines_of(path: str) -> Iterator[str]:
    with open(path, encoding="ascii", errors="replace") as file:
        for line in file:
            yield line.rstrip("\n")


def tool_words() -> list[str]:
    """Returns the arguments that begin a run of another of these tools: the same file, by the same Python."""
    return [sys.executable, "-B", os.path.abspath(sys.argv[0])]
