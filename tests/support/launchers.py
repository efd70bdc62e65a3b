"""The launcher of a clone as somebody runs it: next to other launchers, on a terminal, with a book in use, or stopped by
Ctrl-C."""
import fcntl
import os
import pty
import signal
import subprocess
import time
from contextlib import contextmanager, suppress
from pathlib import Path
from typing import Callable, Iterator, Mapping, Sequence

from tests.support.tools import Ended

PATIENCE = 60
# a shell may lose a signal that comes while it starts a command; so another one is sent after this time
SECONDS_TO_ANOTHER_SIGNAL = 10
ENDS_BY_CTRL_C = ("env", "--default-signal=INT")


def issue(number: int) -> str:
    return f"1,issue,{number},2020-01-01,endowment,0,3,1000.00,400.00\n"


def await_that(holds: Callable[[], object], seconds: float = PATIENCE) -> None:
    """Waits until a condition holds, or until the time is over; in the latter case the caller's next assertion fails."""
    until = time.monotonic() + seconds
    while not holds() and time.monotonic() < until:
        time.sleep(0.05)


class Begun:
    """A command that runs in a folder. Its output goes to files in the same folder, which may be read at any time."""

    def __init__(self, words: Sequence[str | Path], folder: Path, name: str = "begun", env: Mapping[str, str] | None = None,
                 given: int = subprocess.DEVNULL) -> None:
        self.out, self.err = folder / f"{name}.out", folder / f"{name}.err"
        with open(self.out, "wb") as out, open(self.err, "wb") as err:
            self.process = subprocess.Popen([*map(str, words)], cwd=folder, stdin=given, stdout=out, stderr=err,
                                            env={**os.environ, **(env or {})})

    def says(self, text: str) -> bool:
        return text in self.err.read_text(encoding="utf-8")

    def type(self, text: str) -> None:
        assert self.process.stdin
        with suppress(BrokenPipeError):
            self.process.stdin.write(text.encode())
            self.process.stdin.close()

    def ended(self, seconds: float = 10 * PATIENCE) -> Ended:
        try:
            status = self.process.wait(seconds)
        finally:
            self.process.kill()
        return Ended(status, self.out.read_text(encoding="utf-8"), self.err.read_text(encoding="utf-8"))


@contextmanager
def in_use(path: Path) -> Iterator[str]:
    """Locks this file, as a run locks its journal, and yields how a message names the process that uses it."""
    with open(path, "rb") as file:
        fcntl.flock(file, fcntl.LOCK_EX)
        yield f"{path.name} is in use by process {os.getpid()}, "


def processes_in(folder: Path) -> list[int]:
    """Returns the processes that haven't ended and whose current folder is this one or one below it."""
    found = []
    for each in filter(str.isdigit, os.listdir("/proc")):
        with suppress(OSError):
            if Path(os.readlink(f"/proc/{each}/cwd")).is_relative_to(folder):
                found.append(int(each))
    return found


def stopped(words: Sequence[str | Path], folder: Path, moment: Callable[[Begun], object], env: Mapping[str, str] | None = None,
            given: int = subprocess.DEVNULL) -> Ended:
    """Runs a command, stops it by Ctrl-C once `moment` holds, and returns how it ended."""
    begun = Begun([*ENDS_BY_CTRL_C, *words], folder, "stopped", env, given)
    await_that(lambda: moment(begun) or begun.process.poll() is not None)
    until = time.monotonic() + PATIENCE
    while begun.process.poll() is None and time.monotonic() < until:
        begun.process.send_signal(signal.SIGINT)
        with suppress(subprocess.TimeoutExpired):
            begun.process.wait(SECONDS_TO_ANOTHER_SIGNAL)
    return begun.ended(1)


def is_stopped(done: Ended, says: str, clone: Path) -> bool:
    """Returns whether a launcher that was stopped says so in its last line, prints no messages except its own, and leaves no
    process."""
    lines = done.err.splitlines()
    return (done.status == 130 and all(line.startswith("life: ") for line in lines) and f"stopped; {says}" in lines[-1]
            and processes_in(clone) == [])


def on_terminal(words: Sequence[str | Path], folder: Path, given: str | Path | None = os.devnull, taken: Path | None = None,
                typed: bytes = b"", stop_when: Callable[[], object] | None = None) -> tuple[int, str]:
    """Runs a command whose standard error is a terminal, and returns its exit status and what the terminal shows. Standard
    output is the terminal, or the file `taken`; standard input is the file `given`, or the terminal if that is None. What is
    typed is typed at the start; if `stop_when` is given, Ctrl-C is pressed once it holds."""
    child, terminal = pty.fork()
    if child == 0:
        signal.signal(signal.SIGINT, signal.SIG_DFL)
        os.chdir(folder)
        if given:
            os.dup2(os.open(given, os.O_RDONLY), 0)
        if taken:
            os.dup2(os.open(taken, os.O_WRONLY | os.O_CREAT | os.O_TRUNC, 0o600), 1)
        os.execvp(str(words[0]), [str(word) for word in words])
    os.write(terminal, typed)
    if stop_when:
        await_that(stop_when)
        os.write(terminal, b"\x03")
    said = b""
    with suppress(OSError):  # reading fails once no process has the terminal open
        while more := os.read(terminal, 1000):
            said += more
    os.close(terminal)
    return os.waitstatus_to_exitcode(os.waitpid(child, 0)[1]), said.decode("utf-8", "replace")
