"""Runs `life-tools` as a user does, in a child of a process that has imported its modules, which takes a tenth of the time of a
new start.

That process is started anew and has no thread. A child that is forked beside a thread, such as the one by which a worker of
pytest-xdist is given its tests, may wait for ever for a lock that the thread held.
"""
from __future__ import annotations

import multiprocessing
import os
import signal
import sys
import tempfile
import traceback
from contextlib import suppress
from dataclasses import dataclass
from functools import lru_cache
from multiprocessing import forkserver
from multiprocessing.context import ForkServerContext
from pathlib import Path
from typing import Callable, Mapping, NoReturn, Sequence

import pytest

from life_tools.cli.entry import main
from life_tools.common import program
from tests.support.program import ROOT

# the seconds after which a tool is stopped by a signal
SECONDS = 400
# the number of characters shown of either end of a long output
SHOWN = 600
# the exit status of a tool that ended with an exception
FELL = 70


def ends_of(text: str) -> str:
    return text if len(text) <= 2 * SHOWN else f"{text[:SHOWN]} … {text[-SHOWN:]}"


@dataclass(frozen=True, repr=False)
class Ended:
    """How a command ended: its exit status (negative if a signal ended it), its standard output and its standard error."""

    status: int
    out: str
    err: str

    def __repr__(self) -> str:
        """Shows the result in a failed test; of a long output only both ends are shown."""
        return f"status {self.status}, printed {ends_of(self.out)!r}, on standard error {ends_of(self.err)!r}"


@lru_cache(maxsize=None)
def server() -> ForkServerContext:
    """Starts the process from which tools are forked, and returns the context for its children."""
    context = multiprocessing.get_context("forkserver")
    context.set_forkserver_preload(["tests.support.all_tools", __name__])
    with pytest.MonkeyPatch.context() as patch:
        patch.setenv("PYTHONPATH", f"{ROOT}{os.pathsep}{ROOT / 'tools'}")
        forkserver.ensure_running()
    return context


def take_streams(folder: Path) -> None:
    """Makes the files of this folder standard input, output and error, also for processes that the tool starts."""
    for number, (name, how) in enumerate((("in", os.O_RDONLY), ("out", os.O_WRONLY), ("err", os.O_WRONLY))):
        os.dup2(os.open(folder / name, how), number)
    sys.stdin = open(0, encoding="utf-8", closefd=False)
    sys.stdout = open(1, "w", encoding="utf-8", closefd=False)
    sys.stderr = open(2, "w", encoding="utf-8", errors="backslashreplace", closefd=False)


def in_child(words: Sequence[str], folder: Path, env: Mapping[str, str], streams: Path, noted_sum: str,
             first: Callable[[], object]) -> NoReturn:
    status = FELL
    try:
        signal.signal(signal.SIGALRM, signal.SIG_DFL)
        signal.alarm(SECONDS)
        take_streams(streams)
        os.chdir(folder)
        os.environ.clear()
        os.environ.update(env)
        # the child must choose its folder for temporary files anew, by its own environment, and fork processes as a tool does
        tempfile.tempdir = None
        multiprocessing.set_start_method(None, force=True)
        sys.argv = [str(ROOT / "tools" / "life-tools"), *words]
        setattr(program, "noted_sum", lambda: noted_sum)
        first()
        status = main(words)
    except SystemExit as end:
        status = end.code if isinstance(end.code, int) else 1
    except BaseException:  # whatever it is, the parent must get its report
        traceback.print_exc()
    finally:
        with suppress(OSError):
            sys.stdout.flush()
            sys.stderr.flush()
        os._exit(status)


def nothing() -> None:
    pass


def run_tool(words: Sequence[str], folder: Path, env: Mapping[str, str], given: bytes = b"",
             first: Callable[[], object] = nothing) -> Ended:
    """Runs a command of life-tools with its arguments in a folder. Before the command, its process calls `first`, a function of
    a module, which may replace functions of the tools."""
    with tempfile.TemporaryDirectory() as name:
        streams = Path(name)
        for stream, data in (("in", given), ("out", b""), ("err", b"")):
            (streams / stream).write_bytes(data)
        given_to_child = (words, folder, {**os.environ, **env}, streams, program.noted_sum(), first)
        child = server().Process(target=in_child, args=given_to_child)
        child.start()
        child.join()
        assert child.exitcode is not None
        out, err = ((streams / stream).read_bytes().decode("utf-8", "replace") for stream in ("out", "err"))
        return Ended(child.exitcode, out, err)
