"""Sets up a tool's standard output and error: it escapes foreign bytes on a terminal, and finds out whether all was written."""
from __future__ import annotations

import errno
import io
import os
import re
import select
import sys
import tempfile
import traceback
from typing import Callable

from life_tools.common.formats import Wrong

# control characters except tabs and line ends, bytes that are not UTF-8, and marks that change the direction of the text after
# them
OBEYED = re.compile("[\0-\x08\x0b-\x1f\x7f-\x9f\u202a-\u202e\u2066-\u2069\udc80-\udcff]")
DONE, REPORTED, NOT_DONE, STOPPED = 0, 1, 2, 130
# number of characters of an error's text that are shown
MOST_LETTERS = 500


def escaped(found: re.Match[str]) -> str:
    code = ord(found[0])
    # a byte that is not UTF-8 is shown as its hexadecimal value
    code -= 0xdc00 if code >= 0xdc80 else 0
    return f"\\x{code:02x}" if code < 0x100 else f"\\u{code:04x}"


def visible(text: str) -> str:
    """Returns a text that is safe to print on a terminal: characters that a terminal would obey are escaped."""
    return OBEYED.sub(escaped, text)


class Shown(io.TextIOWrapper):
    """A stream to a terminal that escapes the characters that the terminal would otherwise obey."""

    def write(self, text: str) -> int:
        return super().write(visible(text))


class Closed(io.TextIOBase):
    """Stands for a standard output that the caller has closed; each write fails."""

    def write(self, text: str) -> int:
        raise OSError(errno.EBADF, "standard output is closed")


def take_standard_streams() -> None:
    """Sets standard output to pass bytes through unchanged in any locale, or to escape them if it is a terminal."""
    if sys.stderr is None:
        sys.stderr = open(os.devnull, "w", encoding="utf-8")
    elif sys.stderr.isatty() and isinstance(sys.stderr, io.TextIOWrapper):
        sys.stderr = Shown(sys.stderr.detach(), encoding="utf-8", errors="backslashreplace", line_buffering=True)
    if sys.stdout is None:
        sys.stdout = Closed()
    elif isinstance(sys.stdout, io.TextIOWrapper):
        if sys.stdout.isatty():
            sys.stdout = Shown(sys.stdout.detach(), encoding="utf-8", errors="surrogateescape", line_buffering=True)
        else:
            sys.stdout.reconfigure(encoding="utf-8", errors="surrogateescape")


def give_up_output() -> None:
    """Discards the output that is still buffered, so that it cannot fail a second time when the tool ends."""
    if not isinstance(sys.stdout, Closed):
        os.dup2(os.open(os.devnull, os.O_WRONLY), 1)


def has_reader_left() -> bool:
    """Returns whether standard output is a pipe that no process reads any more."""
    asked = select.poll()
    asked.register(1, 0)
    return any(event & select.POLLERR for _, event in asked.poll(0))


def kept_traceback() -> str:
    """Writes the traceback of an unforeseen error to a file and returns the file's name."""
    with tempfile.NamedTemporaryFile("w", prefix="life-tools-", suffix=".traceback", delete=False, encoding="utf-8",
                                     errors="backslashreplace") as file:
        file.write(traceback.format_exc())
    return file.name


def said_of(error: OSError) -> str:
    """Returns one line for a system error: the file, if the error names one, and the reason."""
    return f"{error.filename}: {error.strerror}" if error.filename else error.strerror or str(error)


def status_of(run: Callable[[], int]) -> int:
    """Returns the status of a run; argparse ends a run by SystemExit after printing help or for wrong arguments."""
    try:
        return run()
    except SystemExit as end:
        return end.code if isinstance(end.code, int) else NOT_DONE if end.code else DONE


def ended(name: str, run: Callable[[], int]) -> int:
    """Runs a tool and returns its status.

    If something cannot be done, one line on standard error says so, and the status is 2.
    """
    try:
        status = status_of(run)
        sys.stdout.flush()
        return status
    except BrokenPipeError as error:
        if not has_reader_left():
            return told(name, said_of(error), NOT_DONE)
        # the reader of the pipe has left, so part of the output is missing
        give_up_output()
        return REPORTED
    except Wrong as wrong:
        return told(name, str(wrong), wrong.status)
    except KeyboardInterrupt:
        return STOPPED
    except MemoryError:
        return told(name, "out of memory", NOT_DONE)
    except OSError as error:
        return told(name, said_of(error), NOT_DONE)
    except Exception as error:
        if isinstance(error, ValueError) and "integer string conversion" in str(error):
            return told(name, "a number has thousands of digits, and none that `life` takes or prints has", NOT_DONE)
        shown = f"{type(error).__name__}: {error}".replace("\n", " ")[:MOST_LETTERS]
        return told(name, f"an error that was not foreseen, {shown}; its traceback is in {kept_traceback()}", NOT_DONE)


def told(name: str, message: str, status: int) -> int:
    """Prints why a tool ends and returns the status; output that is still buffered is written first, if that succeeds."""
    try:
        sys.stdout.flush()
    except OSError:
        give_up_output()
    try:
        print(f"life-tools {name}: {message}", file=sys.stderr)
    except OSError:
        status = max(status, NOT_DONE)
    return status
