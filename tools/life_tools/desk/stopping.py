"""Handles signals: a `day` that waits or checks ends at once; during a posting the program gets the signal.

In that case `day` first notes the result of the run, and then ends.
"""
from __future__ import annotations

import signal
import subprocess
from contextlib import contextmanager
from types import FrameType
from typing import Iterator

SIGNALS = (signal.SIGINT, signal.SIGTERM, signal.SIGHUP)


class Stopped(BaseException):
    """Raised when a signal ends the tool while nothing is being posted."""


class Stopping:
    """The handler of the signals."""

    def __init__(self) -> None:
        self.caught: int | None = None
        self.is_posting = False
        self.program: subprocess.Popen[bytes] | None = None

    def handle(self, number: int, frame: FrameType | None) -> None:
        self.caught = number
        if not self.is_posting:
            raise Stopped
        self.pass_on()

    def pass_on(self) -> None:
        """Passes a caught signal to the program, if both are there."""
        if self.program is not None and self.caught is not None:
            self.program.send_signal(self.caught)

    @contextmanager
    def posting(self) -> Iterator[None]:
        """Covers the time from the program's start until the result of its run is noted; a signal then ends the tool only
        afterwards."""
        self.is_posting = True
        try:
            yield
        finally:
            self.program, self.is_posting = None, False

    def began(self, program: subprocess.Popen[bytes]) -> None:
        self.program = program
        self.pass_on()


@contextmanager
def stopping() -> Iterator[Stopping]:
    """Handles signals by `Stopping` while the context lasts, except signals that the caller ignores, as `nohup` does.

    SIGIO is ignored, because a request for a lease may bring it and it would end the tool.
    """
    handler = Stopping()
    heeded = [number for number in SIGNALS if signal.getsignal(number) != signal.SIG_IGN]
    before = {number: signal.signal(number, handler.handle) for number in heeded}
    before[signal.SIGIO] = signal.signal(signal.SIGIO, signal.SIG_IGN)
    try:
        yield handler
    finally:
        for number, each in before.items():
            signal.signal(number, each)
