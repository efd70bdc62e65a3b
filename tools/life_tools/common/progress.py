"""Prints the progress of a tool on standard error if that is a terminal and the work takes more than a second."""
from __future__ import annotations

import sys
import time


class Progress:
    """A line on the terminal that is updated at most five times a second and erased at the end."""

    def __init__(self, doing: str, whole: int | None = None) -> None:
        self.doing, self.whole = doing, whole
        self.begun = self.told = time.monotonic()
        self.shown = False

    def at(self, done: int) -> None:
        now = time.monotonic()
        if now - self.begun < 1 or now - self.told < 0.2 or not sys.stderr.isatty():
            return
        self.told, self.shown = now, True
        far = f"{done:,} of {self.whole:,}" if self.whole else f"{done:,}"
        self.show(f"{self.doing}: {far}")

    def end(self) -> None:
        if self.shown:
            self.show("")

    @staticmethod
    def show(text: str) -> None:
        """Replaces the line before. It writes to the buffer, because standard error would escape these control characters."""
        sys.stderr.flush()
        sys.stderr.buffer.write(f"\r\033[K{text}".encode())
        sys.stderr.buffer.flush()
