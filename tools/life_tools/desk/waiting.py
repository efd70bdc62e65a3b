"""Waits for another `day` of the folder, and for a run that uses the journal; each wait prints what it waits for."""
from __future__ import annotations

import fcntl
import os
import time
from typing import Callable

from life_tools.common.formats import Wrong, remark
from life_tools.common.locks import holder_of

LOOK_EVERY = 0.2


class Patience:
    """The number of seconds that each wait may take."""

    def __init__(self, seconds: float) -> None:
        self.seconds = seconds
        self.told: str | None = None

    def wait(self, why: Callable[[], str | None]) -> str | None:
        """Waits until `why` returns None; after the time is over it returns the last reason."""
        until = time.monotonic() + self.seconds
        while found := why():
            if time.monotonic() >= until:
                return found
            if found != self.told:
                remark(f"day: waiting: {found}")
                self.told = found
            time.sleep(LOOK_EVERY)
        return None


def is_alive(holder: str) -> bool:
    return os.path.exists(os.path.join("/proc", holder.rpartition(" ")[2]))


def lock_log(path: str, patience: Patience) -> int:
    """Returns the lock of `log/`.

    The program of a run inherits it, so no other `day` takes up the rows while that run lasts.
    """
    handle = os.open(path, os.O_RDWR | os.O_CREAT | os.O_CLOEXEC, 0o666)

    def why() -> str | None:
        try:
            fcntl.flock(handle, fcntl.LOCK_EX | fcntl.LOCK_NB)
            return None
        except BlockingIOError:
            holder = holder_of(path)
            if holder and is_alive(holder):
                return f"another `day`, {holder}, works on this book"
            return "the run of a `day` that was killed still goes on in this book"

    found = patience.wait(why)
    if found:
        os.close(handle)
        raise Wrong(f"{found}, and still did after {patience.seconds:g} seconds; nothing was done: try again later, or wait "
                    "longer by --wait SECONDS")
    return handle


def wait_for_journal(journal: str, patience: Patience) -> None:
    """Waits until no run uses the journal, as far as the system reports it, and raises Wrong when the time is over."""
    def why() -> str | None:
        holder = holder_of(journal)
        return f"{journal} is in use by {holder}" if holder else None

    found = patience.wait(why)
    if found:
        raise Wrong(f"{found}, and still was after {patience.seconds:g} seconds; nothing was posted: try again later, or wait "
                    "longer by --wait SECONDS")
