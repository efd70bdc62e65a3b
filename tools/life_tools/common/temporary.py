"""Makes temporary folders, in memory if it has the capacity. Each belongs to one run until that run ends, in whatever way."""
from __future__ import annotations

import fcntl
import os
import shutil
import tempfile
import time
from contextlib import contextmanager
from typing import Iterator

MEMORY = "/dev/shm"
# number of bytes that postings to a copy may add to it
ROOM = 2**26
# prefix of the names of the private folders of windows
WINDOW = "life-window-"
# age in seconds from which an unlocked folder counts as left by a killed run; the maker of a younger one may not have locked it
# yet
STALE_SECONDS = 60


def place_to_post(size: int) -> str | None:
    """Returns the folder in memory, where a posting waits for no disk, or None if TMPDIR is set or memory cannot take the
    copy."""
    if os.environ.get("TMPDIR") or not os.access(MEMORY, os.W_OK | os.X_OK):
        return None
    return MEMORY if shutil.disk_usage(MEMORY).free >= size + ROOM else None


def is_left(path: str) -> bool:
    """Returns whether a folder was left by a run that has ended."""
    if os.stat(path).st_uid != os.getuid() or time.time() - os.stat(path).st_mtime < STALE_SECONDS:
        return False
    handle = os.open(path, os.O_RDONLY | os.O_DIRECTORY)
    try:
        fcntl.flock(handle, fcntl.LOCK_EX | fcntl.LOCK_NB)
        return True
    except BlockingIOError:
        return False
    finally:
        os.close(handle)


def remove_left(place: str, prefix: str) -> None:
    """Removes the folders in `place` whose names begin with `prefix` if the runs that made them have ended."""
    for name in os.listdir(place):
        path = os.path.join(place, name)
        try:
            if name.startswith(prefix) and os.path.isdir(path) and not os.path.islink(path) and is_left(path):
                shutil.rmtree(path, ignore_errors=True)
        except FileNotFoundError:
            # another process removed it in the meantime
            continue


@contextmanager
def temporary_folder(size: int, prefix: str) -> Iterator[str]:
    """Makes a temporary folder that can take `size` bytes, its name beginning with `prefix`; folders left by killed runs are
    removed."""
    place = place_to_post(size) or tempfile.gettempdir()
    remove_left(place, prefix)
    # a window that was killed leaves its copy of the book
    remove_left(tempfile.gettempdir(), WINDOW)
    with tempfile.TemporaryDirectory(prefix=prefix, dir=place) as desk:
        handle = os.open(desk, os.O_RDONLY | os.O_DIRECTORY)
        try:
            fcntl.flock(handle, fcntl.LOCK_EX)
            yield desk
        finally:
            os.close(handle)
