"""Makes sure that a journal's file is read from its disk and not from the system's cache.

Linux marks pages whose write to the disk failed as clean: a later sync succeeds without writing them, and a read returns what the
disk never received. Therefore the cached pages of both ends of the file are dropped after a sync that succeeded, and all cached
pages after a sync that failed. `life` drops all of them before it runs the program.
"""
from __future__ import annotations

import os

from life_tools.common.formats import Wrong, opened

# the system caches a file in pieces of up to so many bytes, and drops only whole pieces
LARGEST_COPY = 1 << 21


def drop_copies(handle: int, length: int) -> None:
    """Makes the system read the two ends of a file from the disk again."""
    last = max(length - LARGEST_COPY, 0)
    os.posix_fadvise(handle, 0, LARGEST_COPY, os.POSIX_FADV_DONTNEED)
    os.posix_fadvise(handle, last - last % LARGEST_COPY, 0, os.POSIX_FADV_DONTNEED)


def sync_and_drop(handle: int, path: str, length: int) -> None:
    """Syncs a file. If the sync fails, everything that the system has cached of the file is dropped, and Wrong is raised."""
    try:
        os.fsync(handle)
    except OSError as error:
        os.posix_fadvise(handle, 0, 0, os.POSIX_FADV_DONTNEED)
        raise Wrong(f"{path}: the disk failed ({error.strerror}): end all programs that have the book open, mount the disk anew, "
                    "and call this again") from error
    drop_copies(handle, length)


def made_safe(path: str) -> None:
    """Syncs a journal and drops cached pages, so that what is read of it from now on is on its disk."""
    with opened(path) as file:
        sync_and_drop(file.fileno(), path, os.fstat(file.fileno()).st_size)
