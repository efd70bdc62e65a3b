"""Finds out who has locked a file from the system's list of locks.

It takes no lock to find out, because that would keep the program out of its book.
"""
from __future__ import annotations

import os

LOCKS = "/proc/locks"


def holder_of(path: str) -> str | None:
    """Returns the process that has locked a file, or None if no process has or the system does not report it."""
    try:
        inode = str(os.stat(path).st_ino)
        with open(LOCKS, encoding="ascii", errors="replace") as file:
            locks = [line.split() for line in file]
    except OSError:
        return None
    # fields of a line: number, kind, advisory, read or write, process, device:inode, ..; if a process waits for the lock, an
    # arrow follows the number
    held = (fields for fields in locks if len(fields) > 5 and fields[1] == "FLOCK")
    return next((f"process {fields[4]}" for fields in held if fields[5].rpartition(":")[2] == inode), None)
