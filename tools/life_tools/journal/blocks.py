"""Reads a journal file block by block, up to the first commit byte that is not 1, without holding all records in memory."""
from __future__ import annotations

import io
import os
from contextlib import contextmanager
from typing import Iterator

from life_tools.common.formats import MOST_COMMANDS, Wrong, opened
from life_tools.journal.file import (EMPTY, FIRST_GATE, RECORD_SIZE, BadJournal, Journal, counted, gate_of,
                                     is_unfinished_creation, open_gates, wrong_front)

# number of records that fit in a processor's cache while they are checked
AT_ONCE = 1 << 13


class Blocks:
    """The blocks of a journal file. They can be read once; after the last one the number of records is known."""

    def __init__(self, file: io.BufferedIOBase) -> None:
        self.file = file
        # the file may grow meanwhile, so its length is taken before the commit bytes are read
        self.length = file.seek(0, os.SEEK_END)
        file.seek(0)
        self.front = file.read(len(EMPTY) + 1)
        # the number of commit bytes that are 1 before the first other one, whether that one was found, and the bytes read
        self.open, self.is_ended, self.read = 0, False, len(self.front)

    def __iter__(self) -> Iterator[memoryview]:
        if is_unfinished_creation(self.front) or wrong_front(self.front):
            return
        self.read, is_last = self.file.seek(FIRST_GATE), False
        buffer = bytearray(AT_ONCE * RECORD_SIZE)
        while not is_last:
            size = self.file.readinto(buffer)
            gates = buffer[:size:RECORD_SIZE]
            found = open_gates(gates)
            self.open, self.is_ended, self.read = self.open + found, found < len(gates), self.read + size
            is_last = self.is_ended or size < len(buffer) or self.open > MOST_COMMANDS
            yield memoryview(buffer)[:RECORD_SIZE * min(found, size // RECORD_SIZE)]

    def through(self) -> Blocks:
        """Reads all blocks for their commit bytes alone, and returns this object."""
        for _ in self:
            pass
        return self

    @property
    def room(self) -> int:
        """Returns how many records the file's length allows, but not many more than a journal may have."""
        return min(max(self.length - FIRST_GATE, 0) // RECORD_SIZE, MOST_COMMANDS + AT_ONCE)

    @property
    def seen(self) -> tuple[int, int] | None:
        """Returns the count and the length of the file, or None if it is not a journal."""
        count = self.count()
        return None if isinstance(count, Journal) else (count, self.length)

    def count(self) -> int | Journal:
        """Returns how many records precede the first commit byte that is not 1; `records_in` does the same for a file's bytes."""
        if is_unfinished_creation(self.front):
            return 0
        return wrong_front(self.front) or counted(self.open, self.is_ended, self.read)


def demanded(blocks: Blocks, path: str) -> int:
    """Returns the count of a file that was read through and raises BadJournal if it is not a journal.

    What the records encode is not judged here.
    """
    count = blocks.count()
    if isinstance(count, Journal):
        raise BadJournal(path, count.refused, count.why)
    return count


@contextmanager
def blocks_at(path: str) -> Iterator[Blocks]:
    """Opens a file and gives its blocks.

    The file is read and not mapped: a mapped page could not be dropped after a sync that failed.
    """
    try:
        with opened(path) as file:
            yield Blocks(file)
    except OSError as error:
        raise Wrong(f"{path}: {error.strerror}") from error


def prefix_at(path: str, count: int) -> bytes:
    """Returns the bytes of a copy's first `count` records, or no bytes if there are none. The copy must not become shorter."""
    if not count:
        return b""
    with opened(path) as file:
        return file.read(gate_of(count))
