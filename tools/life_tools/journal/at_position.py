"""Runs the program on a copy of a prefix of the journal, and so prints the book as it was after its first postings.

What the program prints about the copy is proved like any output; the journal itself is only read.
"""
from __future__ import annotations

import contextlib
import os
import subprocess
from concurrent.futures import ThreadPoolExecutor
from typing import Iterator, Sequence

from life_tools.journal.copied_folder import JOURNAL, begun, copy_basis, private_copy, reading, run_in, written
from life_tools.common.formats import Wrong, demand
from life_tools.journal.file import EMPTY, FIRST_GATE, RECORD_SIZE, gate_of
from life_tools.common.program import life_command
from life_tools.journal.blocks import Blocks, demanded
from life_tools.journal.record_columns import close_gate, send
from life_tools.journal.wholeness import tell_doubt

# number of threads for a valuation; it changes no byte of what is printed
WORKERS = ("--workers", str(min(os.cpu_count() or 1, 4)))
AT_ONCE = 1 << 18


class BookAt:
    """The copy of a book: its folder, its position, and the program that runs on it."""

    def __init__(self, folder: str, position: int, life: Sequence[str]) -> None:
        self.folder, self.position, self.life = folder, position, life

    def demand_well(self, status: int, words: Sequence[str], printed: str) -> None:
        if status:
            said = printed.splitlines()[:1]
            raise Wrong(f"life {' '.join(words)} at position {self.position} ended with status {status}"
                        + (f": {said[0]}" if said else ""))

    def asks(self, *words: str) -> str:
        """Returns what the program prints with these arguments; the run must end with status 0."""
        status, printed = run_in(self.folder, self.life, words)
        self.demand_well(status, words, printed)
        return printed

    def begins(self, *words: str) -> subprocess.Popen[bytes]:
        """Starts the program with these arguments and returns the process, so that other work can go on meanwhile."""
        return begun(self.folder, self.life, words)

    def parts(self, ran: subprocess.Popen[bytes], *words: str) -> Iterator[bytes]:
        """Yields what the process prints, in parts; it must end with status 0."""
        assert ran.stdout
        part = ran.stdout.read(AT_ONCE)
        if len(part) < AT_ONCE:
            self.demand_well(ran.wait(), words, part.decode("ascii", "replace"))
        while part:
            yield part
            part = ran.stdout.read(AT_ONCE)
        self.demand_well(ran.wait(), words, "")

    def streams(self, *words: str) -> Iterator[bytes]:
        """Starts the program with these arguments and yields what it prints, in parts."""
        with self.begins(*words) as ran:
            yield from self.parts(ran, *words)

    def alone(self, places: Sequence[int]) -> BookAt:
        """Returns a copy that has only the commands at these places."""
        folder = os.path.join(self.folder, "alone")
        os.mkdir(folder)
        with open(os.path.join(self.folder, JOURNAL), "rb") as file, open(os.path.join(folder, JOURNAL), "wb") as copy:
            copy.write(EMPTY[:FIRST_GATE])
            for place in places:
                file.seek(gate_of(place))
                copy.write(file.read(RECORD_SIZE))
            copy.write(bytes(1))
        return BookAt(folder, len(places), self.life)


def copied(path: str, position: int | None, to: str) -> Blocks:
    """Copies a journal, up to a position or whole, and checks the blocks of the original meanwhile; no run may use it then."""
    with reading(path) as file, ThreadPoolExecutor(1) as beside:
        size = os.fstat(file.fileno()).st_size if position is None else gate_of(position)
        sending = beside.submit(send, path, size, to)
        blocks = Blocks(file).through()
        try:
            sending.result()
        except OSError as error:
            raise Wrong(f"{to}: {error.strerror}") from error
    return blocks


@contextlib.contextmanager
def book_at(folder: str, position: int | None, bases: Sequence[str], life: str | None) -> Iterator[BookAt]:
    """Makes a copy of the book at a position (the newest if none is given), with these basis files and their tables."""
    path, command = os.path.join(folder, JOURNAL), life_command(life)
    with private_copy(folder, bases[0]) as desk:
        copy = os.path.join(desk, JOURNAL)
        blocks = copied(path, position, copy)
        tell_doubt(path, blocks.seen)
        count = demanded(blocks, path)
        demand(position is None or position <= count, f"{position} is no position of {path}, which has {count} commands")
        position = count if position is None else position
        if position:
            close_gate(copy, gate_of(position))
        else:
            written(copy, EMPTY)
        for basis in bases[1:]:
            copy_basis(folder, basis, desk)
        yield BookAt(desk, position, command)
