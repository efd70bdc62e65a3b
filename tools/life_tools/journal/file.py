"""Reads and writes the file `journal.life`: what the program makes of any bytes, and the commands in it.

docs/reference/journal.md has the layout. The code calls the commit byte before each record its gate.
"""
from __future__ import annotations

from dataclasses import dataclass, field
from typing import Iterable

from life_tools.rules.commands import BODY_SIZE, Command, body_of, command_in
from life_tools.common.formats import MOST_COMMANDS, Wrong
from life_tools.common.progress import Progress
from life_tools.rules.policies import Book

HEADER = b"LIFEJRNL" + bytes([0, 1, 0, BODY_SIZE, 0, 0, 0, 0])
FIRST_GATE = 1 + len(HEADER)
RECORD_SIZE = 1 + BODY_SIZE
OPEN = 1
EMPTY = bytes([OPEN]) + HEADER + bytes(1)


@dataclass
class Journal:
    """What a file is: its book, or the line with which the program refuses it and the reason."""

    book: Book = field(default_factory=Book)
    is_unfinished: bool = False
    refused: str = ""
    why: str = ""

    @property
    def commands(self) -> list[Command]:
        return self.book.commands


class BadJournal(Wrong):
    """The file is not a journal; `line` is what the program prints about it."""

    def __init__(self, path: str, line: str, why: str) -> None:
        super().__init__(f"{path}: {line}: {why}")
        self.line = line


def is_unfinished_creation(data: bytes) -> bool:
    """Returns whether a crash while a journal was created may have left these bytes; the program then completes the creation."""
    if len(data) < 2 or (len(data) <= len(EMPTY) and data[0] == 0):
        return True
    return len(data) == len(EMPTY) and data[1:FIRST_GATE] == HEADER and data[0] != OPEN and data[FIRST_GATE] != OPEN


def gate_of(record: int) -> int:
    """Returns the place of the commit byte before a record; records count from 0 here."""
    return FIRST_GATE + RECORD_SIZE * record


def bad_record(record: int, why: str, book: Book | None = None) -> Journal:
    return Journal(book or Book(), refused=f"badjournal,badrecord,{record}", why=f"record {record}: {why}")


def read_journal(data: bytes, into: Book | None = None) -> Journal:
    """Returns what the program makes of a file's bytes. The commands go into a new book, or into the empty book `into`."""
    book = Book() if into is None else into
    if is_unfinished_creation(data):
        return Journal(book, is_unfinished=True)
    count = records_in(data)
    return count if isinstance(count, Journal) else replayed(data, count, book)


def open_gates(gates: bytes | bytearray) -> int:
    """Returns how many commit bytes precede the first one that is not 1."""
    is_all = gates == bytes([OPEN]) * len(gates)
    return len(gates) if is_all else len(gates) - len(gates.lstrip(bytes([OPEN])))


def wrong_front(front: bytes) -> Journal | None:
    """Returns the refusal of a file that begins with these bytes, or None if a journal may begin so.

    `front` has as many bytes as an empty journal, or fewer if the file is shorter.
    """
    if len(front) < len(EMPTY):
        return Journal(refused="badjournal,notajournal", why=f"it has {len(front)} bytes, and an empty journal has {len(EMPTY)}")
    if front[:FIRST_GATE] != EMPTY[:FIRST_GATE]:
        return Journal(refused="badjournal,notajournal", why="its first 17 bytes aren't those of a journal")
    return None


def counted(count: int, is_ended: bool, length: int) -> int | Journal:
    """Returns `count` if a commit byte that is not 1 ends the records; otherwise the refusal of a file of this length."""
    if count > MOST_COMMANDS:
        return bad_record(MOST_COMMANDS, "a journal has at most so many")
    if not is_ended:
        return bad_record(count - 1, f"it is cut short at byte {length}")
    return count


def records_in(data: bytes) -> int | Journal:
    """Returns how many records precede the first commit byte that is not 1, or the refusal of bytes that are not a journal."""
    wrong = wrong_front(data[:len(EMPTY)])
    if wrong:
        return wrong
    gates = data[FIRST_GATE::RECORD_SIZE]
    count = open_gates(gates)
    return counted(count, count < len(gates), len(data))


def count_of(data: bytes, path: str) -> int:
    """Returns how many records a file's bytes hold, and raises BadJournal if they are not a journal.

    What the records encode is not judged here.
    """
    count = 0 if is_unfinished_creation(data) else records_in(data)
    if isinstance(count, Journal):
        raise BadJournal(path, count.refused, count.why)
    return count


def replayed(data: bytes, count: int, book: Book) -> Journal:
    """Returns the journal of so many records, or the refusal at the first record that encodes no command that can follow."""
    progress = Progress("reading the journal", count)
    for record in range(count):
        try:
            book.post(command_in(data[gate_of(record) + 1:gate_of(record + 1)]))
        except Wrong as wrong:
            return bad_record(record, str(wrong), book)
        if record % 4096 == 0:
            progress.at(record)
    progress.end()
    return Journal(book)


def file_of(commands: Iterable[Command]) -> bytes:
    """Returns the bytes of a journal that has these commands."""
    return EMPTY[:FIRST_GATE] + b"".join(bytes([OPEN]) + body_of(command) for command in commands) + bytes(1)
