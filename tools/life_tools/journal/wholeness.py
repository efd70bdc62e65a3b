"""Decides whether a journal's file is whole, by its length, its count, and any file that has noted a greater count.

A commit byte that is not 1 ends the journal, so a single damaged commit byte hides everything after it, and the next posting
overwrites it. But a book whose last run ended normally has 18 bytes and 65 for each command. A crash or a fault leaves at most 65
bytes more, which nothing removes; a damaged last commit byte leaves as many. A greater count that was noted elsewhere tells the
two cases apart: in a checkpoint, in a seal, or in the log of a day's work.
"""
from __future__ import annotations

import json
import os
import re
from dataclasses import dataclass, field
from typing import Iterator, NamedTuple, Tuple

from life_tools.journal.checkpoints import HEADER as CHECKPOINT_HEADER
from life_tools.common.formats import MOST_COMMANDS, Wrong, bytes_of, demand, opened, remark
from life_tools.common.locks import holder_of
from life_tools.journal.blocks import blocks_at, demanded
from life_tools.journal.file import OPEN, RECORD_SIZE, BadJournal, gate_of

JOURNAL, CHECKPOINT, LOG = "journal.life", "checkpoint.life", "log"
WHOLE, UNDECIDED, DAMAGED, EMPTY = "whole", "undecided", "damaged", "empty"
ACCEPTED = re.compile(rb",accepted,([0-9]{1,7})\n")
# number of bytes at the end of a run's output that are searched
LOOKED_AT = 1 << 16

# the count and the length in bytes of a journal's file
Seen = Tuple[int, int]


class Damaged(Wrong):
    """Commands of a journal are gone, or can no longer be read."""

    status = 1


class Noted(NamedTuple):
    """A source, and the number of commands that it noted of the journal."""

    by: str
    commands: int


@dataclass(frozen=True)
class Shape:
    """The shape of a journal's file: its count, its length, who noted which counts, and how it differs from seals."""

    path: str
    count: int
    length: int
    noted: tuple[Noted, ...] = ()
    unlike: tuple[str, ...] = field(default=())

    @property
    def excess(self) -> int:
        """Returns the number of bytes after the commit byte that ends the journal."""
        return max(0, self.length - gate_of(self.count) - 1)

    @property
    def verdict(self) -> str:
        if self.excess > RECORD_SIZE or self.unlike or any(it.commands > self.count for it in self.noted):
            return DAMAGED
        if not self.length:
            return EMPTY
        return UNDECIDED if self.excess else WHOLE

    def reasons(self) -> Iterator[str]:
        """Yields what is not as it would be in a whole book."""
        if not self.length:
            yield f"{self.path} is empty, and the program would begin a new book in it"
        if self.excess:
            why = "which isn't 1" if self.excess > RECORD_SIZE else "as after a crash, or as with a damaged last commit byte"
            yield (f"{self.path}: {self.excess} bytes follow byte {gate_of(self.count)}, the commit byte of record "
                   f"{self.count}, {why}")
        for it in self.noted:
            if it.commands > self.count:
                yield f"{self.path} has {self.count} commands, and had {it.commands} by {it.by}"
        yield from self.unlike

    def told(self) -> str:
        return "; ".join(self.reasons())


# --- the file ---

def shape_at(path: str, seen: Seen | None = None) -> Shape:
    """Returns the shape of a journal's file alone, and raises BadJournal with the program's line if it is not a journal."""
    if seen:
        return Shape(path, *seen)
    demand(os.path.lexists(path), f"there is no {path}")
    with blocks_at(path) as blocks:
        return Shape(path, demanded(blocks.through(), path), blocks.length)


# --- who noted a count ---

def checkpoint_count(path: str) -> int | None:
    """Returns the count in a checkpoint's header, or None if the file is not a checkpoint."""
    try:
        with opened(path) as file:
            front = file.read(21)
    except OSError as error:
        raise Wrong(f"{path}: {error.strerror}") from error
    if len(front) < 21 or front[0] != OPEN or front[1:17] != CHECKPOINT_HEADER:
        return None
    count = int.from_bytes(front[17:], "big")
    return count if count <= MOST_COMMANDS else None


def accepted_in(path: str) -> int:
    """Returns the position of the last accepted line near the end of a run's output, or 0."""
    if not os.path.isfile(path):
        return 0
    with open(path, "rb") as file:
        file.seek(max(0, file.seek(0, os.SEEK_END) - LOOKED_AT))
        found = ACCEPTED.findall(file.read())
    return int(found[-1]) if found else 0


def log_count(log: str) -> int | None:
    """Returns how many commands the journal had after the newest run that `life-tools day` noted, or None if it noted none."""
    demand(os.path.isdir(log), f"{log}: No such file or directory")
    runs = os.path.join(log, "runs")
    try:
        numbers = [name for name in os.listdir(runs) if name.isdecimal()] if os.path.isdir(runs) else []
        if not numbers:
            return None
        folder = os.path.join(runs, max(numbers, key=int))
        record = json.loads(bytes_of(os.path.join(folder, "run.json")))
        # if a run was interrupted, its transcript shows how far it came
        after: int = record["after"] if record["after"] is not None else \
            max(record["before"], accepted_in(os.path.join(folder, "transcript")))
        return after
    except OSError as error:
        raise Wrong(f"{error.filename}: {error.strerror}") from error
    except (ValueError, KeyError, TypeError) as error:
        raise Wrong(f"{folder}/run.json is not the record of a run: {error}") from error


def noted_by(checkpoint: str | None, log: str | None) -> Iterator[Noted]:
    for path, count in ((checkpoint, checkpoint_count), (log, log_count)):
        found = count(path) if path else None
        if path and found is not None:
            yield Noted(path, found)


def shape_with(path: str, checkpoint: str | None, log: str | None, seen: Seen | None = None) -> Shape:
    """Returns the shape of a file with the counts that a checkpoint and a log have noted."""
    shape = shape_at(path, seen)
    return Shape(path, shape.count, shape.length, tuple(noted_by(checkpoint, log)))


def beside(path: str) -> tuple[str | None, str | None]:
    """Returns the checkpoint and the log beside a file named `journal.life`, if they exist; other files have neither."""
    folder, name = os.path.split(path)
    checkpoint, log = os.path.join(folder, CHECKPOINT), os.path.join(folder, LOG)
    is_book = name == JOURNAL
    return (checkpoint if is_book and os.path.isfile(checkpoint) else None), (log if is_book and os.path.isdir(log) else None)


# --- what a tool does with it; a tool that has read the file passes what it has seen of it ---

def demand_undamaged(path: str, seen: Seen | None = None) -> Shape:
    """Returns the shape of a book and raises Damaged if commands are known to be gone."""
    shape = shape_with(path, *beside(path), seen=seen)
    if shape.verdict == DAMAGED:
        raise Damaged(shape.told())
    return shape


def doubt_of(path: str, seen: Seen | None = None) -> str:
    """Returns what to report if a book may not be whole; a file that is not a journal is left to the tool that reads it."""
    try:
        return demand_undamaged(path, seen).told()
    except BadJournal:
        return ""


def tell_doubt(path: str, seen: Seen | None = None) -> None:
    """Prints what suggests that a book may not be whole; raises Damaged if commands are known to be gone."""
    doubt = doubt_of(path, seen) if os.path.isfile(path) else ""
    if doubt:
        remark(doubt)


def tell(shape: Shape) -> int:
    """Prints everything that is not as in a whole book. Returns 0 if the book is whole, and else 1."""
    for reason in shape.reasons():
        remark(reason)
    if shape.verdict == UNDECIDED:
        holder = holder_of(shape.path)
        more = f", while {holder} has it" if holder else ": compare the count with the last position that was printed as accepted"
        remark(f"{shape.path}: whether a command is gone is undecided{more}")
    return 0 if shape.verdict == WHOLE else 1
