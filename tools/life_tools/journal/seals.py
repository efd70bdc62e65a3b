"""Makes and checks seals: a few lines to keep elsewhere, which show later whether a journal's prefix and its basis are the same.

The lines are CSV. The day is the latest of the prefix's postings, or empty if none of them has a day, as an upgrade has none:

    seal,1,DAY ON WHICH IT WAS MADE
    position,POSITION,COMMANDS THAT THE JOURNAL HAD,DAY
    front,BYTES,SHA-256
    file,NAME,BYTES,SHA-256        of the basis and of each table that it names
    sum,SHA-256                    of the lines above

The line `front` is for the prefix, which no posting changes: 17 bytes and 65 for each command, without the commit byte after the
last one.
"""
from __future__ import annotations

import datetime
import hashlib
import os
from dataclasses import dataclass
from typing import NamedTuple, Sequence

from life_tools.rules.commands import EPOCH
from life_tools.journal.copied_folder import JOURNAL
from life_tools.common.formats import LAST_DAY, MOST_COMMANDS, Wrong, bytes_of, day_in, demand, number_of, read_whole
from life_tools.journal.file import FIRST_GATE, RECORD_SIZE, BadJournal, gate_of
from life_tools.journal.record_columns import columns_at
from life_tools.journal.wholeness import Noted, Shape, shape_at
from life_tools.tables.basis import NAME, basis_rows, file_in

VERSION = "1"
MOST_SEAL_BYTES = 2**20
SUM_DIGITS = 64
# days from 1970-01-01 within which Python counts
FARTHEST = 10**6


class Sealed(NamedTuple):
    """A sealed file: its name, its length in bytes, and its SHA-256."""

    name: str
    size: int
    sum: str


@dataclass(frozen=True)
class Seal:
    """What a seal says: the position, day and sum of a prefix, the count at the time, and the files of the bases."""

    made: datetime.date
    position: int
    count: int
    day: datetime.date | None
    sum: str
    files: tuple[Sealed, ...]

    @property
    def size(self) -> int:
        return gate_of(self.position)


def sum_of(data: bytes | memoryview) -> str:
    return hashlib.sha256(data).hexdigest()


# --- how one is made ---

def sealed_files(folder: str, bases: Sequence[str]) -> tuple[Sealed, ...]:
    """Returns the basis files and their tables, each once, in the order in which they are named."""
    found: dict[str, Sealed] = {}

    def take(name: str, place: int) -> bytes:
        data = file_in(folder, name, place)
        found.setdefault(name, Sealed(name, len(data), sum_of(data)))
        return data

    for basis in bases:
        demand(NAME.fullmatch(basis), f"{basis} is no name of a basis file")
        for place, (_, table, _) in enumerate(basis_rows(take(basis, 0), basis), 1):
            if table not in found:
                take(table, place)
    return tuple(found.values())


def newest_of(days: Sequence[int], path: str) -> datetime.date | None:
    """Returns the latest of these days of records, or None if there are none; nothing else of the records is judged here."""
    if not days:
        return None
    newest = EPOCH + datetime.timedelta(max(days)) if abs(max(days)) < FARTHEST else None
    demand(newest and newest <= LAST_DAY, f"{path}: a record has no day of the calendar: life-tools read shows which")
    return newest


def seal_of(folder: str, position: int | None = None, bases: Sequence[str] = ("basis.csv",)) -> Seal:
    """Returns the seal of a folder's journal at a position (the newest if none is given) and of these bases."""
    path = os.path.join(folder, JOURNAL)
    whole = columns_at(path)
    front = whole if position is None else columns_at(path, position)
    days = front.dated()
    with memoryview(front.data) as data:
        found = sum_of(data[:gate_of(front.count)])
    made = datetime.datetime.now(datetime.timezone.utc).date()
    return Seal(made, front.count, whole.count, newest_of(days, path), found, sealed_files(folder, bases))


def text_of(seal: Seal) -> str:
    lines = [f"seal,{VERSION},{seal.made}", f"position,{seal.position},{seal.count},{seal.day or ''}",
             f"front,{seal.size},{seal.sum}", *(f"file,{it.name},{it.size},{it.sum}" for it in seal.files)]
    text = "".join(f"{line}\n" for line in lines)
    return f"{text}sum,{sum_of(text.encode('ascii'))}\n"


# --- how one is read ---

def is_sum(text: str) -> bool:
    return len(text) == SUM_DIGITS and not set(text) - set("0123456789abcdef")


def fields_of(line: str, kind: str, count: int) -> list[str]:
    fields = line.split(",")
    demand(fields[0] == kind and len(fields) == count, f"{line[:80]!r} is no line `{kind}` of a seal")
    return fields


def sealed_in(line: str) -> Sealed:
    _, name, size, found = fields_of(line, "file", 4)
    length = number_of(size, 0, 2**32)
    if length is None or not NAME.fullmatch(name) or not is_sum(found):
        raise Wrong(f"{line[:80]!r} names no file of a seal")
    return Sealed(name, length, found)


def seal_in(text: str) -> Seal:
    """Returns the seal that a text holds. The text must be complete: its last line is the sum of the lines before it."""
    lines = text.splitlines()
    demand(len(lines) >= 4, "that is no seal")
    _, version, made = fields_of(lines[0], "seal", 3)
    demand(version == VERSION, f"a seal of the form {version[:20]} isn't known here")
    above = "".join(f"{line}\n" for line in lines[:-1])
    demand(lines[-1] == f"sum,{sum_of(above.encode('ascii', 'replace'))}", "the seal's last line isn't the sum of the others")
    _, at, held, day = fields_of(lines[1], "position", 4)
    position, count = number_of(at, 0, MOST_COMMANDS), number_of(held, 0, MOST_COMMANDS)
    _, size, found = fields_of(lines[2], "front", 3)
    if position is None or count is None or position > count or size != str(gate_of(position)) or not is_sum(found):
        raise Wrong(f"{lines[1]} and {lines[2][:80]} are of no front")
    return Seal(day_in(made), position, count, day_in(day) if day else None, found, tuple(map(sealed_in, lines[3:-1])))


def seal_at(path: str) -> Seal:
    return read_whole(path, MOST_SEAL_BYTES, lambda data: seal_in(data.decode("ascii", "replace")))


# --- whether a book is still that of a seal ---

def front_difference(seal: Seal, path: str) -> str | None:
    """Returns how the journal's file differs from the sealed prefix, or None if it does not."""
    data = bytes_of(path)
    if len(data) < seal.size:
        return f"{path} has {len(data)} bytes, and the front had {seal.size}"
    with memoryview(data) as seen:
        if sum_of(seen[:seal.size]) != seal.sum:
            return f"{path}: the first {FIRST_GATE} + {RECORD_SIZE} * {seal.position} bytes aren't those that were sealed"
    return None


def shape_by(shape: Shape, seals: Sequence[str]) -> Shape:
    """Returns the shape of a journal's file with the counts that these seals noted, and the seals that it does not match."""
    noted, unlike = list(shape.noted), list(shape.unlike)
    for each in seals:
        seal = seal_at(each)
        noted.append(Noted(each, seal.count))
        difference = front_difference(seal, shape.path) if seal.position <= shape.count else None
        if difference:
            unlike.append(f"{difference}, by {each}")
    return Shape(shape.path, shape.count, shape.length, tuple(noted), tuple(unlike))


def count_difference(seal: Seal, path: str) -> str | None:
    """Returns a message if commands after the sealed prefix are gone, or else None: a journal only grows."""
    try:
        count = shape_at(path).count
    except BadJournal as bad:
        return str(bad)
    if count >= seal.count:
        return None
    return f"{path} has {count} commands, and had {seal.count} when it was sealed: those after position {count} are gone"


def file_difference(sealed: Sealed, folder: str) -> str | None:
    path = os.path.join(folder, sealed.name)
    if not os.path.lexists(path):
        return f"{path} isn't there"
    data = bytes_of(path)
    if len(data) != sealed.size:
        return f"{path} has {len(data)} bytes, and had {sealed.size}"
    return None if sum_of(data) == sealed.sum else f"{path} has other bytes than those that were sealed"


def differences(seal: Seal, folder: str) -> list[str]:
    """Returns what in a folder differs from a seal; the list is empty if nothing does."""
    path = os.path.join(folder, JOURNAL)
    found = [front_difference(seal, path) or count_difference(seal, path),
             *(file_difference(each, folder) for each in seal.files)]
    return [each for each in found if each]
