"""Keeps the copy of a book in a folder, and appends to it what was added to the book since.

    journal.prefix    the journal's first 17 bytes and 65 for each posting, without the commit byte that ends the journal
    backup.seal       a seal of journal.prefix, and of the basis and its tables in files/ (journal/seals.py has the format)
    files/            basis and tables, desk.toml, the folder's seals and log/
    .lock             locked while a process copies

Bytes of `journal.prefix` that the seal covers are never changed. Bytes after them are there if a copier, or its machine, was
stopped before the seal was written. They are kept if the journal has the same bytes, and cut off otherwise.
"""
from __future__ import annotations

import datetime
import fcntl
import hashlib
import os
from contextlib import contextmanager
from dataclasses import dataclass
from typing import BinaryIO, Iterator

from life_tools.backup.safe import Safe, safe_count
from life_tools.common.formats import Wrong, opened
from life_tools.desk.records import sync_folder, write_safely
from life_tools.journal.file import EMPTY, FIRST_GATE, gate_of
from life_tools.journal.medium import drop_copies
from life_tools.journal.record_columns import Columns
from life_tools.journal.seals import Seal, Sealed, newest_of, seal_at, text_of

PREFIX, SEAL, FILES, LOCK = "journal.prefix", "backup.seal", "files", ".lock"
AT_ONCE = 1 << 20
RECORDS_AT_ONCE = 1 << 16


class Differs(Wrong):
    """The copy is of another book, or the copy or the journal was changed."""

    status = 1


@dataclass(frozen=True)
class Copied:
    """The result of a copy: postings copied in total, postings added by it, and postings left out because they may not be safe
    yet."""

    count: int
    added: int
    under_way: int


@contextmanager
def locked(folder: str) -> Iterator[None]:
    """Locks a copy against other copiers, and raises Wrong if another one has locked it."""
    os.makedirs(folder, exist_ok=True)
    handle = os.open(os.path.join(folder, LOCK), os.O_RDWR | os.O_CREAT | os.O_CLOEXEC, 0o666)
    try:
        fcntl.flock(handle, fcntl.LOCK_EX | fcntl.LOCK_NB)
        yield
    except BlockingIOError as error:
        raise Wrong(f"another backup is writing to {folder}; nothing was copied") from error
    finally:
        os.close(handle)


def seal_in_copy(folder: str) -> Seal | None:
    """Returns the seal of a copy, or None if the copy has no seal yet."""
    path = os.path.join(folder, SEAL)
    return seal_at(path) if os.path.lexists(path) else None


def pieces(file: BinaryIO, start: int, end: int) -> Iterator[bytes]:
    """Yields the bytes of a file from `start` to `end`, or to the end of the file if it is shorter."""
    while start < end and (piece := os.pread(file.fileno(), min(AT_ONCE, end - start), start)):
        start += len(piece)
        yield piece


def sum_of(file: BinaryIO, end: int) -> str:
    found = hashlib.sha256()
    for piece in pieces(file, 0, end):
        found.update(piece)
    return found.hexdigest()


def unsealed_part(copy: BinaryIO, journal: BinaryIO, start: int, end: int) -> int:
    """Returns the place from which the journal is to be appended to a copy.

    Unsealed bytes at the end of the copy are kept if the journal has the same; otherwise the place is where the sealed bytes end.
    """
    length = min(os.fstat(copy.fileno()).st_size, end)
    is_same = all(a == b for a, b in zip(pieces(copy, start, length), pieces(journal, start, length)))
    return length if is_same else start


def demand_same(copy: BinaryIO, journal: BinaryIO, seal: Seal, names: tuple[str, str]) -> None:
    """Raises Differs unless the copy and the journal both begin with the sealed bytes."""
    for file, name in ((copy, names[0]), (journal, names[1])):
        if os.fstat(file.fileno()).st_size < seal.size or sum_of(file, seal.size) != seal.sum:
            raise Differs(f"{name}: its first {seal.size} bytes aren't the {seal.position} postings that were copied; nothing "
                          "was copied. Keep both files, and find out which of them was changed")


def append(copy: BinaryIO, journal: BinaryIO, start: int, end: int) -> None:
    """Appends a part of the journal to the copy, and makes it safe."""
    copy.truncate(start)
    place = start
    for piece in pieces(journal, start, end):
        # a disk that fills up takes a part of the piece, and fails at the next write
        while piece:
            written = os.pwrite(copy.fileno(), piece, place)
            place, piece = place + written, piece[written:]
    if place != end:
        raise Wrong("journal.life became shorter while it was copied")
    os.fsync(copy.fileno())
    drop_copies(copy.fileno(), end)


def newest_day(journal: BinaryIO, before: Seal | None, safe: Safe, path: str) -> datetime.date | None:
    """Returns the latest day of the copied postings, or None if none of them has a day."""
    days = [before.day if before else None]
    for start in range(before.position if before else 0, safe.count, RECORDS_AT_ONCE):
        end = min(start + RECORDS_AT_ONCE, safe.count)
        part = EMPTY[:FIRST_GATE] + b"".join(pieces(journal, gate_of(start), gate_of(end)))
        days.append(newest_of(Columns(part, end - start).dated(), path))
    return max((day for day in days if day), default=None)


def new_seal(journal: BinaryIO, copy: BinaryIO, before: Seal | None, safe: Safe, path: str, files: tuple[Sealed, ...]) -> Seal:
    """Returns the seal of what the copy has now, and raises Wrong if the journal has not the same."""
    found = sum_of(copy, safe.size)
    if found != sum_of(journal, safe.size):
        raise Wrong(f"{path}: what was copied isn't what the journal has; the copy is as it was sealed before")
    today = datetime.datetime.now(datetime.timezone.utc).date()
    return Seal(today, safe.count, safe.count, newest_day(journal, before, safe, path), found, files)


def copy_journal(path: str, folder: str, files: tuple[Sealed, ...]) -> Copied:
    """Appends the safe postings that the copy in a folder lacks, and seals the copy again together with these other files."""
    seal = seal_in_copy(folder)
    names = os.path.join(folder, PREFIX), path
    with opened(path) as journal, opened_copy(names[0]) as copy:
        if seal:
            demand_same(copy, journal, seal, names)
        before, start = (seal.position, seal.size) if seal else (0, 0)
        safe = safe_count(journal, path, before)
        if safe.count < before:
            raise Differs(f"{path} has {safe.count} postings, and {before} were copied; nothing was copied")
        start = unsealed_part(copy, journal, start, safe.size)
        if not seal and not start and os.fstat(copy.fileno()).st_size:
            raise Differs(f"{names[0]} is no part of {path}, and has no seal; nothing was copied: name an empty folder")
        if start < safe.size or os.fstat(copy.fileno()).st_size != start:
            append(copy, journal, start, safe.size)
        if not seal or (seal.position, seal.files) != (safe.count, files):
            sealed = new_seal(journal, copy, seal, safe, path, files)
            write_safely(os.path.join(folder, SEAL), text_of(sealed).encode("ascii"))
        return Copied(safe.count, safe.count - before, safe.under_way)


@contextmanager
def opened_copy(path: str) -> Iterator[BinaryIO]:
    """Opens the file that is appended to, and makes it if there is none."""
    is_new = not os.path.lexists(path)
    handle = os.open(path, os.O_RDWR | os.O_CREAT | os.O_CLOEXEC | os.O_NOFOLLOW, 0o666)
    with os.fdopen(handle, "r+b", buffering=0) as file:
        if is_new:
            sync_folder(os.path.dirname(path))
        yield file
