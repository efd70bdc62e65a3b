"""Copies the files beside the journal: the basis and its tables, desk.toml, the folder's seals, and the log."""
from __future__ import annotations

import os
import shutil
from typing import Iterator, Sequence

from life_tools.common.formats import Wrong, opened
from life_tools.desk.entries import LOCK as LOG_LOCK
from life_tools.desk.entries import LOG
from life_tools.desk.records import sync_folder
from life_tools.journal.copied_folder import basis_files
from life_tools.journal.seals import Sealed, sealed_files

SETTINGS = "desk.toml"
SEALS = ".seal"


def book_files(folder: str, bases: Sequence[str]) -> list[str]:
    """Returns the names of the book's files other than the journal and the log."""
    seals = sorted(name for name in os.listdir(folder) if name.endswith(SEALS) and not name.startswith("."))
    names = [*(name for basis in bases for name in basis_files(folder, basis)), SETTINGS, *seals]
    return [name for name in dict.fromkeys(names) if os.path.isfile(os.path.join(folder, name))]


def log_files(folder: str) -> Iterator[str]:
    """Yields the names of the log's files, those of the oldest entries first."""
    for above, below, names in os.walk(os.path.join(folder, LOG)):
        below.sort()
        for name in sorted(names):
            if name != LOG_LOCK and not name.endswith(".part"):
                yield os.path.relpath(os.path.join(above, name), folder)


def is_as_copied(path: str, copy: str) -> bool:
    """Returns whether a file has the length and the time of its copy."""
    try:
        one, other = os.stat(path), os.lstat(copy)
    except FileNotFoundError:
        return False
    return (one.st_size, one.st_mtime_ns) == (other.st_size, other.st_mtime_ns)


def make_folder(path: str) -> None:
    """Makes a folder and those above it, and syncs the folder above each, so that they are safe."""
    if not os.path.isdir(path):
        make_folder(os.path.dirname(path))
        os.mkdir(path)
        sync_folder(os.path.dirname(path))


def copy_file(path: str, copy: str) -> None:
    """Copies a file with its time; the copy is replaced as a whole, or stays as it was."""
    make_folder(os.path.dirname(copy))
    part = os.path.join(os.path.dirname(copy), f".{os.path.basename(copy)}.part")
    with opened(path) as file, open(part, "wb") as written:
        found = os.fstat(file.fileno())
        shutil.copyfileobj(file, written)
        written.flush()
        os.utime(part, ns=(found.st_atime_ns, found.st_mtime_ns))
        os.fsync(written.fileno())
    os.replace(part, copy)
    sync_folder(os.path.dirname(copy))


def copy_files(folder: str, names: Iterator[str] | Sequence[str], to: str) -> int:
    """Copies the files that changed, and returns how many. A file that is removed meanwhile is skipped."""
    copied = 0
    for name in names:
        path, copy = os.path.join(folder, name), os.path.join(to, name)
        if is_as_copied(path, copy):
            continue
        try:
            copy_file(path, copy)
        except (Wrong, FileNotFoundError):
            if os.path.lexists(path):
                raise
        copied += 1
    return copied


def sealed_copies(to: str, bases: Sequence[str]) -> tuple[Sealed, ...]:
    """Returns the names, lengths and sums of the copied bases and of their tables."""
    return sealed_files(to, [basis for basis in bases if os.path.isfile(os.path.join(to, basis))])
