"""Makes a book from a copy: only in a folder that has no book, and only if the sealed bytes are unchanged."""
from __future__ import annotations

import os
import shutil
from typing import NamedTuple

from life_tools.backup.copies import FILES, PREFIX, SEAL, Differs, pieces, seal_in_copy
from life_tools.backup.files import copy_files
from life_tools.common.formats import Wrong, demand, opened
from life_tools.desk.entries import LOG
from life_tools.desk.records import sync_folder
from life_tools.journal.seals import Seal, file_difference, front_difference
from life_tools.journal.wholeness import CHECKPOINT, JOURNAL, Shape, beside, shape_with

# what a folder may not contain if a book is to be made in it
OWN = (JOURNAL, CHECKPOINT, LOG)


class Restored(NamedTuple):
    """A restored book: the shape of its journal by the log that came with it, and the differences from the seal."""

    shape: Shape
    differences: list[str]


def demand_free(folder: str) -> None:
    """Raises Wrong if the folder already has a file of a book."""
    for name in OWN:
        path = os.path.join(folder, name)
        demand(not os.path.lexists(path), f"{path} is there already; nothing was restored: name an empty folder")


def seal_of_copy(copy: str) -> Seal:
    """Returns the seal of a copy, and raises an error if the copy's journal is not as it was sealed."""
    seal = seal_in_copy(copy)
    if seal is None:
        raise Wrong(f"{copy} has no {SEAL}, so it is no finished backup")
    difference = front_difference(seal, os.path.join(copy, PREFIX))
    if difference:
        raise Differs(f"{difference}, by {os.path.join(copy, SEAL)}; nothing was restored: take another copy")
    return seal


def write_journal(copy: str, seal: Seal, path: str) -> None:
    """Writes the journal of the sealed postings: their bytes and a commit byte of 0. The file is complete or not there at all."""
    part = os.path.join(os.path.dirname(path), f".{os.path.basename(path)}.part")
    with opened(os.path.join(copy, PREFIX)) as prefix, open(part, "wb") as written:
        for piece in pieces(prefix, 0, seal.size):
            written.write(piece)
        written.write(bytes(1))
        written.flush()
        os.fsync(written.fileno())
    os.replace(part, path)
    sync_folder(os.path.dirname(path))


def all_files(top: str) -> list[str]:
    """Returns the files of a copy by the names that they have in the book."""
    found = []
    for above, _, names in os.walk(top):
        found += [os.path.relpath(os.path.join(above, name), top) for name in names if not name.endswith(".part")]
    return sorted(found)


def restore(copy: str, folder: str) -> Restored:
    """Makes a book from a copy.

    The journal is written last: a folder without one is not a book yet, so this can be called again after an interruption.
    """
    seal = seal_of_copy(copy)
    folder = os.path.abspath(folder)
    os.makedirs(folder, exist_ok=True)
    demand_free(folder)
    files = os.path.join(copy, FILES)
    try:
        copy_files(files, all_files(files), folder)
        path = os.path.join(folder, JOURNAL)
        write_journal(copy, seal, path)
    except OSError as error:
        shutil.rmtree(os.path.join(folder, LOG), ignore_errors=True)
        raise Wrong(f"{error.filename or folder}: {error.strerror}; no journal was made") from error
    found = [front_difference(seal, path), *(file_difference(each, folder) for each in seal.files)]
    return Restored(shape_with(path, *beside(path)), [each for each in found if each])
