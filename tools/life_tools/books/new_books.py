"""Makes the folders of new books: each is filled beside its final place, synced, read again from the disk, and then renamed.

A killed run leaves at most folders `NAME.new`, which the next run removes, and some folders that are already in place.
"""
from __future__ import annotations

import os
import shutil
from typing import Mapping, Sequence

from life_tools.books.lists import BOOK_NAME
from life_tools.journal.copied_folder import JOURNAL
from life_tools.common.formats import ALL_BOOKS, Wrong, demand
from life_tools.journal.seals import sum_of

NEW = ".new"
SEAL = "old.seal"


def name_of(folder: str) -> str:
    return os.path.basename(os.path.abspath(folder))


def demand_new_folders(folders: Sequence[str], files: Sequence[str]) -> None:
    """Raises Wrong unless the new books can be made: nothing may be at their places, except what a killed run of the same kind
    left."""
    names = [name_of(folder) for folder in folders]
    for folder, name in zip(folders, names):
        is_name = BOOK_NAME.fullmatch(name) and name != ALL_BOOKS
        demand(is_name, f"{name} is no name of a book: up to 64 letters, digits, . _ or -, and not {ALL_BOOKS}")
        demand(not os.path.lexists(folder), f"{folder} is there already: where a killed run left it, remove it")
        demand(os.path.isdir(os.path.dirname(os.path.abspath(folder))), f"there is no folder for {folder}")
        demand_left(folder + NEW, files)
    demand(len(set(names)) == len(names), "two new books have one name")


def demand_left(folder: str, files: Sequence[str]) -> None:
    """Raises Wrong unless the folder does not exist, or has only files that a killed run leaves."""
    if os.path.lexists(folder):
        is_ours = os.path.isdir(folder) and not os.path.islink(folder) and set(os.listdir(folder)) <= set(files)
        demand(is_ours, f"{folder} is there already, and isn't what a killed run left")


def written_through(path: str, data: bytes) -> None:
    """Writes a file, syncs it, and drops it from the system's cache, so that it is read from the disk."""
    with open(path, "xb") as file:
        file.write(data)
        file.flush()
        os.fsync(file.fileno())
        os.posix_fadvise(file.fileno(), 0, 0, os.POSIX_FADV_DONTNEED)


def sync_folder(path: str) -> None:
    handle = os.open(path, os.O_RDONLY | os.O_DIRECTORY)
    try:
        os.fsync(handle)
    finally:
        os.close(handle)


def fill(folder: str, files: Mapping[str, bytes]) -> None:
    """Fills a new folder, and compares what the disk has with what was written."""
    if os.path.isdir(folder):
        shutil.rmtree(folder)
    os.mkdir(folder)
    for name, data in files.items():
        written_through(os.path.join(folder, name), data)
    sync_folder(folder)
    for name, data in files.items():
        with open(os.path.join(folder, name), "rb") as file:
            demand(sum_of(file.read()) == sum_of(data), f"{os.path.join(folder, name)} isn't what was written")


def put_in_place(folders: Sequence[str], parts: Sequence[str], shared: Mapping[str, bytes]) -> None:
    """Copies the journals of these folders into new ones, and renames all of them into place once each is on the disk."""
    try:
        for folder, part in zip(folders, parts):
            with open(os.path.join(part, JOURNAL), "rb") as file:
                fill(folder + NEW, {JOURNAL: file.read(), **shared})
        for folder in folders:
            os.rename(folder + NEW, folder)
            sync_folder(os.path.dirname(os.path.abspath(folder)))
    except OSError as error:
        raise Wrong(f"{error.filename or folders[0]}: {error.strerror}") from error
