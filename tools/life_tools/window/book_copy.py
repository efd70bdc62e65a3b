"""Keeps a book for the window: a private copy of its journal's prefix and of its basis, and the tables made from the copy.

The journal itself is only opened for reading, and no longer than the copy takes: what is posted meanwhile comes after the copy's
position. A basis is kept as it was when it was copied, so that a page made with it stays the same.
"""
from __future__ import annotations

import datetime
import hashlib
import os
import shutil
import sqlite3
import threading
from contextlib import contextmanager
from dataclasses import dataclass, fields
from typing import Callable, Iterable, Iterator

from life_tools.books.lists import ListedBook
from life_tools.common.formats import Wrong, bytes_of, demand
from life_tools.journal.columns import Columns, columns_at
from life_tools.journal.copied_folder import JOURNAL, basis_files, copy_basis
from life_tools.journal.file import EMPTY, count_of, gate_of
from life_tools.journal.policy_columns import Policies
from life_tools.journal.record_columns import copy_prefix, prefix_count
from life_tools.journal.records import Records
from life_tools.reports.provenance import AT_ONCE, prefix_sum, shown
from life_tools.journal.wholeness import demand_undamaged
from life_tools.window import tables
from life_tools.window.history import NAMES, History, history_of
from life_tools.window.jobs import Job, Jobs
from life_tools.window.kept_columns import keep, kept

# number of results that are kept for a book
MOST_KEPT = 24
POLICIES = tuple(column.name for column in fields(Policies))
RECORDS = tuple(column.name for column in fields(Records))
Stamp = tuple[object, ...]


@dataclass(frozen=True)
class TakenBasis:
    """A basis file with its tables as they were copied: its name, their SHA-256, and the private folder with the copies."""

    name: str
    sum: str
    folder: str


@dataclass(frozen=True)
class KeptPolicies:
    """The path of a folder with the policies of a position as columns."""

    path: str


@dataclass(frozen=True)
class KeptList:
    """The path of a file with the policies of a position as a table."""

    path: str


def basis_sum(folder: str, name: str) -> str:
    """Returns the SHA-256 of a basis file and its tables, including their names."""
    found = hashlib.sha256()
    for each in basis_files(folder, name):
        found.update(each.encode() + b"\0" + bytes_of(os.path.join(folder, each)))
    return found.hexdigest()


def stamp_of(*paths: str) -> Stamp:
    """Returns values that change if a file is written again; the files are not read for this."""
    found = []
    for path in paths:
        stat = os.stat(path)
        found.append((path, stat.st_dev, stat.st_ino, stat.st_size, stat.st_mtime_ns))
    return tuple(found)


def it_is(seen: str) -> str:
    return f"they have {seen}" if " " not in seen else seen


class BookCopy:
    """A book of the window, with its private folder, its tables and the results that were asked for."""

    def __init__(self, number: int, book: ListedBook, private: str, life: list[str], root: str = "") -> None:
        self.number, self.book, self.life, self.root = number, book, life, root
        self.name = shown(book.name)
        self.folder = os.path.join(private, f"book-{number}")
        self.scratch = os.path.join(self.folder, "scratch")
        for folder in (self.folder, self.scratch):
            os.mkdir(folder, 0o700)
        self.journal = os.path.join(self.folder, JOURNAL)
        self.database = os.path.join(self.folder, "tables")
        self.positions: list[int] = []
        self.made_at = datetime.datetime.now()
        self.bases: list[TakenBasis] = []
        self.sums: dict[int, str] = {}
        self.seen: dict[str, tuple[Stamp, str]] = {}
        self.files = 0
        self.counting = threading.Lock()
        self.jobs = Jobs(MOST_KEPT, self.forget)

    # --- the copy and its tables ---

    @property
    def newest(self) -> int:
        return self.positions[-1]

    @property
    def basis(self) -> TakenBasis:
        """Returns the book's own basis as it was last copied."""
        return next(each for each in reversed(self.bases) if each.name == self.book.basis)

    def sum_at(self, position: int) -> str:
        """Returns the SHA-256 of the journal up to a position; it is the same for every later copy."""
        if position not in self.sums:
            self.sums[position] = prefix_sum(self.folder, position)
        return self.sums[position]

    def sum_all(self, positions: Iterable[int]) -> None:
        """Computes the same for many positions, and reads the journal only once."""
        found = hashlib.sha256()
        with open(self.journal, "rb") as file:
            for position in sorted(set(positions) - set(self.sums)):
                while (left := gate_of(position) - file.tell()) > 0:
                    found.update(file.read(min(left, AT_ONCE)))
                self.sums[position] = found.copy().hexdigest()

    def open(self) -> None:
        """Makes the copy and the tables if they are not made yet, and raises Working meanwhile."""
        if not self.positions:
            self.jobs.asked("open", f"opening the book {self.name}", self.make)
        if not self.jobs.is_known("orders"):
            self.jobs.job("orders", "orders of the lists", lambda job: tables.make_orders(self.database))

    def make(self, job: Job) -> str:
        job.at("copying the journal")
        self.take_copy()
        self.take_book(tables.make(self.database, self.journal, job.at))
        return self.database

    def take_book(self, book: Columns) -> None:
        """Keeps the columns of a book, so that its position can be shown from now on."""
        keep(self.policies_at(book.count), POLICIES, book.policies)
        keep(self.history_at(book.count), NAMES, history_of(book))
        keep(self.records_at(book.count), RECORDS, book.records)
        self.sum_at(book.count)
        self.positions.append(book.count)

    def policies_at(self, position: int) -> str:
        return os.path.join(self.folder, f"policies-{position}")

    def history_at(self, position: int) -> str:
        return os.path.join(self.folder, f"history-{position}")

    def records_at(self, position: int) -> str:
        return os.path.join(self.folder, f"records-{position}")

    def policies(self, position: int) -> Policies:
        """Returns the policies of a position as columns, and raises Working while those of an earlier position are made."""
        path = self.policies_at(position)
        if position not in self.positions:
            title = f"the policies at position {position:,}"
            found = self.kept(("policies", position), title, lambda job: self.make_policies(position))
            assert isinstance(found, KeptPolicies)
            path = found.path
        return Policies(*kept(path, POLICIES))

    def make_policies(self, position: int) -> KeptPolicies:
        path = self.new_file()
        keep(path, POLICIES, columns_at(self.journal, position).policies)
        return KeptPolicies(path)

    def history(self, position: int) -> History:
        """Returns what the book was at each position up to this one."""
        return History(*(column[:position] for column in kept(self.history_at(self.newest), NAMES)))

    def records(self, position: int) -> Records:
        """Returns the postings up to a position."""
        return Records(*kept(self.records_at(self.newest), RECORDS)).front(position)

    # --- the journal and the basis as they are now ---

    def take_copy(self) -> None:
        """Copies the journal's prefix up to its present count, and the basis."""
        demand(os.path.isfile(self.book.journal), f"{self.book.journal}: No such file or directory")
        demand_undamaged(self.book.journal)
        new = os.path.join(self.folder, "new")
        copy_prefix(self.book.journal, None, new)
        if prefix_count(new) is None:
            # for a file that is not a plain journal the reason is reported; an unfinished creation counts as an empty journal
            count_of(bytes_of(new), self.book.journal)
            with open(new, "wb") as file:
                file.write(EMPTY)
        os.replace(new, self.journal)
        self.take_basis(self.book.basis)
        self.made_at = datetime.datetime.now()

    def take_basis(self, name: str) -> TakenBasis:
        """Returns a copy of a basis of the book's folder, with its tables, in its present state.

        If the same bytes were copied before, that earlier copy is returned.
        """
        new = self.new_file()
        os.mkdir(new, 0o700)
        copy_basis(self.book.folder, name, new)
        found = basis_sum(new, name)
        for at, each in enumerate(self.bases):
            if (each.name, each.sum) == (name, found):
                shutil.rmtree(new)
                # the basis that was taken last is kept last in the list
                self.bases.append(self.bases.pop(at))
                return each
        os.symlink(os.path.join("..", JOURNAL), os.path.join(new, JOURNAL))
        self.bases.append(TakenBasis(name, found, new))
        return self.bases[-1]

    def behind(self) -> int:
        """Returns how many postings the journal now has after the newest position."""
        try:
            count = prefix_count(self.book.journal)
        except (Wrong, OSError):
            return 0
        return max((count or 0) - self.newest, 0)

    def changes(self) -> list[str]:
        """Returns what has changed since it was copied, with what it was and what it is."""
        return [says for says in (self.journal_change(), self.basis_change()) if says]

    def journal_change(self) -> str:
        """Returns why the journal is no longer the one that was copied, or "" if the copy is its prefix."""
        count, was = self.newest, self.sum_at(self.newest)
        now = self.looked_at(f"journal {count}", lambda: [self.book.journal], lambda: prefix_sum(self.book.folder, count))
        if now == was:
            return ""
        return (f"The journal is no longer the one with which this window was opened. Its first {count:,} postings had the "
                f"SHA-256 {was}; now {it_is(now)}. The pages show the copy that the window made.")

    def basis_change(self) -> str:
        taken, folder = self.basis, self.book.folder
        now = self.looked_at("basis", lambda: [os.path.join(folder, each) for each in basis_files(folder, taken.name)],
                             lambda: basis_sum(folder, taken.name))
        if now == taken.sum:
            return ""
        return (f"The basis {taken.name} or a table of it changed: with its tables it had the SHA-256 {taken.sum}; now "
                f"{it_is(now)}. The pages are by the basis as it was.")

    def looked_at(self, what: str, paths: Callable[[], list[str]], look: Callable[[], str]) -> str:
        """Returns what `look` finds about files, looked up again if they were written since, or why nothing can be found."""
        try:
            stamp = stamp_of(*paths())
            seen = self.seen.get(what)
            if seen is None or seen[0] != stamp:
                seen = stamp, look()
                self.seen[what] = seen
            return seen[1]
        except (OSError, Wrong):
            return "it is shorter, or it is gone"

    def bring_up_to_date(self, job: Job) -> int:
        """Copies what was posted since and the present basis; the old copy must be a prefix of the new one.

        Returns the position.
        """
        first = self.newest
        job.at("copying the journal")
        change = self.journal_change()
        demand(not change, f"{change} Open another window for the journal as it is now.")
        self.take_copy()
        if prefix_count(self.journal) == first:
            return first
        self.take_book(tables.bring_up_to_date(self.database, self.journal, first, job.at))
        return self.newest

    # --- what is asked of it ---

    @contextmanager
    def lists(self, position: int) -> Iterator[sqlite3.Connection]:
        """Opens the policies of a position as a table, and raises Working while the table of an earlier position is made."""
        path = self.database
        if position not in self.positions:
            title = f"the policies at position {position:,} as a list"
            found = self.kept(("list", position), title, lambda job: self.make_list(position, job))
            assert isinstance(found, KeptList)
            path = found.path
        database = tables.opened(path)
        try:
            yield database
        finally:
            database.close()

    def make_list(self, position: int, job: Job) -> KeptList:
        path = self.new_file()
        tables.make_list(path, columns_at(self.journal, position), job.at)
        return KeptList(path)

    def new_file(self) -> str:
        """Returns the path of a new private file; it has no text from a request."""
        with self.counting:
            self.files += 1
            return os.path.join(self.folder, f"file-{self.files}")

    @contextmanager
    def desk_at(self, position: int, basis: TakenBasis) -> Iterator[str]:
        """Makes a temporary private folder with the prefix at a position and the basis."""
        folder = self.new_file()
        os.mkdir(folder, 0o700)
        try:
            copy_prefix(self.journal, position, os.path.join(folder, JOURNAL))
            copy_basis(basis.folder, basis.name, folder)
            yield folder
        finally:
            shutil.rmtree(folder, ignore_errors=True)

    def forget(self, result: object) -> None:
        """Removes the file or the folder that a result names as its `path`."""
        path = getattr(result, "path", None)
        if path and os.path.dirname(path) == self.folder:
            if os.path.isdir(path):
                shutil.rmtree(path, ignore_errors=True)
            elif os.path.exists(path):
                os.remove(path)

    def kept(self, key: tuple[object, ...], title: str, work: Callable[[Job], object]) -> object:
        """Returns the result of some work, which is done only once for each key."""
        return self.jobs.asked(key, title, work)

    def without_paths(self, text: str) -> str:
        """Returns a text for a page, without any path of this machine."""
        for path, name in ((self.book.journal, "journal.life"), (self.book.folder, self.name), (self.folder, "copy")):
            text = text.replace(path + os.sep, "").replace(path, name)
        return text
