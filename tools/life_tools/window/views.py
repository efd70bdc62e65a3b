"""Defines what a page shows: a book at a position by a basis; the page's address is tied to the SHA-256 of both."""
from __future__ import annotations

import datetime
import hashlib
import os
import re
import sqlite3
from contextlib import contextmanager
from functools import cached_property
from typing import Callable, Iterator, Mapping, Sequence
from urllib.parse import urlencode

from life_tools.books.lists import ListedBook
from life_tools.common.formats import MOST_BASIS_BYTES, MOST_COMMANDS, Wrong, number_of
from life_tools.journal.day_columns import day_at, number_at
from life_tools.journal.policy_columns import Policies
from life_tools.journal.records import Records
from life_tools.tables.basis import NAME
from life_tools.window.asked import Asked, BadRequest, shown
from life_tools.window.book_copy import BookCopy, TakenBasis
from life_tools.window.history import History
from life_tools.window.jobs import Job

# a position, with or without the tie to a journal's prefix and a basis
AT = re.compile("([0-9]{1,7})(?:-([0-9a-f]{12}))?")
TIE = 12
# at most so many other bases of a folder are offered
MOST_BASES = 30
# the arguments that may name the position a page shows; the first one that is there counts
POSITIONS = ("p2", "p")


class Gone(Wrong):
    """A page was of a journal or a basis that this window does not have any more."""


def address(root: str, number: int, page: str, words: Mapping[str, object]) -> str:
    """Returns the address of a page of a book; arguments without a value are left out."""
    given = {name: str(value) for name, value in words.items() if value not in (None, "")}
    return f"{root}/{number}/{page}" + (f"?{urlencode(given)}" if given else "")


class View:
    """A book as a page shows it."""

    def __init__(self, copy: BookCopy, at: int, basis: TakenBasis) -> None:
        self.copy, self.at, self.basis = copy, at, basis
        self.number, self.life = copy.number, copy.life

    # --- what it is of ---

    @property
    def listed(self) -> ListedBook:
        return self.copy.book

    @property
    def name(self) -> str:
        return self.copy.name

    @property
    def desk(self) -> str:
        """Returns the private folder with the copied journal, the basis and its tables."""
        return self.basis.folder

    @property
    def prefix_sum(self) -> str:
        """Returns the SHA-256 of the journal up to this position."""
        return self.copy.sum_at(self.at)

    @cached_property
    def tie(self) -> str:
        return tie_of(self.prefix_sum, self.basis.sum)

    @cached_property
    def day(self) -> str | None:
        """Returns the day of the last posting up to this position, or None."""
        days = self.history().days()
        return str(day_at(int(days[-1]))) if len(days) else None

    @cached_property
    def last_day(self) -> datetime.date | None:
        """Returns the last day that has a posting up to this position, days far ahead not counted, or None."""
        day = self.history().last_day(number_at(datetime.date.today()))
        return None if day is None else day_at(day)

    @property
    def today(self) -> datetime.date:
        """Returns the present day, or for an earlier position its last day."""
        now = datetime.date.today()
        return now if self.at == self.copy.newest else self.last_day or now

    @property
    def is_newest(self) -> bool:
        return self.at == self.copy.newest and self.basis is self.copy.basis

    def at_position(self, position: int) -> View:
        return self if position == self.at else View(self.copy, position, self.basis)

    def by_basis(self, basis: TakenBasis) -> View:
        return View(self.copy, self.at, basis)

    # --- addresses ---

    def link(self, page: str, /, **words: object) -> str:
        """Returns the address of a page of this position by this basis."""
        return address(self.copy.root, self.number, page, {"at": f"{self.at}-{self.tie}", **words})

    def newest_link(self, page: str, /, **words: object) -> str:
        return address(self.copy.root, self.number, page, words)

    def other_bases(self) -> list[str]:
        """Returns the files of the book's folder that may be another basis: small files with a suitable name."""
        try:
            with os.scandir(self.listed.folder) as found:
                names = [each.name for each in found if each.name.endswith(".csv") and NAME.fullmatch(each.name)
                         and each.is_file() and each.stat().st_size <= MOST_BASIS_BYTES]
        except OSError:
            return []
        return sorted(name for name in names if name != self.basis.name)[:MOST_BASES]

    # --- what is known of it ---

    def kept(self, key: tuple[object, ...], title: str, work: Callable[[Job], object]) -> object:
        """Returns the result of some work by this basis."""
        return self.copy.kept((self.basis.sum, *key), title, work)

    def policies(self) -> Policies:
        return self.copy.policies(self.at)

    def history(self) -> History:
        """Returns what the book was at each position up to this one."""
        return self.copy.history(self.at)

    def records(self) -> Records:
        """Returns the postings up to this position."""
        return self.copy.records(self.at)

    @contextmanager
    def lists(self) -> Iterator[sqlite3.Connection]:
        """Opens the policies of this position as a table."""
        with self.copy.lists(self.at) as database:
            yield database

    @contextmanager
    def desk_at_position(self) -> Iterator[str]:
        with self.copy.desk_at(self.at, self.basis) as desk:
            yield desk


def tie_of(prefix: str, basis: str) -> str:
    return hashlib.sha256(f"{prefix} {basis}".encode()).hexdigest()[:TIE]


def view_of(copy: BookCopy, asked: Asked) -> View:
    """Returns what an address asks to see, and raises Gone if it was of a journal or a basis that is no longer there."""
    text = asked.text("at")
    parts = AT.fullmatch(text) if text else None
    at = number_of(parts[1], 0, MOST_COMMANDS) if parts else copy.newest
    if text and (parts is None or at is None or at > copy.newest):
        raise BadRequest(f"Position: {shown(text)} is no position of this book, which goes to {copy.newest}")
    assert at is not None
    view = tied(copy, at, parts[2]) if parts and parts[2] else View(copy, at, copy.basis)
    for name in POSITIONS:
        if asked.text(name):
            return view.at_position(asked.position(name, copy.newest, at))
    return view


def tied(copy: BookCopy, at: int, tie: str) -> View:
    """Returns the view of an address, by the basis with which the address was made."""
    for basis in reversed(copy.bases):
        view = View(copy, at, basis)
        if view.tie == tie:
            return view
    raise Gone(f"this page was made of position {at:,} with the sum {tie} of journal and basis; the window has the sum "
               f"{View(copy, at, copy.basis).tie} for that position, so the page can't be made any more")


def paged_words(words: Mapping[str, object], to: int) -> dict[str, object]:
    """Returns the arguments of a list's address, for another page."""
    return {**words, "page": to}


def turns(link: Callable[[int], str], now: int, last: int) -> list[tuple[str, str]]:
    """Returns the links to other pages of a list, with their texts."""
    places: Sequence[tuple[str, int]] = (("first", 1), ("before", now - 1), ("next", now + 1), ("last", last))
    return [(says, link(to)) for says, to in places if 1 <= to <= last and to != now]
