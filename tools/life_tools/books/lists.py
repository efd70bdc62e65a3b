"""Reads lists of books, CSV files with a name, a folder and the name of a basis file in each row, and lists of positions."""
from __future__ import annotations

import os
import re
from dataclasses import dataclass

from life_tools.common.formats import ALL_BOOKS, MOST_COMMANDS, Wrong, bytes_of, demand, number_of, rows_in
from life_tools.tables.basis import NAME

BOOK_NAME = re.compile("[A-Za-z0-9][A-Za-z0-9._-]{0,63}")


@dataclass(frozen=True)
class ListedBook:
    """A book of a list; its folder is absolute, and need not exist."""

    name: str
    folder: str
    basis: str

    @property
    def journal(self) -> str:
        return os.path.join(self.folder, "journal.life")


def listed_book(fields: tuple[str, ...], beside: str) -> ListedBook:
    demand(len(fields) == 3, "it has a name, a folder and a basis file")
    name, folder, basis = fields
    is_name = BOOK_NAME.fullmatch(name) and name != ALL_BOOKS
    demand(is_name, f"{name or 'nothing'} is no name of a book: up to 64 letters, digits, . _ or -, and not {ALL_BOOKS}")
    demand(folder, "its folder is empty")
    demand(NAME.fullmatch(basis), f"{basis or 'nothing'} is no name of a basis file")
    return ListedBook(name, os.path.realpath(os.path.join(beside, folder)), basis)


def demand_once(book: ListedBook, before: list[ListedBook]) -> None:
    for other in before:
        demand(other.name != book.name, f"the name {book.name} stands twice")
        demand(other.folder != book.folder, f"{book.name} is the folder of {other.name}")
        if os.path.exists(book.journal) and os.path.exists(other.journal):
            demand(not os.path.samefile(book.journal, other.journal), f"{book.name} has the journal of {other.name}")


def books_at(path: str) -> list[ListedBook]:
    """Returns the books of a list; folders are relative to the list's own folder."""
    found: list[ListedBook] = []
    for row in rows_in(bytes_of(path)):
        try:
            book = listed_book(row.fields, os.path.dirname(os.path.abspath(path)))
            demand_once(book, found)
        except Wrong as wrong:
            raise Wrong(f"{path}, line {row.line}: {wrong}") from wrong
        found.append(book)
    demand(found, f"{path} has no book")
    return found


def positions_at(path: str, books: list[ListedBook]) -> dict[str, int]:
    """Returns a position for each book from rows of a name and a position, as `position-on` prints them."""
    found: dict[str, int] = {}
    for row in rows_in(bytes_of(path)):
        position = number_of(row.fields[1], 0, MOST_COMMANDS) if len(row.fields) == 2 else None
        if position is None:
            raise Wrong(f"{path}, line {row.line}: {row.text} is no name with a position")
        demand(row.fields[0] not in found, f"{path}, line {row.line}: the name {row.fields[0]} stands twice")
        found[row.fields[0]] = position
    names = [book.name for book in books]
    missing, strange = [name for name in names if name not in found], [name for name in found if name not in names]
    demand(not missing, f"{path} has no position of {', '.join(missing)}")
    demand(not strange, f"{path} has a position of {', '.join(strange)}, which the list of books hasn't")
    return found
