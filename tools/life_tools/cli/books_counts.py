"""Positions of a day and room in a list of books: each book's journal is read by a process, and told in the list's order."""
from __future__ import annotations

import contextlib
import io
import sys
from concurrent.futures import ProcessPoolExecutor
from functools import partial
from typing import Callable, Iterator, NamedTuple, Sequence

from life_tools.books.lists import ListedBook
from life_tools.books.runs import Outcome, failure
from life_tools.journal.day_columns import text_at
from life_tools.cli.headroom import Wanted, room_at, told_of
from life_tools.common.formats import Wrong, remark
from life_tools.books.headroom import HEAD
from life_tools.journal.positions import on_day
from life_tools.common.progress import Progress
from life_tools.journal.record_columns import columns_at
from life_tools.journal.wholeness import demand_undamaged, tell


class Counted(NamedTuple):
    """What is printed about a book, its line and its remarks, and the status; or how it failed."""

    line: str
    remarks: str
    status: int
    failed: Outcome | None = None


Look = Callable[[ListedBook], "tuple[str, int]"]


def counted(look: Look, book: ListedBook) -> Counted:
    remarks = io.StringIO()
    with contextlib.redirect_stderr(remarks):
        try:
            line, status = look(book)
        except (Wrong, OSError) as wrong:
            status = wrong.status if isinstance(wrong, Wrong) else Wrong.status
            return Counted("", remarks.getvalue(), status, failure(book.name, wrong))
    return Counted(line, remarks.getvalue(), status)


def each_of(look: Look, books: Sequence[ListedBook], processes: int) -> Iterator[Counted]:
    """Yields what is printed about each book, in their order; the remarks on a book are printed with it."""
    progress = Progress("books", len(books))
    with ProcessPoolExecutor(min(processes, len(books))) as pool:
        for done, found in enumerate(pool.map(partial(counted, look), books), 1):
            progress.end()
            sys.stderr.write(found.remarks)
            yield found
            progress.at(done)
    progress.end()


# --- positions ---

def position_of(day: int, is_last: bool, book: ListedBook) -> tuple[str, int]:
    columns, whole = columns_at(book.journal), tell(demand_undamaged(book.journal))
    found = on_day(columns.days(), day, columns.upgrade())
    if found.astray(is_last):
        remark(f"{book.name}: {found.told(is_last, text_at(day))}")
    return f"{book.name},{found.at(is_last)}\n", whole | bool(found.astray(is_last))


def written(look: Look, books: Sequence[ListedBook], processes: int) -> int:
    """Prints the line of each book; a book that cannot be read has a line too.

    Returns the status of the first such book if any.
    """
    failed, told = 0, 0
    for each in each_of(look, books, processes):
        if each.failed:
            it = each.failed
            sys.stdout.write(f"{it.name},failed,{it.status},{it.line}\n")
            remark(f"{it.name}: status {it.status}: {it.line}")
            failed = failed or it.status
        else:
            sys.stdout.write(each.line)
            told |= each.status
    return failed or told


def run_position_on(books: Sequence[ListedBook], day: int, is_last: bool, processes: int) -> int:
    """Prints the position of a day in each book. Returns 1 if a position lacks a command or has one too many."""
    return written(partial(position_of, day, is_last), books, processes)


# --- headroom ---

def room_told(wanted: Wanted, book: ListedBook) -> tuple[str, int]:
    room, status = room_at(book.journal, book.name, wanted)
    return f"{book.name},{room.row()}\n", told_of(book.name, room, wanted) | status


def run_headroom(books: Sequence[ListedBook], wanted: Wanted, processes: int) -> int:
    print(f"book,{HEAD}", flush=True)
    return written(partial(room_told, wanted), books, processes)
