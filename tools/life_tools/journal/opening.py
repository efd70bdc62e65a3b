"""Opens a journal's file as a book of commands, each judged by the rules again; nothing is shown of a damaged file."""
from __future__ import annotations

import io

from life_tools.common.formats import Wrong, bytes_of, number_of
from life_tools.journal.blocks import Blocks
from life_tools.journal.file import BadJournal, Journal, read_journal
from life_tools.journal.wholeness import demand_undamaged
from life_tools.rules.policies import Book


def journal_at(path: str) -> Journal:
    """Returns the journal of a file.

    The file must be a journal or the unfinished creation of one, and no command may be known to be gone from it.
    """
    data = bytes_of(path)
    journal = read_journal(data)
    if journal.refused:
        raise BadJournal(path, journal.refused, journal.why)
    demand_undamaged(path, Blocks(io.BytesIO(data)).through().seen)
    return journal


def book_at(path: str, position: str) -> Book:
    """Returns the book at a position of a journal's file, and raises Wrong if the journal has no such position."""
    commands = journal_at(path).commands
    count = number_of(position, 0, len(commands))
    if count is None:
        raise Wrong(f"{position} is no position of {path}, which has {len(commands)} commands")
    return Book(commands[:count])
