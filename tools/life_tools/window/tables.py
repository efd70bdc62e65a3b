"""Keeps the policies of a book as an SQLite table like that of `export sqlite`: made once, and updated by later records.

A policy that changes keeps its row for the earlier positions: each row says from which position to which it holds, so that a page
of an earlier position stays the same.
"""
from __future__ import annotations

import sqlite3
from contextlib import closing
from dataclasses import replace
from typing import Callable, Iterable, Iterator

from life_tools.common.arrays import np
from life_tools.journal.columns import Columns, columns_at
from life_tools.rules.commands import Command
from life_tools.reports.export_tables import POLICY, policy_rows
from life_tools.common.formats import MOST_COMMANDS, Wrong
from life_tools.rules.policies import Policy, Refusal, decide
from life_tools.valuations.rows import TableRow

Tell = Callable[[str, int, "int | None"], None]
WHOLE = ("policy", "age", "years", "premiums_paid", "amount_cents", "premium_cents", "outstanding_cents")
# a position after all others
NEVER = MOST_COMMANDS + 1
# the columns by which a long list may be sorted; each has an index
INDEXED = ("policy", "issued", "plan", "status", "age", "amount_cents", "premium_cents", "paid_to", "next_due", "last_posted",
           "premiums_paid", "outstanding_cents")
EACH = 1 << 14


def definition(name: str) -> str:
    return f"{name} {'integer' if name in WHOLE else 'text'}"


def opened(path: str) -> sqlite3.Connection:
    """Opens a database for reading only."""
    database = sqlite3.connect(f"file:{path}?mode=ro", uri=True, timeout=30)
    database.row_factory = sqlite3.Row
    return database


def written(path: str, log: str = "wal") -> sqlite3.Connection:
    """Opens a database for writing; it is deleted with the window, so nothing waits for a disk."""
    database = sqlite3.connect(path, isolation_level=None, timeout=30)
    for pragma in (f"journal_mode = {log}", "synchronous = off", "cache_size = -16000"):
        database.execute(f"pragma {pragma}")
    return database


def insert(database: sqlite3.Connection, table: str, columns: int, rows: Iterable[TableRow]) -> None:
    database.executemany(f"insert into {table} values ({','.join('?' * columns)})", rows)


# --- the tables of a position ---

def told(tell: Tell, doing: str, rows: Iterable[TableRow], whole: int) -> Iterator[TableRow]:
    for at, row in enumerate(rows):
        if not at % EACH:
            tell(doing, at, whole)
        yield row


def make(path: str, journal: str, tell: Tell) -> Columns:
    """Makes the table of a journal's file, and returns its book."""
    tell("reading the journal", 0, None)
    book = columns_at(journal)
    with closing(written(path, "off")) as database:
        database.execute("begin")
        make_policies(database, book, tell)
        tell("an order of policies", 0, None)
        database.execute("create index policy_number on policy (policy, since)")
        database.execute("commit")
        # from now on it is read while more is written
        database.execute("pragma journal_mode = wal")
        return book


def make_list(path: str, book: Columns, tell: Tell) -> None:
    """Makes the table of the policies alone, with its indexes."""
    with closing(written(path, "off")) as database:
        database.execute("begin")
        make_policies(database, book, tell)
        database.execute("commit")
        make_orders_in(database)


def make_policies(database: sqlite3.Connection, book: Columns, tell: Tell) -> None:
    database.execute(f"create table policy ({', '.join(map(definition, POLICY))}, since integer, until integer)")
    policies = ((*row, 0, NEVER) for row in policy_rows(book))
    insert(database, "policy", len(POLICY) + 2, told(tell, "policies", policies, len(book.policies)))


def make_orders(path: str) -> None:
    """Makes the indexes by which a long list is sorted quickly."""
    with closing(written(path)) as database:
        make_orders_in(database)


def make_orders_in(database: sqlite3.Connection) -> None:
    for name in INDEXED:
        # the index has all columns that decide whether a row is skipped, so that skipped rows are not read
        database.execute(f"create index if not exists policy_by_{name} on policy ({name}, policy, since, until)")


# --- further records ---

def bring_up_to_date(path: str, journal: str, first: int, tell: Tell) -> Columns:
    """Adds the records after a position, and returns the book in its present state."""
    tell("reading the journal", 0, None)
    book = columns_at(journal)
    changed = np.unique(book.place[first:])
    policies = replace(book, policies=book.policies.at(changed[changed >= 0]))
    with closing(written(path)) as database:
        tell("taking what was posted", 0, None)
        database.execute("begin")
        numbers = policies.policies.number.tolist()
        database.executemany("update policy set until = ? where until = ? and policy = ?",
                             ((book.count, NEVER, number) for number in numbers))
        insert(database, "policy", len(POLICY) + 2, ((*row, book.count, NEVER) for row in policy_rows(policies)))
        database.execute("commit")
    return book


# --- one policy ---

def steps_of(postings: Iterable[tuple[int, Command]]) -> Iterator[tuple[int, Command, Policy]]:
    """Yields each posting with the policy after it, by the rules."""
    policy: Policy | None = None
    for position, command in postings:
        after = decide(policy, command)
        if isinstance(after, Refusal):
            raise Wrong(f"posting {position} can't follow: {','.join(after.words())}")
        policy = after
        yield position, command, policy
