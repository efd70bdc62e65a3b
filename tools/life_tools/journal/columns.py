"""Reads a journal in bulk: its commands, its policies and its bookings are numpy columns, and the rules judge them.

`columns_at` reads a file as `opening.journal_at` does, about a hundred times as fast, and refuses the same files with the same
messages. An object is made only for a command or policy that is asked for. Positions count from 1, places in columns from 0.
"""
from __future__ import annotations

import io
from dataclasses import dataclass

from life_tools.rules.commands import CODES, command_in
from life_tools.common.formats import Wrong, demand
from life_tools.journal.records import Records, records_of
from life_tools.journal.file import BadJournal, Journal, bad_record
from life_tools.common.arrays import Array, Cents
from life_tools.journal.policy_columns import Policies
from life_tools.journal.blocks import Blocks, blocks_at
from life_tools.journal.wholeness import demand_undamaged
from life_tools.journal.replays import Replay
from life_tools.rules.tables import ACCOUNTS, BOOKINGS


@dataclass(frozen=True)
class Columns:
    """A book: its records; its policies in order of issue, as they are at its end; and two columns more for each record.

    `place` is the place of the record's policy among the policies, or -1 for an upgrade. `booked` is the amount in cents that the
    record moves between two accounts, from which `balances` is computed. `upgrade` is the position of the upgrade, or 0.
    """

    records: Records
    policies: Policies
    place: Array
    booked: Cents
    upgrade: int

    @property
    def count(self) -> int:
        return len(self.records)

    def front(self, count: int) -> Columns:
        """Returns the book after its first `count` commands."""
        demand(0 <= count <= self.count, f"there are {self.count} commands, and not {count}")
        return self if count == self.count else book_of(Replay(self.records.front(count)))

    @property
    def balances(self) -> dict[str, int]:
        balances = dict.fromkeys(ACCOUNTS, 0)
        for kind, booking in BOOKINGS.items():
            cents = booking.sign * int(self.booked[self.records.kind == CODES[kind]].sum())
            balances[booking.first] += cents
            balances[booking.second] -= cents
        return balances


def book_of(replay: Replay) -> Columns:
    assert replay.bad is None
    return Columns(replay.records, replay.policies, replay.place, replay.booked, replay.upgrade)


def why_misspelled(body: bytes) -> str:
    try:
        command_in(body)
    except Wrong as wrong:
        return str(wrong)
    raise AssertionError(f"{body.hex()} spells a command")


def judged_by(blocks: Blocks) -> Columns | Journal:
    """Returns the book of a file; or, like `read_journal`, the program's refusal with its reason."""
    records, misspelled = records_of(blocks)
    count = blocks.count()
    if isinstance(count, Journal):
        return count
    replay = Replay(records)
    if replay.bad is not None:
        return bad_record(replay.bad, f"command {replay.bad + 1} can't follow: {','.join(replay.refusal().words())}")
    if misspelled is not None:
        return bad_record(len(records), why_misspelled(misspelled))
    return book_of(replay)


def judged(data: bytes) -> Columns | Journal:
    """Does the same for the bytes of a file."""
    return judged_by(Blocks(io.BytesIO(data)))


def taken(found: Columns | Journal, path: str, at: int | None = None) -> Columns:
    """Returns the book found in a file, or the book after its first `at` commands; raises Wrong if the file has neither."""
    if isinstance(found, Journal):
        raise BadJournal(path, found.refused, found.why)
    demand(at is None or at <= found.count, f"{path} has {found.count} commands, and not {at}")
    return found if at is None else found.front(at)


def columns_in(data: bytes, path: str) -> Columns:
    """Returns the book of a file's bytes, which must be a journal or the unfinished creation of one."""
    return taken(judged(data), path)


def looked_at(path: str) -> tuple[Columns | Journal, Blocks]:
    """Returns what `judged_by` makes of a file, with its blocks; raises Damaged if commands of the file are known to be gone."""
    with blocks_at(path) as blocks:
        found = judged_by(blocks)
    if blocks.seen:
        demand_undamaged(path, blocks.seen)
    return found, blocks


def columns_at(path: str, at: int | None = None) -> Columns:
    """Returns the book of a journal's file, or the book after its first `at` commands."""
    return taken(looked_at(path)[0], path, at)
