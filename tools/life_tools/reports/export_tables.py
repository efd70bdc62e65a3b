"""Makes the tables of a journal, their columns and rows, without an object for each command."""
from __future__ import annotations

import itertools
from typing import Iterator, cast

from life_tools.common.arrays import Array, np
from life_tools.journal.columns import Columns
from life_tools.journal.day_columns import texts_at
from life_tools.common.formats import PLANS, STATUSES
from life_tools.journal.record_texts import AT_ONCE, HELD, column_of, in_order
from life_tools.rules.tables import BOOKINGS, GRACE_DAYS, INFORCE, NEVER
from life_tools.valuations.rows import TableRow

CENTS_OF = ("amount", "premium")
COMMAND = ("position", "kind", "policy", "day", "plan", "age", "years", "amount_cents", "premium_cents")
BOOKING = ("position", "account", "cents")
POLICY = ("policy", "status", "plan", "age", "years", "amount_cents", "premium_cents", "issued", "premiums_paid",
          "outstanding_cents", "last_posted", "ends", "paid_to", "next_due", "grace_end")


# --- commands and what they book ---

def command_rows(book: Columns) -> Iterator[TableRow]:
    def made(kind: str, places: Array) -> Iterator[TableRow]:
        held = HELD[kind]
        columns = {name: column_of(book.records, name, places) for name in held if name not in CENTS_OF}
        columns.update({name: getattr(book.records, name)[places].tolist() for name in held if name in CENTS_OF})
        nothing = itertools.repeat(None)
        names = ("policy", "day", "plan", "age", "years", "amount", "premium")
        rows = zip(columns["position"], itertools.repeat(kind), *(columns.get(name, nothing) for name in names))
        return cast(Iterator[TableRow], rows)

    return itertools.chain.from_iterable(in_order(book.records, made, "reading commands"))


def booking_rows(book: Columns) -> Iterator[TableRow]:
    def made(kind: str, places: Array) -> Iterator[tuple[TableRow, ...]]:
        if kind not in BOOKINGS:
            return (() for _ in places)
        first, sign, second, _ = BOOKINGS[kind]
        return (((position, first, sign * cents), (position, second, -sign * cents)) if cents else ()
                for position, cents in zip((places + 1).tolist(), book.booked[places].tolist()))

    for block in in_order(book.records, made, "reading bookings"):
        yield from itertools.chain.from_iterable(block)


# --- policies ---

def policy_rows(book: Columns) -> Iterator[TableRow]:
    """Yields the policies in order of issue.

    Only a policy in force has a next due day; a paid-up policy, or one whose premiums are all paid, is paid to the end of its
    cover.
    """
    for start in range(0, len(book.policies), AT_ONCE):
        of = book.policies.at(slice(start, start + AT_ONCE))
        due, is_paid = of.due, of.due == NEVER
        is_awaited = (of.status == INFORCE) & ~is_paid
        # a policy with no premium to come gets some day here, which is not used
        next_due = np.where(is_awaited, due, of.end)
        awaited = [(day, grace) if each else (None, None)
                   for each, day, grace in zip(is_awaited.tolist(), texts_at(next_due), texts_at(next_due + GRACE_DAYS))]
        names = [STATUSES[code - 1] for code in of.status.tolist()], [PLANS[code] for code in of.plan.tolist()]
        columns = (of.age, of.years, of.amount, of.premium)
        days = texts_at(of.last), texts_at(of.end), texts_at(np.where(is_paid, of.end, due))
        rows = zip(of.number.tolist(), *names, *(each.tolist() for each in columns), texts_at(of.issued), of.paid.tolist(),
                   of.outstanding.tolist(), *days, awaited)
        for *row, (day, grace) in rows:
            yield (*row, day, grace)
