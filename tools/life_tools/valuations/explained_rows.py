"""Compares one row of a valuation, and the policy as the program prints it, with an independent computation."""
from __future__ import annotations

import datetime
import os
from typing import Iterable

from life_tools.journal.copied_folder import JOURNAL
from life_tools.common.formats import demand, money
from life_tools.journal.at_position import BookAt
from life_tools.journal.records import places_at
from life_tools.valuations.printed_books import ValuedRow, account_in
from life_tools.valuations.printed_columns import ColumnValuation, valuation_of
from life_tools.rules.policies import Policy
from life_tools.tables.basis import read_basis
from life_tools.reserves.worked_rows import Worked, cents_about


def row_in(valuation: ColumnValuation, number: int) -> ValuedRow:
    places = (valuation.rows.number == number).nonzero()[0]
    demand(len(places), f"there is no policy {number} at position {valuation.position}")
    return valuation.rows.row(int(places[0]))


def asked(copy: BookAt, valued: Iterable[bytes], number: int) -> tuple[ValuedRow, Policy]:
    """Returns the policy's row of a valuation that comes in parts, and the policy as the program prints it.

    For the policy, the program runs on a copy that has only the policy's commands and the upgrade.
    """
    # 0 is the number of the upgrade, which has no policy
    places = places_at(os.path.join(copy.folder, JOURNAL), copy.position, {0, number})
    row = row_in(valuation_of(valued), number)
    return row, account_in(copy.alone(places).asks("state", str(number)))


def compared(worked: Worked, row: ValuedRow) -> tuple[int, str]:
    """Returns the status, and a line that compares the printed row with the computation."""
    if worked.word or row.word:
        same = worked.word == row.word
        return (0 if same else 1), f"printed: {row.word or 'bounds'}: {'the same' if same else 'not the same'}"
    assert worked.exact is not None
    pairs = [(worked.exact, row.bounds[:2])]
    if len(row.bounds) == 4:
        pairs.append((worked.minimum if worked.minimum is not None else worked.exact, row.bounds[2:]))
    printed = ",".join(money(bound) for bound in row.bounds)
    if not all(low <= exact <= high for exact, (low, high) in pairs):
        return 1, f"printed: {printed}: it does not hold the exact value"
    tight = all(cents_about(exact) == (low, high) for exact, (low, high) in pairs)
    return 0, f"printed: {printed}: " + ("the same" if tight else "it holds the exact value, and is wider than these cents")


def explained(copy: BookAt, valued: Iterable[bytes], number: int, on: datetime.date, basis: str, measure: str,
              whole_fractions: bool) -> tuple[int, list[str]]:
    """Returns the status, and the lines that explain the row."""
    row, policy = asked(copy, valued, number)
    worked = Worked(policy, copy.position, on, read_basis(os.path.join(copy.folder, basis)), measure, whole_fractions)
    status, line = compared(worked, row)
    return status, [*worked.lines, line]
