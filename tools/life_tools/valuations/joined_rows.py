"""Reads a valuation and its rows joined with their policies, both printed by the program from the same copy of a book."""
from __future__ import annotations

from life_tools.journal.at_position import book_at
from life_tools.valuations.class_bases import Bases
from life_tools.valuations.class_columns import basis_rows, valued_columns
from life_tools.valuations.groups import Joined, joined
from life_tools.valuations.printed_columns import ColumnValuation, state_of


def read_both(folder: str, position: int | None, life: str | None, on: str, bases: Bases, measure: str,
              made: ColumnValuation | None = None) -> tuple[ColumnValuation, Joined]:
    """Returns the valuation and its rows with their policies from one copy; `made` is used as the valuation if it is given."""
    with book_at(folder, position, bases.names, life) as copy:
        valuation = made or valued_columns(copy, on, bases, measure)
        state = state_of(copy.streams("state"))
        basis = basis_rows(copy.folder, bases, state.policies.number, state.policies.issued)
    return valuation, joined(valuation, state, basis)
