"""Analyses the change between two valuations: each policy's change is put on one line, and the lines add up exactly.

The analysis rests on four valuations by the program: the opening one, the later book on the opening day, the later book on the
closing day, and the same by another basis. From each one to the next only one thing changes: the postings, the time, or the
basis. So the lines add up to the closing reserve, both in the lower bounds and in the upper bounds: each is an analysis of its
own. A line between opening and closing shows how a sum of bounds changed; it is not a bound of an exact change.
"""
from __future__ import annotations

from dataclasses import dataclass
from typing import NamedTuple

from life_tools.common.arrays import Array, Cents, np
from life_tools.rules.commands import CODES
from life_tools.common.formats import Wrong, demand
from life_tools.journal.records import PREMIUM, REINSTATE, SETTLE, Records
from life_tools.valuations.printed_columns import ColumnValuation
from life_tools.journal.replays import places_of

# the lines of the analysis, in their order
OPENING, CLOSING = "opening reserve", "closing reserve"
ISSUES, TIME, BASIS = "new issues", "time gone by", "change of basis"
BY_KIND = {"claim": "claims", "settle": "settlements", "mature": "maturities", "lapse": "lapses", "reinstate": "reinstatements",
           "alter": "alterations", "paidup": "made paid up"}
LINES = (OPENING, ISSUES, *BY_KIND.values(), TIME, BASIS, CLOSING)
# for the code of each kind of posting, the place of its line, or 0 if it has none
LINE_OF = np.array([LINES.index(BY_KIND[kind]) if kind in BY_KIND else 0 for kind in ("", *CODES)], np.uint8)
Pair = tuple[int, int]


@dataclass(frozen=True)
class Changes:
    """Policies in order of issue, each with the place of the line for its postings, or 0.

    All amounts are pairs of cents, by lower and by upper bounds: the opening, the closing, and what postings, time and basis
    changed.
    """

    number: Array
    line: Array
    opening: Cents
    posted: Cents
    time: Cents
    basis: Cents
    closing: Cents

    def __len__(self) -> int:
        return len(self.number)


def lines_by_policy(records: Records, numbers: Array) -> Array:
    """Returns for each policy the line of its last posting that is not a premium.

    A settlement counts only if there is no other such posting.
    """
    lines, place = LINE_OF[records.kind], places_of(records.number, numbers)
    found, counts, settled = np.zeros(len(numbers), np.uint8), (lines > 0) & (place >= 0), records.kind == SETTLE
    for chosen in (counts & settled, counts & ~settled):
        # of equal places the last assignment stays
        found[place[chosen]] = lines[chosen]
    return found


def bounds_of(valuation: ColumnValuation) -> Cents:
    """Returns the bounds that matter for the measure: by `deficiency`, those of the minimum reserve, which follow the others."""
    return valuation.rows.bounds[:, -2:]


def pair_of(cents: Cents) -> Pair:
    lower, upper = cents.tolist()
    return lower, upper


def changes_of(opening: ColumnValuation, later_book: ColumnValuation, later_day: ColumnValuation, closing: ColumnValuation,
               records: Records) -> Changes:
    """Returns the change of each policy of the later book, which begins with the earlier book's policies in the same order."""
    before, booked, aged, after = map(bounds_of, (opening, later_book, later_day, closing))
    numbers, known = closing.rows.number, len(before)
    same = np.array_equal(opening.rows.number, numbers[:known])
    demand(same and len(booked) == len(aged) == len(after), "the later book doesn't begin with the policies of the earlier one")
    opened, posted, time = np.zeros_like(after), aged.copy(), aged - booked
    opened[:known], posted[:known], time[known:] = before, booked[:known] - before, 0
    line = lines_by_policy(records, numbers)
    wrong = np.flatnonzero((line[:known] == 0) & posted[:known].any(axis=1))
    if len(wrong):
        moved = pair_of(posted[wrong[0]])
        raise Wrong(f"policy {numbers[wrong[0]]} changed by {moved} without a posting that changes a reserve")
    line[known:] = LINES.index(ISSUES)
    return Changes(numbers, line, opened, posted, time, after - aged, after)


class Moved(NamedTuple):
    """A line of the analysis: the number of policies, and the sums of the lower and of the upper bounds, or their changes, in
    cents."""

    name: str
    policies: int
    cents: Pair


def moved_by(name: str, cents: Cents, is_counted: Array | None = None) -> Moved:
    """Returns a line whose count is the number of policies that are counted, or that changed."""
    counted = cents.any(axis=1) if is_counted is None else is_counted
    return Moved(name, int(np.count_nonzero(counted)), pair_of(cents[counted].sum(axis=0, dtype=np.int64)))


def analysis(changes: Changes, opening: ColumnValuation, closing: ColumnValuation) -> list[Moved]:
    """Returns all lines, and raises Wrong unless they lead from the printed opening reserve to the printed closing reserve."""
    lines = [moved_by(OPENING, changes.opening, changes.line != LINES.index(ISSUES))]
    lines += [moved_by(name, changes.posted, changes.line == place) for place, name in enumerate(LINES[1:-3], 1)]
    lines += [moved_by(TIME, changes.time), moved_by(BASIS, changes.basis)]
    lines.append(moved_by(CLOSING, changes.closing, np.ones(len(changes), bool)))
    demand_adds_up(lines, opening, closing)
    return lines


def demand_adds_up(lines: list[Moved], opening: ColumnValuation, closing: ColumnValuation) -> None:
    first, last = lines[0].cents, lines[-1].cents
    demand(first == opening.total[-2:], f"the opening reserves add up to {first}, not to the printed total")
    demand(last == closing.total[-2:], f"the closing reserves add up to {last}, not to the printed total")
    added = tuple(sum(line.cents[bound] for line in lines[:-1]) for bound in (0, 1))
    demand(added == last, f"the lines add up to {added}, not to the closing reserve {last}")


class Cash(NamedTuple):
    """The money that came in and went out between the positions, in cents: premiums with reinstatements, and settlements."""

    premiums: int
    settlements: int


def cash_of(records: Records) -> Cash:
    received, paid = (int(records.amount[np.isin(records.kind, kinds)].sum()) for kinds in ((PREMIUM, REINSTATE), (SETTLE,)))
    return Cash(received, paid)


def demand_booked(cash: Cash, before: dict[str, int], after: dict[str, int]) -> None:
    """Raises Wrong unless the balances that the program printed at both positions moved by exactly this."""
    moved = {account: after[account] - before[account] for account in after}
    said = f"the accounts moved by {moved} cents, and the postings make {cash}"
    demand(-moved["premiums"] == cash.premiums and moved["cash"] == cash.premiums - cash.settlements, said)
