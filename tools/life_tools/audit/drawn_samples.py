"""Draws a sample from the rows of a valuation that the program prints, with the size for which each row counts."""
from __future__ import annotations

import datetime
from dataclasses import dataclass
from typing import NamedTuple

from life_tools.common.arrays import Cents, np
from life_tools.valuations.class_bases import Bases
from life_tools.journal.day_columns import number_at
from life_tools.valuations.joined_rows import read_both
from life_tools.common.formats import demand, money
from life_tools.valuations.printed_columns import ColumnValuation, Rows, StatePolicies
from life_tools.audit.samples import BY, MEASURED, Head, Numbers, Sample, sample_from
from life_tools.audit.sampling import Draw, draw
from life_tools.rules.tables import CODE_OF_STATUS


class Drawable(NamedTuple):
    """The first line of a valuation, its rows, the size of each in cents, and the number of rows with a word."""

    head: Head
    rows: Rows
    sizes: Cents
    words: int


@dataclass(frozen=True)
class Drawn:
    """A sample, how it was drawn, and how many rows have a word in place of a reserve."""

    sample: Sample
    draw: Draw
    words: int

    def told(self) -> list[str]:
        """Returns the lines that are printed for a person besides the rows."""
        sample, drawn = self.sample, self.draw
        lines = [f"{len(sample.rows)} of {sample.policies} rows were drawn by {sample.by}, of {money(sample.total)} in "
                 f"all; the interval is {money(drawn.total // drawn.asked)}",
                 f"rows of at least the interval, which are drawn for certain: {drawn.certain}",
                 f"rows of 0, which can't be drawn: {drawn.nothing}"]
        return lines + ([f"of these not valued, as a word in place of the bounds says: {self.words}"] if self.words else [])


def drawable_of(valuation: ColumnValuation, policies: StatePolicies, by: str) -> Drawable:
    """Returns the rows with their sizes: the upper bound, or by `amount` the amount that is insured on the day."""
    rows = valuation.rows
    sizes = rows.bounds[:, -1]
    if by == "amount":
        insured = np.isin(rows.status, [CODE_OF_STATUS["inforce"], CODE_OF_STATUS["paidup"]])
        sizes = np.where(insured & (policies.issued <= number_at(valuation.on)), policies.amount, 0)
    return Drawable(Head(valuation.on, valuation.position, len(rows), valuation.measure), rows, sizes, valuation.words)


def numbers_of(drawn: Draw, by: str) -> Numbers:
    return Numbers(by, drawn.asked, drawn.seed, drawn.total, drawn.start)


def sample_of(folder: str, on: datetime.date, asked: int, seed: int, by: str, bases: Bases, position: int | None = None,
              measure: str = "terminal", life: str | None = None) -> Drawn:
    """Returns a sample of what the program prints of a folder's book at a position (the newest if none is given)."""
    demand(by in BY, f"{by} is none of {', '.join(BY)}")
    demand(measure in MEASURED, f"{measure} is none of {', '.join(MEASURED)}")
    valuation, both = read_both(folder, position, life, str(on), bases, measure)
    of = drawable_of(valuation, both.policies, by)
    found = draw(of.sizes, asked, seed)
    return Drawn(sample_from(of.head, bases.names, numbers_of(found, by), tuple(map(of.rows.row, found.places))), found, of.words)
