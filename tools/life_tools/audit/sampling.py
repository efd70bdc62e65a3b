"""Draws a monetary unit sample: each row's chance is in proportion to its size, and the same seed draws the same rows.

The rows are laid end to end on a line, each as long as its size in cents. Points lie on the line at equal intervals of the total
over the wanted count, from a random start on, and a row is drawn if a point lies in it. So a row's chance is its size over the
interval, and a row of at least the interval is drawn for certain, once. To keep all lengths whole, they are multiplied by the
count: the interval is then the total itself, and the start is a number below the total.
"""
from __future__ import annotations

import hashlib
from fractions import Fraction
from typing import NamedTuple, Sequence

from life_tools.common.arrays import Cents, np
from life_tools.common.formats import demand
from life_tools.audit.samples import MOST_DRAWN


class Draw(NamedTuple):
    """The places of the drawn rows, what was asked, the sum of the sizes in cents, and the start in cents times the count.

    `certain` is the number of rows that are drawn for certain, `nothing` the number of rows of size 0.
    """

    places: list[int]
    asked: int
    seed: int
    total: int
    start: int
    certain: int
    nothing: int

    @property
    def interval(self) -> Fraction:
        return Fraction(self.total, self.asked)


def start_of(seed: int, total: int) -> int:
    """Returns a number below the total from the SHA-256 of the seed's digits, so that anybody can compute it again."""
    return int.from_bytes(hashlib.sha256(str(seed).encode()).digest(), "big") % total


def chance_of(size: int, total: int, asked: int) -> Fraction:
    return min(Fraction(1), Fraction(size * asked, total))


def draw_at(sizes: Cents | Sequence[int], asked: int, total: int, start: int) -> list[int]:
    """Returns the places of the rows in which a point lies."""
    ends = np.cumsum(sizes, dtype=np.int64)
    # for a length in whole cents, only the whole cents of a point decide which side it is on
    points = np.array([(start + place * total) // asked for place in range(asked)], np.int64)
    found: list[int] = np.unique(np.searchsorted(ends, points, "right")).tolist()
    return found


def draw(sizes: Cents | Sequence[int], asked: int, seed: int) -> Draw:
    """Draws a sample from rows of these sizes, none of which may be negative."""
    of = np.asarray(sizes, np.int64)
    total = int(of.sum())
    demand(1 <= asked <= MOST_DRAWN, f"a sample has 1 to {MOST_DRAWN} rows")
    demand(total > 0, "no row has a size, so none can be drawn")
    demand(of.min() >= 0, "a row's size is below 0")
    start = start_of(seed, total)
    certain, nothing = (int(np.count_nonzero(some)) for some in (of >= -(-total // asked), of == 0))
    return Draw(draw_at(of, asked, total, start), asked, seed, total, start, certain, nothing)
