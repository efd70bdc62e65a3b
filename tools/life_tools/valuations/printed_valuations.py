"""Reads printed valuations: a text may have one or more, printed by `life value` or `life run`."""
from __future__ import annotations

import datetime
from dataclasses import dataclass, field

from life_tools.common.formats import MOST_NUMBER, Wrong, day_in, demand, measure_of, number_of, printed_cents, printed_rows

# for each measure: the name of its reserves, and the number of fields of a row and of a total
SHOWN = {"terminal": ("reserves", 6, 4), "mean": ("mean reserves", 6, 4), "deficiency": ("minimum reserves", 9, 6)}


@dataclass
class Valuation:
    """A printed valuation: day, position, measure, upper bounds by policy, the upper sum, and the number of rows with a word."""

    day: datetime.date
    position: str
    measure: str
    upper: dict[int, int] = field(default_factory=dict)
    total: int = 0
    words: int = -1


def add_row(valuation: Valuation, row: list[str]) -> None:
    _, fields, _ = SHOWN[valuation.measure]
    number = number_of(row[1], 1, MOST_NUMBER) if len(row) in (5, fields) else None
    if number is None:
        raise Wrong(f"{','.join(row)} is no row of a valuation")
    if len(row) == fields:
        valuation.upper[number] = printed_cents(row[7 if valuation.measure == "deficiency" else 5])


def close(valuation: Valuation, row: list[str]) -> None:
    _, _, fields = SHOWN[valuation.measure]
    words = number_of(row[-1], 0, MOST_NUMBER) if len(row) == fields else None
    if words is None:
        raise Wrong(f"{','.join(row)} is no total of a valuation")
    valuation.total, valuation.words = printed_cents(row[-2]), words
    is_sum = sum(valuation.upper.values()) == valuation.total
    demand(is_sum, f"the rows on {valuation.day} add up to another total than {row[-2]}")


def valuations_in(text: str) -> list[Valuation]:
    """Returns the valuations in a printed text, whatever else it has."""
    found: list[Valuation] = []
    for row in printed_rows(text):
        is_open = bool(found) and found[-1].words < 0
        if row[0] in ("row", "total"):
            demand(is_open, f"{','.join(row)} belongs to no valuation")
            (add_row if row[0] == "row" else close)(found[-1], row)
        else:
            demand(not is_open, f"the valuation on {found[-1].day if found else ''} has no total")
            measure = measure_of(row)
            if measure:
                found.append(Valuation(day_in(row[2]), row[3], measure))
    demand(not found or found[-1].words >= 0, f"the valuation on {found[-1].day if found else ''} has no total")
    return found
