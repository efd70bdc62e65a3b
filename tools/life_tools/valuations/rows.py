"""Makes the table of printed valuations, its columns and its rows, without any package."""
from __future__ import annotations

from dataclasses import dataclass
from typing import Iterable, Iterator, Union

from life_tools.common.formats import Wrong, demand, measure_of, money, printed_cents

Value = Union[int, str, None]
TableRow = tuple[Value, ...]
VALUATION = ("day", "position", "measure", "policy", "status", "year", "lower_cents", "upper_cents", "word",
             "minimum_lower_cents", "minimum_upper_cents", "premium_is")


@dataclass
class Sums:
    """The sums of a valuation's rows, which its total must equal."""

    lower: int = 0
    upper: int = 0
    words: int = 0

    def take(self, row: TableRow) -> TableRow:
        lower, upper = row[6], row[7]
        if isinstance(lower, int) and isinstance(upper, int):
            self.lower += lower
            self.upper += upper
        else:
            self.words += 1
        return row


def valuation_row(head: TableRow, fields: list[str]) -> TableRow:
    """Returns the table row of a valuation's row; `head` has the day, the position and the measure of the first line."""
    number, status, year = int(fields[1]), fields[2], int(fields[3])
    if len(fields) == 5:
        return *head, number, status, year, None, None, fields[4], None, None, None
    lower, upper = printed_cents(fields[4]), printed_cents(fields[5])
    if head[2] == "deficiency":
        return *head, number, status, year, lower, upper, None, printed_cents(fields[6]), printed_cents(fields[7]), fields[8]
    demand(len(fields) == 6, "it has another number of fields")
    return *head, number, status, year, lower, upper, None, None, None, None


def valuation_rows(path: str, lines: Iterable[str]) -> Iterator[TableRow]:
    """Yields the rows of the valuations in a text, whatever else it has; each valuation must add up to its total."""
    head, sums = None, Sums()
    count = 0
    for at, line in enumerate(lines, 1):
        fields = line.rstrip("\n").split(",")
        try:
            if fields[0] == "row":
                demand(head is not None, "it belongs to no valuation")
                yield sums.take(valuation_row(head or (), fields))
            elif fields[0] == "total":
                demand(head is not None, "it belongs to no valuation")
                wanted = [money(sums.lower), money(sums.upper), str(sums.words)]
                demand([*fields[1:3], fields[-1]] == wanted, f"the rows add up to {','.join(wanted)}")
                head, count = None, count + 1
            elif measure := measure_of(fields):
                demand(head is None, "the valuation before it has no total")
                head, sums = (fields[2], int(fields[3]), measure), Sums()
        except (Wrong, ValueError, IndexError) as wrong:
            raise Wrong(f"{path}, line {at}: {line.strip()[:80]}: {wrong}") from wrong
    demand(head is None, f"{path}: its last valuation has no total")
    demand(count, f"{path} has no valuation in it")
