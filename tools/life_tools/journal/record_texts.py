"""Makes texts of a journal's records, kind by kind, and gives them in their order, without an object for each command."""
from __future__ import annotations

from typing import Callable, Iterable, Iterator, Sequence, TypeVar

from life_tools.common.arrays import Array, Cents, np
from life_tools.journal.columns import Columns
from life_tools.journal.day_columns import texts_at
from life_tools.common.formats import FIELDS, KINDS, PLANS, STATUSES
from life_tools.journal.records import Records
from life_tools.journal.policy_columns import Policies
from life_tools.common.progress import Progress
from life_tools.rules.tables import BOOKINGS

# number of records whose texts are made at once
AT_ONCE = 1 << 15
# the columns of each kind, by the names under which they are exported
HELD = {kind: ("position", "policy", "day", *names) if kind != "upgrade" else ("position",) for kind, names in FIELDS.items()}
TEXTS = ("day", "plan", "amount", "premium")
T = TypeVar("T")


def moneys(cents: Cents) -> list[str]:
    """Returns amounts as texts; no amount may be below 0."""
    return [f"{each // 100}.{each % 100:02}" for each in cents.tolist()]


def column_of(records: Records, name: str, places: Array) -> Sequence[object]:
    """Returns a column of some records as texts or as whole numbers."""
    if name == "position":
        whole: list[int] = (places + 1).tolist()
        return whole
    if name == "day":
        return texts_at(records.day[places])
    if name in ("amount", "premium"):
        return moneys(getattr(records, name)[places])
    found: list[int] = getattr(records, "number" if name == "policy" else name)[places].tolist()
    if name == "plan":
        return [PLANS[code] for code in found]
    return found


def in_order(records: Records, made: Callable[[str, Array], Iterable[T]], doing: str) -> Iterator[list[T]]:
    """Yields a list for each block of records, with one item a record; `made` gives the items for the places of one kind."""
    progress = Progress(doing, len(records))
    for start in range(0, len(records), AT_ONCE):
        kinds = records.kind[start:start + AT_ONCE]
        found: dict[int, T] = {}
        for code in np.unique(kinds).tolist():
            places = np.flatnonzero(kinds == code)
            found.update(zip(places.tolist(), made(KINDS[code], places + start)))
        yield [found[place] for place in range(len(kinds))]
        progress.at(start)
    progress.end()


def lines_of(records: Records, template_of: Callable[[str], str]) -> Iterator[str]:
    """Yields the lines of the records, block by block; in a kind's template %s stands for each column of that kind."""
    templates = {kind: template_of(kind) for kind in HELD}

    def made(kind: str, places: Array) -> Iterator[str]:
        template = templates[kind]
        return (template % values for values in zip(*(column_of(records, name, places) for name in HELD[kind])))

    for block in in_order(records, made, "writing records"):
        yield "".join(block)


def plain_template(kind: str) -> str:
    """Returns the template of a line with the position, and then the fields of a script after the lane."""
    return ",".join(["%s", kind, *["%s"] * (len(HELD[kind]) - 1)]) + "\n"


def transactions_of(book: Columns) -> Iterator[str]:
    """Yields what the commands book as transactions of plain text accounting, block by block."""
    def made(kind: str, places: Array) -> Iterator[str]:
        if kind not in BOOKINGS:
            return ("" for _ in places)
        first, sign, second, _ = BOOKINGS[kind]
        signs = ("", "-") if sign > 0 else ("-", "")
        template = f"%s {kind} %s\n    {first}  {signs[0]}%s\n    {second}  {signs[1]}%s\n\n"
        cents = moneys(book.booked[places])
        days, numbers = (column_of(book.records, name, places) for name in ("day", "policy"))
        return (template % (day, number, amount, amount) if amount != "0.00" else ""
                for day, number, amount in zip(days, numbers, cents))

    for block in in_order(book.records, made, "writing transactions"):
        yield "".join(block)


def policy_lines(policies: Policies) -> Iterator[str]:
    """Yields the policies as `state` prints them, block by block."""
    for start in range(0, len(policies), AT_ONCE):
        of = policies.at(slice(start, start + AT_ONCE))
        columns = (of.number, of.status, of.plan, of.age, of.years)
        rows = zip(*(each.tolist() for each in columns), moneys(of.amount), moneys(of.premium), texts_at(of.issued),
                   of.paid.tolist(), moneys(of.outstanding))
        yield "".join(f"policy,{number},{STATUSES[status - 1]},{PLANS[plan]},{age},{years},{amount},{premium},{issued},{paid},"
                      f"{outstanding}\n" for number, status, plan, age, years, amount, premium, issued, paid, outstanding in rows)
