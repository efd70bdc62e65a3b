"""Makes the sheet of reserves by valuation basis: table, interest, method and years of issue, with the deficiency."""
from __future__ import annotations

from life_tools.common.arrays import Array, np
from life_tools.valuations.class_columns import PlacedRow, picked
from life_tools.common.formats import money
from life_tools.valuations.groups import added
from life_tools.reports.periods import Moment, Period, demand_whole
from life_tools.journal.policy_columns import is_insured
from life_tools.valuations.printed_columns import NO_WORDS, ColumnValuation
from life_tools.reports.sheets import COUNT, TEXT, Column, Sheet
from life_tools.reports.wording import NOT_VALUED, NO_VALUE
from life_tools.rules.tables import MADE_PAIDUP

METHODS = {"terminal": "CRVM terminal", "mean": "CRVM mean"}
PAID_UP_METHODS = {"terminal": "paid up terminal", "mean": "paid up mean"}
COLUMNS = [Column("table", TEXT), Column("interest", TEXT), Column("method", TEXT), Column("issued from", TEXT),
           Column("issued to", TEXT), Column("policies", COUNT), Column("amount insured"), Column("lower bound"),
           Column("upper bound"), Column("deficiency")]
Key = tuple[str, str, str, str, str]


def percent(points: int) -> str:
    return f"{points // 100}.{points % 100:02}%"


def key_of(it: PlacedRow, is_paid_up: bool, measure: str) -> Key:
    """Returns by what a policy of a basis row is valued."""
    method = (PAID_UP_METHODS if is_paid_up else METHODS)[measure]
    return it.row.name, percent(it.row.points), method, str(it.row.day), f"before {it.until}" if it.until else ""


def sums_by(codes: Array, columns: list[Array]) -> dict[int, list[int]]:
    """Returns for each code that occurs the number of policies, and the sums of the columns."""
    found, code = np.unique(codes, return_inverse=True)
    counts = np.bincount(code, minlength=len(found)).tolist()
    sums = zip(counts, *(added(code, len(found), column) for column in columns))
    return {each: list(its) for each, its in zip(found.tolist(), sums)}


def put(sums: dict[Key, list[int]], key: Key, more: list[int]) -> None:
    sums[key] = [one + other for one, other in zip(sums[key], more)] if key in sums else more


def sums_by_basis(period: Period, moment: Moment, minimum: ColumnValuation) -> tuple[dict[Key, list[int]], dict[Key, list[int]]]:
    """Returns the sums for policies that have a value, and for those that have none."""
    of, rows, least = moment.policies, moment.valuation.rows, minimum.rows
    # a policy that is issued after the day has bounds of 0, though the basis may have no row for it
    has_row = (rows.word == 0) & (period.row > 0)
    valued, without = is_insured(of) & has_row, is_insured(of) & ~has_row
    columns = [of.amount, rows.bounds[:, 0], rows.bounds[:, 1], least.bounds[:, 3] - least.bounds[:, 1]]
    found: dict[Key, list[int]] = {}
    others: dict[Key, list[int]] = {}
    codes = 2 * period.row[valued] + (of.status[valued] == MADE_PAIDUP)
    for code, sums in sums_by(codes, [column[valued] for column in columns]).items():
        put(found, key_of(period.rows[code // 2 - 1], code % 2 == 1, period.asked.measure), sums)
    file = picked(period.asked.bases, of.number[without])
    codes = file * len(NO_WORDS) + rows.word[without]
    for code, sums in sums_by(codes, [column[without] for column in columns]).items():
        name, word = period.asked.bases.names[code // len(NO_WORDS)], NO_WORDS[code % len(NO_WORDS)]
        put(others if word else found, (name, "", f"{NOT_VALUED}: {NO_VALUE.get(word, word)}", "", ""), sums)
    return found, others


def demand_printed(moment: Moment, minimum: ColumnValuation, total: list[int], without: int) -> None:
    """Raises NotWhole unless the sums are those that the program printed."""
    printed = [*moment.valuation.total[:2], minimum.total[3] - minimum.total[1]]
    demand_whole(total[2:] == printed, f"reserves: the sums are {total[2:]} cents, and {printed} are printed")
    demand_whole(without == moment.valuation.words == minimum.words,
                 f"reserves: {without} policies are not valued, and {moment.valuation.words} are printed so")


def deficiency_notes(period: Period, minimum: ColumnValuation) -> list[str]:
    """Returns notes on what the deficiency compares, and a warning if any policy's minimum reserve is above its reserve."""
    notes = ["Deficiency: what the minimum reserve has more than the terminal one, in upper bounds."]
    if period.asked.measure == "mean":
        notes.append("The minimum reserve is a terminal one, so the deficiency isn't compared with the mean reserves beside it.")
    more = minimum.rows.bounds[:, 3] - minimum.rows.bounds[:, 1]
    short = int(np.count_nonzero(more > 0))
    if short:
        notes.append(f"Warning: of {short} policies the minimum reserve is above the terminal reserve, by "
                     f"{money(int(more.sum()))} in all. The minimum is the law's only where the basis is the law's minimum "
                     "standard.")
    return notes


def basis_sheet(period: Period) -> Sheet:
    moment, minimum = period.closing, period.closing.minimum
    assert minimum is not None
    sheet = Sheet("reserves", f"Reserves by valuation basis on {moment.on}, gross", list(COLUMNS))
    valued, others = sums_by_basis(period, moment, minimum)
    total = [sum(sums[at] for sums in valued.values()) for at in range(5)]
    demand_printed(moment, minimum, total, sum(sums[0] for sums in others.values()))
    for key, sums in sorted(valued.items()):
        sheet.add(*key, *sums)
    sheet.add("total", "", "", "", "", *total, is_total=True)
    for key, (count, amount, *_) in sorted(others.items()):
        sheet.add(*key, count, amount, None, None, None, section=1)
    sheet.notes = deficiency_notes(period, minimum)
    if others:
        sheet.notes.append("Policies that are not valued are in no sum of reserves.")
    sheet.checks = ["The bounds and the deficiency add up to the printed totals."]
    return sheet
