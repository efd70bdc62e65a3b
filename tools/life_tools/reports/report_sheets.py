"""Makes a report and an analysis of change into sheets, from which a workbook and a page are made."""
from __future__ import annotations

from typing import Sequence

from life_tools.reports.movement import CLOSING, OPENING, Cash, Moved
from life_tools.common.formats import money
from life_tools.valuations.groups import Groups, Sums
from life_tools.reports.sheets import BY_BOUNDS, COUNT, TEXT, Column, Sheet
from life_tools.reports.wording import NOT_VALUED, group_text, keys_text

# the columns of counts; all others, except the first, are columns of amounts
COUNTED = ("policies", "insured", "words", NOT_VALUED)
# the greatest length of a sheet's name in a workbook
MOST_LETTERS = 31


def cells_of(sums: Sums) -> list[int]:
    return [sums.policies, sums.insured, sums.amount, *sums.bounds, sums.words]


def sheet_of(keys: Sequence[str], groups: Groups, total: Sums, columns: Sequence[str], is_shown: bool) -> Sheet:
    """Returns a table of groups with its total; the last column is of the policies that are not valued. What is shown, on a page
    or in a workbook, is said in words; a CSV file has the keys, and the groups as the program prints them."""
    columns, by = [*columns[:-1], NOT_VALUED if is_shown else columns[-1]], keys_text(keys) if is_shown else ", ".join(keys)
    heads = [Column(by, TEXT), *(Column(name, COUNT) if name in COUNTED else Column(name) for name in columns)]
    sheet = Sheet(" ".join(keys)[:MOST_LETTERS], f"By {by}", heads,
                  checks=["The groups add up to the printed total."])
    for name, sums in groups.items():
        sheet.add(group_text(keys, name) if is_shown else ", ".join(name), *cells_of(sums))
    sheet.add("total", *cells_of(total), is_total=True)
    return sheet


def movement_sheet(title: str, lines: Sequence[Moved], cash: Cash, notes: Sequence[str]) -> Sheet:
    """Returns the sheet of the lines of an analysis of change."""
    heads = [Column("line", TEXT), Column("policies", COUNT), *BY_BOUNDS]
    sheet = Sheet("movement", title, heads,
                  notes=[f"premiums received {money(cash.premiums)}, settlements paid {money(cash.settlements)}", *notes],
                  checks=["The lines add up to the closing reserve, and both reserves are the printed totals.",
                          "The premiums and settlements are what the accounts moved by."])
    for it in lines:
        sheet.add(it.name, it.policies, *it.cents, is_total=it.name in (OPENING, CLOSING))
    return sheet
