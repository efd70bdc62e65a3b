"""Lists the policies behind a cell of a report's group or of a movement's line; they add up to what the cell shows."""
from __future__ import annotations

import csv
from typing import Sequence

from life_tools.common.arrays import Array, np
from life_tools.reports.movement import BASIS, BY_KIND, ISSUES, TIME
from life_tools.reports.report_pages import apart, money
from life_tools.reports.wording import KEY_WORDS, NO_VALUE, STATUS_WORDS, group_text
from life_tools.valuations.groups import KEYS
from life_tools.window.asked import Asked, BadRequest, shown
from life_tools.window.find_pages import policy_cell
from life_tools.window.lists import A_PAGE
from life_tools.window.month_pages import MOVEMENT_WORDS, asked_movement, asked_valuation, column_names
from life_tools.window.parts import RIGHT, Answer, Cell, Head, Page, Table, cells, counted_policies, heads
from life_tools.window.valuations import Valuation
from life_tools.window.views import View, paged_words, turns


def paged(asked: Asked, count: int) -> tuple[int, int, slice]:
    """Returns the page that is asked for, the number of pages, and the rows of the page."""
    pages = max(-(-count // A_PAGE), 1)
    page = asked.number("page", 1, pages, 1)
    return page, pages, slice((page - 1) * A_PAGE, page * A_PAGE)


# --- a group of a report ---

def group(book: View, asked: Asked) -> Answer:
    """Returns the policies of a group, each with its printed row; together they add up to the group's cells."""
    key = asked.one_of("by", KEYS, "plan")
    it = asked_valuation(book, asked, "by", "group", "page")
    name = tuple(asked.text("group").split(","))
    if name not in it.groups[key]:
        raise BadRequest(f"Group: {shown(asked.text('group'))} is no group by {KEY_WORDS[key]} of this valuation")
    places = np.flatnonzero(it.codes(key) == list(it.groups[key]).index(name))
    page, pages, some = paged(asked, len(places))
    words: dict[str, object] = {"on": it.on, "measure": it.measure, "by": key, "group": ",".join(name)}
    says = group_text((key,), name)
    sums = it.groups[key][name]
    names = ["policy", "status", "amount", *column_names(it)[3:-1]]
    values = {"table": Table("Policies of the group", [Head(names[0], RIGHT), Head(names[1]), *heads(names[2:], 0)],
                             group_rows(book, it, places[some]), [group_total(it, places, sums.amount)], kind="list"),
              "says": f"{sums.policies:,} of the valuation on {it.on} at position {it.position:,}, by {KEY_WORDS[key]}: {says}.",
              "page": page, "pages": pages, "is_printed": True, "back": book.link("report", on=it.on, measure=it.measure),
              "turns": turns(lambda to: book.link("group", **paged_words(words, to)), page, pages)}
    return Page("group.html", f"{KEY_WORDS[key].capitalize()}: {says}", values)


def group_rows(book: View, it: Valuation, places: Array) -> list[list[Cell]]:
    rows, policies, found = it.rows(), book.policies(), []
    for place in places.tolist():
        row = rows.row(place)
        link = book.link("policy", number=row.number, on=it.on, measure=it.measure if it.measure != "terminal" else "")
        bounds = [NO_VALUE[row.word]] + [""] * (len(it.total) - 1) if row.word else [money(each) for each in row.bounds]
        found.append([Cell(str(row.number), link), Cell(STATUS_WORDS[row.status]), Cell(money(int(policies.amount[place]))),
                      *map(Cell, bounds)])
    return found


def group_total(it: Valuation, places: Array, amount: int) -> list[Cell]:
    bounds = it.rows().bounds[places].sum(axis=0, dtype=np.int64).tolist()
    return [Cell("insured and reserves"), *cells((len(places), money(amount), *map(money, bounds)))]


# --- a line of a movement ---

def moved(book: View, asked: Asked) -> Answer:
    """Returns the policies of a line of a movement with their parts, as `movement --policies` writes them."""
    line = asked.one_of("line", LINES)
    run, words = asked_movement(book, asked, "line", "page")
    with open(run.file("policies.csv"), encoding="utf-8", newline="") as file:
        rows = csv.reader(file)
        columns = parts_of(next(rows), line)
        found = [(row[0], row[columns[0]], row[columns[1]]) for row in rows if is_of(row, line, columns)]
    page, pages, some = paged(asked, len(found))
    told: dict[str, object] = dict(zip(MOVEMENT_WORDS[1:], words))
    shown_rows = [[policy_cell(book, int(number)), Cell(apart(lower)), Cell(apart(upper))]
                  for number, lower, upper in found[some]]
    total = [Cell("all"), *(Cell(money(sum(cents(row[place]) for row in found))) for place in (1, 2))]
    names = [Head("policy", RIGHT), *heads(("by lower bounds", "by upper bounds"), 0)]
    values = {"table": Table(f"Policies of the line {line}", names, shown_rows, [total], kind="list"),
              "says": f"{counted_policies(len(found))} of the line {line}, from {words[0]} at position {int(words[1]):,} "
                      f"to {words[2]} at position {int(words[3]):,}.", "page": page, "pages": pages, "is_printed": False,
              "back": book.link("movement", **told),
              "turns": turns(lambda to: book.link("moved", **paged_words({**told, "line": line}, to)), page, pages)}
    return Page("group.html", f"Moved by: {line}", values)


LINES = (ISSUES, *BY_KIND.values(), TIME, BASIS)


def parts_of(head: Sequence[str], line: str) -> list[int]:
    """Returns the columns of a line's part."""
    part = {TIME: "time", BASIS: "basis"}.get(line, "posted")
    return [head.index(f"{part} {bound}") for bound in ("lower", "upper")]


def is_of(row: Sequence[str], line: str, columns: Sequence[int]) -> bool:
    if line in (TIME, BASIS):
        return any(row[place] != "0.00" for place in columns)
    return row[1] == line


def cents(text: str) -> int:
    return int(text.replace(".", ""))
