"""Compares two bases on one day: the printed totals, the difference of each group, and one policy by both bases."""
from __future__ import annotations

import os
from typing import Sequence

from life_tools.common.formats import MOST_NUMBER, demand
from life_tools.reports.report_pages import money
from life_tools.tables.basis import NAME
from life_tools.valuations.groups import KEYS, Sums
from life_tools.reports import charts
from life_tools.reports.wording import KEY_WORDS, NOT_VALUED, group_text
from life_tools.window.asked import Asked, BadRequest, shown
from life_tools.window.book_copy import TakenBasis
from life_tools.window.month_pages import asked_valuation
from life_tools.window.parts import Answer, Cell, Page, Table, cells, heads
from life_tools.window.policy_pages import MEASURE_WORDS
from life_tools.window.valuations import Valuation, kept_valuation, row_of
from life_tools.window.views import View


def other_in(book: View, asked: Asked) -> TakenBasis:
    """Returns the other basis in its present state in the book's folder."""
    name = asked.text("other")
    if not NAME.fullmatch(name) or name not in book.other_bases():
        raise BadRequest(f"Other basis: {shown(name) or 'nothing'} is no other basis in the book's folder")
    taken = book.copy.take_basis(name)
    demand(os.path.isfile(os.path.join(taken.folder, name)), f"{name} can't be read any more")
    return taken


def bases(book: View, asked: Asked) -> Answer:
    """Returns the page with the valuations of a day at a position by two bases, and the difference for each group."""
    other = other_in(book, asked)
    one = asked_valuation(book, asked, "other", "number")
    two = kept_valuation(book.by_basis(other), one.on, one.measure)
    keys = [key for key in KEYS if key != "basis-row"]
    pairs = {key: group_pairs(one, two, key) for key in keys}
    names, views = [book.basis.name, other.name], (book, book.by_basis(other))
    values = {"it": one, "names": names, "sums": [book.basis.sum, other.sum], "facts": totals(one, two),
              "tables": [pair_table(KEY_WORDS[key], names, found, links_of(views, one, key)) for key, found in pairs.items()],
              "picture": pair_picture(names, pairs[keys[0]], KEY_WORDS[keys[0]], links_of(views, one, keys[0])),
              "policy": policy_pair(book, asked, one, two, names),
              "other": other.name, "measure_words": MEASURE_WORDS[one.measure], "number": asked.text("number"),
              "links": [book.link("report", on=one.on, measure=one.measure)]}
    return Page("bases.html", f"{names[0]} and {names[1]} on {one.on}", values)


def totals(one: Valuation, two: Valuation) -> list[tuple[str, str]]:
    difference = two.total[-1] - one.total[-1]
    return [("by the book's basis", money(one.total[-1])), ("by the other basis", money(two.total[-1])),
            ("difference", signed(difference))]


def signed(cents: int) -> str:
    return f"+{money(cents)}" if cents > 0 else money(cents)


Pair = tuple[str, Sums, Sums]


def group_pairs(one: Valuation, two: Valuation, key: str) -> list[Pair]:
    """Returns the sums of each group by both bases. Both have the same policies, and therefore the same groups."""
    first, second = one.groups[key], two.groups[key]
    demand(first.keys() == second.keys(), f"the groups by {key} differ between the bases")
    return [(group_text((key,), name), first[name], second[name]) for name in first]


Links = tuple[list[str], list[str]]


def links_of(views: tuple[View, View], it: Valuation, key: str) -> Links:
    """Returns for each group the links to its policies, by the one basis and by the other."""
    first, second = ([view.link("group", on=it.on, measure=it.measure, by=key, group=",".join(name)) for name in it.groups[key]]
                     for view in views)
    return first, second


def pair_table(says: str, names: list[str], pairs: list[Pair], links: Links) -> Table:
    columns = [says, "policies", names[0], names[1], "difference", NOT_VALUED, "by the other"]

    def row(name: str, sums: Sequence[int], first: str = "", second: str = "") -> list[Cell]:
        policies, one, two, *words = sums
        return [Cell(name, first), *cells((policies,)), Cell(money(one), first), Cell(money(two), second),
                Cell(signed(two - one)), *cells(words)]

    parts = [(one.policies, one.bounds[-1], two.bounds[-1], one.words, two.words) for _, one, two in pairs]
    rows = [row(pair[0], each, first, second) for pair, each, first, second in zip(pairs, parts, *links)]
    return Table(f"By {says}", heads(columns), rows, [row("all", [sum(each[at] for each in parts) for at in range(5)])])


def pair_picture(names: list[str], pairs: list[Pair], says: str, links: Links) -> str:
    """Returns a chart of the reserves of the groups, or "" if the book has no policies."""
    if not pairs:
        return ""
    series = [charts.Series(names[0], "c1", [one.bounds[-1] for _, one, _ in pairs], links[0]),
              charts.Series(names[1], "c2", [two.bounds[-1] for _, _, two in pairs], links[1])]
    axes = charts.Axes(says, [name for name, _, _ in pairs], "reserve")
    return charts.columns(f"The reserve by {says}, by {names[0]} and by {names[1]}", axes, series)


def policy_pair(book: View, asked: Asked, one: Valuation, two: Valuation, names: list[str]) -> Table | None:
    """Returns the rows of one policy by both bases if a policy is asked for, or else None."""
    number = asked.number("number", 1, MOST_NUMBER, 0)
    if not number:
        return None
    rows = []
    for name, it in zip(names, (one, two)):
        found = row_of(it, number)
        if found is None:
            raise BadRequest(f"Number of the policy: the valuation has no row of policy {number}")
        bounds = (found.word, "") if found.word else tuple(map(money, found.bounds[-2:]))
        rows.append([Cell(name), *map(Cell, (str(found.year), *bounds))])
    return Table(f"Policy {number} by both", heads(("basis", "year", "lower bound", "upper bound")), rows)
