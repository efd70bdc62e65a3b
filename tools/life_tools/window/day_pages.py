"""Makes the pages of a day: what is due, by kind, and each list as a page, as CSV, and as lines to copy and send."""
from __future__ import annotations

from itertools import islice

from life_tools.reports.due_items import MOST_DAYS, WHATS
from life_tools.reports.report_pages import money
from life_tools.window.asked import Asked
from life_tools.window.downloads import csv_parts
from life_tools.window.due_lists import (SAYS, SORTED, TITLES, DueOn, csv_rows, due_on, is_sent_as_it_stands, lines_to_send,
                                         page_of)
from life_tools.window.find_pages import policy_cell
from life_tools.window.lists import A_PAGE
from life_tools.window.views import View, paged_words, turns
from life_tools.window.parts import RIGHT, Answer, Cell, File, Head, Page, Table, cells, sorting_head

WORDS = ("at", "day", "within")
LIST_WORDS = (*WORDS, "what", "sort", "order", "page")
LINES_SHOWN = 200


def found(book: View, asked: Asked) -> DueOn:
    return due_on(book, asked.day("day", book.today), asked.number("within", 0, MOST_DAYS, 0))


def day(book: View, asked: Asked) -> Answer:
    asked.only(WORDS)
    it = found(book, asked)
    words = {"day": it.day, "within": it.within or ""}
    rows = []
    for what in WHATS:
        count, cents = it.sums.get(what, (0, 0))
        rows.append([Cell(TITLES[what], book.link("day/list", what=what, **words) if count else ""), Cell(SAYS[what]),
                     *cells((count, money(cents)))])
    table = Table("Due by kind", [Head("what"), Head("which", "says"), Head("policies", RIGHT), Head("sum", RIGHT)], rows)
    return Page("day.html", f"The day {it.day}", {"table": table, "day": it.day, "within": it.within, "most_days": MOST_DAYS})


def day_list(book: View, asked: Asked) -> Answer:
    asked.only(LIST_WORDS)
    it, what = found(book, asked), asked.one_of("what", WHATS, "premium")
    sort, is_falling = asked.one_of("sort", SORTED, "day"), asked.one_of("order", ("up", "down")) == "down"
    count, cents = it.sums.get(what, (0, 0))
    pages = max(-(-count // A_PAGE), 1)
    page = asked.number("page", 1, pages, 1)
    words: dict[str, object] = {"day": it.day, "within": it.within or "", "what": what}
    columns = (("policy", "policy", RIGHT), ("day", "day", ""), ("until", "until", ""), ("amount", "amount", RIGHT))

    def head(name: str, says: str, kind: str) -> Head:
        way = ("descending" if is_falling else "ascending") if sort == name else ""
        return sorting_head(says, kind, way, lambda order: book.link("day/list", **words, sort=name, order=order))

    rows = [[policy_cell(book, item.policy), Cell(str(item.day)), Cell(str(item.until or "")), Cell(money(item.cents))]
            for item in page_of(it, what, sort, is_falling, page, A_PAGE)]
    total = [Cell("all"), Cell(""), Cell(f"{count:,}"), Cell(money(cents))]
    turned = dict(words, sort=sort, order="down" if is_falling else "")
    lines = list(islice(lines_to_send(it, what), LINES_SHOWN))
    values = {"table": Table(TITLES[what], [head(*each) for each in columns], rows, [total]), "day": it.day, "kind": TITLES[what],
              "says": SAYS[what], "count": count, "page": page, "pages": pages,
              "turns": turns(lambda to: book.link("day/list", **paged_words(turned, to)), page, pages), "lines": lines,
              "is_cut": count > len(lines), "as_it_stands": is_sent_as_it_stands(what),
              "csv": book.link("day/list.csv", **words), "script": book.link("day/lines.csv", **words),
              "back": book.link("day", day=it.day, within=it.within or "")}
    return Page("day_list.html", f"{TITLES[what]} on {it.day}", values)


def day_csv(book: View, asked: Asked) -> Answer:
    asked.only((*WORDS, "what"))
    it, what = found(book, asked), asked.one_of("what", WHATS, "premium")
    return File(f"due-{what}-{it.day}.csv", "text/csv", csv_parts(csv_rows(it, what)))


def day_lines(book: View, asked: Asked) -> Answer:
    asked.only((*WORDS, "what"))
    it, what = found(book, asked), asked.one_of("what", WHATS, "premium")
    return File(f"{what}-{it.day}.csv", "text/csv", (line + "\n" for line in lines_to_send(it, what)))
