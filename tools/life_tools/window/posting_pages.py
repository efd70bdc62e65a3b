"""Lists the postings and premiums behind a mark of a chart; each list adds up to the number that the mark shows."""
from __future__ import annotations

import datetime
import re
from typing import Sequence

from life_tools.common.arrays import Array, np
from life_tools.common.formats import FIRST_DAY, LAST_DAY
from life_tools.journal.day_columns import day_at, number_at
from life_tools.journal.records import CLAIM, MATURE
from life_tools.reports.report_pages import money
from life_tools.window.asked import Asked, BadRequest, shown
from life_tools.window.figures import RECEIVED, Installments, installments
from life_tools.window.find_pages import policy_cell
from life_tools.window.lists import A_PAGE
from life_tools.window.parts import RIGHT, Answer, Cell, Head, Page, Table, cells
from life_tools.window.standing import held_rows, refused_rows
from life_tools.window.views import View, paged_words, turns

KINDS = {"claim": CLAIM, "mature": MATURE}
SAYS = {"claim": "Claims", "mature": "Maturities"}
MONTH = re.compile("([0-9]{4})-(0[1-9]|1[0-2])")


def month_in(asked: Asked) -> tuple[int, int]:
    """Returns the first and the last day of the month that is asked for."""
    text = asked.text("month")
    parts = MONTH.fullmatch(text)
    if not parts or not FIRST_DAY.year <= int(parts[1]) <= LAST_DAY.year:
        raise BadRequest(f"Month: {shown(text)} is no month YYYY-MM from {FIRST_DAY.year} to {LAST_DAY.year}")
    first = datetime.date(int(parts[1]), int(parts[2]), 1)
    after = datetime.date(first.year + first.month // 12, first.month % 12 + 1, 1)
    return number_at(first), number_at(after) - 1


# --- premiums of a month ---

def premiums(book: View, asked: Asked) -> Answer:
    """Returns the premiums that fell due in a month, or those that were received in it."""
    asked.only(("at", "month", "what", "page"))
    first, last = month_in(asked)
    if asked.one_of("what", ("due", "received"), "due") == "received":
        history = book.history()
        mine = np.isin(history.kind, RECEIVED) & (history.day >= first) & (history.day <= last)
        return posting_page(book, asked, np.flatnonzero(mine) + 1, f"Premiums received in {asked.text('month')}",
                            {"month": asked.text("month"), "what": "received"})
    return due_page(book, asked, first, last)


def due_page(book: View, asked: Asked, first: int, last: int) -> Answer:
    book.policies()
    found = installments(book, book.history(), first, last)
    order = np.lexsort((found.position, found.due))
    pages = max(-(-len(order) // A_PAGE), 1)
    page = asked.number("page", 1, pages, 1)
    month = asked.text("month")
    rows = due_rows(book, found, order[(page - 1) * A_PAGE:page * A_PAGE])
    unpaid = found.position == 0
    total = [Cell("all"), *cells((len(order),)), Cell(money(int(found.cents.sum()))), Cell("")]
    names = [Head("due"), Head("policy", RIGHT), Head("premium", RIGHT), Head("paid", "says")]
    says = (f"{len(order):,} fell due, {money(int(found.cents.sum()))} in all; {int(unpaid.sum()):,} of these, "
            f"{money(int(found.cents[unpaid].sum()))}, not paid at this position.")
    values = {"table": Table("Premiums due", names, rows, [total], kind="list"), "says": says, "page": page, "pages": pages,
              "turns": turns(lambda to: book.link("premiums", month=month, what="due", page=to), page, pages)}
    return Page("postings.html", f"Premiums due in {month}", values)


def due_rows(book: View, found: Installments, order: Array) -> list[list[Cell]]:
    policies = book.policies()
    records, rows = book.records(), []
    for at in order.tolist():
        position = int(found.position[at])
        posted = records.command(position - 1) if position else None
        number = posted.number if posted else int(policies.number[found.place[at]])
        paid = f"on {posted.day}, at position {position:,}" if posted else "not paid"
        rows.append([Cell(str(day_at(found.due[at]))), policy_cell(book, number), Cell(money(int(found.cents[at]))), Cell(paid)])
    return rows


def posted_cells(book: View, places: Array) -> list[tuple[Cell, Cell, Cell, Cell]]:
    """Returns for the postings at some places the position, the day, the kind and the policy."""
    return [(cells((place + 1,))[0], Cell(str(it.day or "")), Cell(it.kind), policy_cell(book, it.number))
            for place, it in zip(places.tolist(), book.records().commands(places))]


# --- postings of a kind ---

def postings(book: View, asked: Asked) -> Answer:
    """Returns the claims or the maturities of a year, or all postings from a day on."""
    asked.only(("at", "year", "kind", "since", "page"))
    since = asked.day_or_none("since")
    if since:
        mine = book.history().day >= number_at(since)
        return posting_page(book, asked, np.flatnonzero(mine) + 1, f"Postings from {since} on", {"since": since})
    kind, year = asked.one_of("kind", KINDS, "claim"), asked.number("year", FIRST_DAY.year, LAST_DAY.year, FIRST_DAY.year)
    history = book.history()
    first, last = (number_at(datetime.date(year, *each)) for each in ((1, 1), (12, 31)))
    mine = (history.kind == KINDS[kind]) & (history.day >= first) & (history.day <= last)
    return posting_page(book, asked, np.flatnonzero(mine) + 1, f"{SAYS[kind]} of {year}", {"year": year, "kind": kind})


def posting_page(book: View, asked: Asked, positions: Array, title: str, words: dict[str, object]) -> Answer:
    """Returns a page of at most fifty postings, with what each of them booked."""
    name = "premiums" if "month" in words else "postings"
    pages = max(-(-len(positions) // A_PAGE), 1)
    page = asked.number("page", 1, pages, 1)
    booked, some = book.history().booked, positions[(page - 1) * A_PAGE:page * A_PAGE] - 1
    rows = [[*posted, Cell(money(cents))] for posted, cents in zip(posted_cells(book, some), booked[some].tolist())]
    whole = int(booked[positions - 1].sum())
    names = [Head("position", RIGHT), Head("day"), Head("posting"), Head("policy", RIGHT), Head("booked", RIGHT)]
    total = [Cell("all"), Cell(""), Cell(""), *cells((len(positions),)), Cell(money(whole))]
    values = {"table": Table("Postings", names, rows, [total], kind="list"), "page": page, "pages": pages,
              "says": f"{len(positions):,} posting{'' if len(positions) == 1 else 's'}, which booked {money(whole)}.",
              "turns": turns(lambda to: book.link(name, **paged_words(words, to)), page, pages)}
    return Page("postings.html", title, values)


# --- what waits for a person, in the log ---

def log_page(title: str, says: str, lines: Sequence[tuple[str, str]]) -> Answer:
    rows = [[Cell(run), Cell(line)] for run, line in lines]
    values = {"table": Table(title, [Head("file"), Head("row", "says")], rows), "page": 1, "pages": 1, "turns": [], "says": says}
    return Page("postings.html", title, values)


def held(book: View, asked: Asked) -> Answer:
    asked.only(("at",))
    rows = held_rows(book.listed.folder)
    return log_page("Rows held back", f"{len(rows):,} rows of scripts are held back, until a person has looked at them and "
                    "sends them or strikes them out.", rows)


def refusals(book: View, asked: Asked) -> Answer:
    asked.only(("at",))
    rows = refused_rows(book.listed.folder)
    return log_page("Refusals of the last files", f"{len(rows):,} rows of the last five files were refused.", rows)
