"""Lets every page go to any day: an address leads from a day to its position, and each page has a line of year- and
month-ends."""
from __future__ import annotations

import datetime
from typing import NamedTuple

from life_tools.journal.day_columns import day_at, number_at
from life_tools.window.asked import Asked, BadRequest, shown
from life_tools.window.parts import Answer, Elsewhere
from life_tools.window.views import View

# the name of the argument with which a page takes the day
DAY_WORDS = {"": "on", "policy": "day", "day": "day", "day/list": "day", "report": "on", "month": "on", "audit": "on",
             "sample": "on", "group": "on", "bases": "on", "movement": "on2", "statement": "on2"}
# the arguments that a page keeps if another day is chosen
KEPT = {"policy": ("number", "measure"), "day": ("within",), "day/list": ("within", "what"), "report": ("measure",),
        "month": ("before",), "audit": ("before",), "sample": ("count", "seed", "by", "measure"), "bases": ("other", "measure"),
        "movement": ("on1", "p1", "measure"), "statement": ("on1", "p1", "measure"),
        "find": ("number", "from", "to", "plan", "status", "sort", "order"), "group": ("measure", "by", "group")}
MOST_YEARS = 16


class Stop(NamedTuple):
    """An entry of the timeline: its text, the link to its day, and whether it is the one that is shown."""

    says: str
    link: str
    is_here: bool
    day: str


class Timeline(NamedTuple):
    """The year-ends of the book, the month-ends of the year that is shown, and the day that is shown."""

    years: list[Stop]
    months: list[Stop]
    day: str
    page: str
    kept: list[tuple[str, str]]


def moment_of(book: View, asked: Asked) -> Answer:
    """Redirects to the page as of the end of a day."""
    page = asked.text("page")
    names = ("at", "asof", "page", *KEPT.get(page, ()))
    asked.only(names)
    to = asked.day_or_none("asof")
    if to is None:
        raise BadRequest("As it stood on: type a day")
    if page and page not in KEPT:
        raise BadRequest(f"Page: {shown(page)} is no page of a day")
    newest = book.at_position(book.copy.newest)
    there = book.at_position(newest.history().position_on(number_at(to)))
    words: dict[str, object] = {name: asked.text(name) for name in KEPT.get(page, ())}
    if page in DAY_WORDS:
        words[DAY_WORDS[page]] = to
    if page in ("movement", "statement") and int(asked.text("p1") or 0) > there.at:
        raise BadRequest(f"As it stood on: at the end of {to} the book is at position {there.at:,}, before the opening one")
    return Elsewhere(there.link(page, **words))


def timeline(book: View, name: str, asked: Asked) -> Timeline:
    """Returns the timeline of a page; on a page that has no day, it leads to the book's first page."""
    page = name if name in KEPT else ""
    kept = [(word, asked.text(word)) for word in KEPT.get(page, ()) if asked.text(word)]
    shown_day = asked.text(DAY_WORDS[page]) if page in DAY_WORDS else ""
    newest = book.at_position(book.copy.newest)
    here = day_in(shown_day) or book.last_day
    last = newest.last_day
    first = first_day(newest)
    if here is None or last is None or first is None:
        return Timeline([], [], "", page, kept)

    def stop(says: str, day: datetime.date, is_here: bool) -> Stop:
        link = book.link("moment", asof=day, page=page, **dict(kept))
        return Stop(says, link, is_here, str(day))

    least = max(first.year, min(here.year - MOST_YEARS // 2, last.year - MOST_YEARS + 1))
    years = range(least, min(last.year, least + MOST_YEARS - 1) + 1)
    months = [month_end(here.year, month) for month in range(1, 13)]
    return Timeline([stop(str(year), datetime.date(year, 12, 31), year == here.year) for year in years],
                    [stop(f"{day:%b}", day, day.month == here.month) for day in months], str(here), page, kept)


def day_in(text: str) -> datetime.date | None:
    try:
        return datetime.date.fromisoformat(text) if text else None
    except ValueError:
        return None


def first_day(book: View) -> datetime.date | None:
    """Returns the day of the first posting that has one."""
    days = book.history().days()
    return day_at(int(days[0])) if len(days) else None


def month_end(year: int, month: int) -> datetime.date:
    return datetime.date(year + month // 12, month % 12 + 1, 1) - datetime.timedelta(1)
