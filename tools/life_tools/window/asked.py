"""Reads the arguments of a request, each within its limits; one that is no day, number, position or known word is refused."""
from __future__ import annotations

import datetime
from typing import Iterable, Mapping, Sequence

from life_tools.common.formats import FIRST_DAY, LAST_DAY, MOST_COMMANDS, Wrong, day_of, number_of


class BadRequest(Wrong):
    """An argument of a request is not as it must be; the text says which one, and how it must be."""


# a longer text is not a number, a day or a name of anything here
MOST_LETTERS = 40


# what an argument is called on the pages, for messages
LABELS = {"on": "Day", "on1": "Opening day", "on2": "Closing day", "before": "Day before", "day": "Day",
          "asof": "As it stood on", "from": "Issued from", "to": "Issued to", "p": "Position", "p1": "Opening position",
          "p2": "Closing position", "at": "Position", "after": "After position", "number": "Number of the policy",
          "count": "Policies asked for", "seed": "Seed", "within": "Days", "measure": "Measure", "by": "By",
          "other": "Other basis", "plan": "Plan", "status": "Status", "sort": "Sorted by", "order": "Order", "what": "What",
          "month": "Month", "since": "From the day on", "year": "Year",
          "kind": "Kind", "line": "Line", "group": "Group", "page": "Page", "of": "Page"}


def label(name: str) -> str:
    """Returns what an argument is called on the pages."""
    return LABELS.get(name, shown(name))


def shown(text: str) -> str:
    """Returns an argument of a request for an error message, shortened if it is long."""
    return text if len(text) <= MOST_LETTERS else text[:MOST_LETTERS] + "…"


class Asked:
    """The arguments of one request."""

    def __init__(self, words: Iterable[tuple[str, str]]) -> None:
        self.words: dict[str, str] = {}
        for name, text in words:
            if name in self.words:
                raise BadRequest(f"{label(name)} is in the address twice")
            self.words[name] = text.strip()

    def only(self, names: Sequence[str]) -> None:
        """Raises BadRequest if there is an argument that the page does not know."""
        for name in self.words:
            if name not in names:
                raise BadRequest(f"{shown(name)} is no argument of this page")

    def text(self, name: str) -> str:
        return self.words.get(name, "")

    def number(self, name: str, least: int, most: int, otherwise: int) -> int:
        text = self.text(name)
        if not text:
            return otherwise
        found = number_of(text, least, most)
        if found is None:
            raise BadRequest(f"{label(name)}: {shown(text)} is no whole number from {least} to {most}")
        return found

    def position(self, name: str, newest: int, otherwise: int) -> int:
        text = self.text(name)
        found = number_of(text, 0, MOST_COMMANDS) if text else otherwise
        if found is None or found > newest:
            raise BadRequest(f"{label(name)}: {shown(text)} is no position of this book, which goes to {newest}")
        return found

    def day(self, name: str, otherwise: datetime.date) -> datetime.date:
        return self.day_or_none(name) or otherwise

    def day_or_none(self, name: str) -> datetime.date | None:
        text = self.text(name)
        if not text:
            return None
        found = day_of(text)
        if found is None:
            raise BadRequest(f"{label(name)}: {shown(text)} is no day YYYY-MM-DD from {FIRST_DAY} to {LAST_DAY}")
        return found

    def one_of(self, name: str, known: Sequence[str] | Mapping[str, object], otherwise: str = "") -> str:
        text = self.text(name)
        if not text:
            return otherwise
        if text not in known:
            raise BadRequest(f"{label(name)}: {shown(text)} is none of {', '.join(known)}")
        return text

    def digits(self, name: str, most: int) -> str:
        """Returns an argument that is part of a number, or ""."""
        text = self.text(name)
        if text and not (text.isascii() and text.isdigit() and len(text) <= most):
            raise BadRequest(f"{label(name)}: {shown(text)} is no number, and no part of one: up to {most} digits")
        return text
