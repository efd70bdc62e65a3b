"""Describes one policy: what it is, in a sentence; its postings and bookings; what is due; its reserve over the years."""
from __future__ import annotations

import datetime
import os
from typing import Iterator, NamedTuple

from life_tools.rules.commands import UPGRADE, Command
from life_tools.common.formats import LAST_DAY, MOST_VALUATIONS, demand
from life_tools.journal.file import file_of
from life_tools.valuations.printed_books import ValuedRow, row_of
from life_tools.reports.report_pages import money
from life_tools.reports.wording import STATUS_WORDS
from life_tools.rules.policies import GRACE, Policy, anniversary, booking_of, due_of, end_of, payments_of, years_of
from life_tools.window.due_lists import Item
from life_tools.window.jobs import Job
from life_tools.window.views import View
from life_tools.window.runs import lines_of, printed_by
from life_tools.window.tables import steps_of

PLANS = {"term": "Term insurance", "whole": "Whole life insurance", "endowment": "An endowment",
         "limited": "Whole life insurance on limited premiums"}


class Step(NamedTuple):
    """A posting: its position, the command, and what it booked on which account, in cents."""

    position: int
    command: Command
    booked: dict[str, int]


class Known(NamedTuple):
    """A policy at a position, with its postings up to that position."""

    policy: Policy
    steps: list[Step]


def policy_at(book: View, number: int) -> Known | None:
    """Returns the policy as the rules make it from its postings, or None if there is none."""
    records = book.records()
    places = records.places_of(number)
    steps, policy = [], None
    for place, command, policy in steps_of(zip((places + 1).tolist(), records.commands(places))):
        steps.append(Step(place, command, booking_of(command, policy)))
    return Known(policy, steps) if policy else None


# --- in words ---

def years_in_words(policy: Policy) -> str:
    years = years_of(policy)
    if policy.plan in ("term", "endowment"):
        return f" for {years} years"
    return ""


def terms_of(policy: Policy) -> str:
    """Returns the terms of a policy as a sentence."""
    paid_up = policy.status == "paidup"
    premiums = payments_of(policy)
    how = "a year for life" if policy.plan == "whole" else f"a year, at most {premiums} times"
    premium = "without further premiums" if paid_up else f"for {money(policy.premium)} {how}"
    return (f"{PLANS[policy.plan]} of {money(policy.amount)}{years_in_words(policy)} on a life aged {policy.age} at issue, "
            f"issued on {policy.issued}, {premium}; the cover ends on {end_of(policy)}.")


def standing_of(policy: Policy) -> str:
    """Returns the state of a policy as a sentence."""
    paid = f"{policy.paid} premium{'' if policy.paid == 1 else 's'} paid"
    due = due_of(policy) if policy.status == "inforce" else None
    then = (f"; the next is due on {due} and can be paid until {due + GRACE}" if due
            else "; none is to come" if policy.status == "inforce" else "")
    left = f"; {money(policy.outstanding)} is outstanding" if policy.outstanding else ""
    return f"{STATUS_WORDS[policy.status].capitalize()}: {paid}{then}{left}. Its last posting is of {policy.last}."


DUE_WORDS = {
    "premium": "a premium of {amount} is due on {day}, and can be paid until {until}",
    "grace": "a premium of {amount} was due on {day}, and can still be paid until {until}",
    "lapse": "the premium of {day} wasn't paid until {until}: the policy can be lapsed",
    "mature": "the insurance ends on {day}: {amount} to be paid by a maturity",
    "reinstate": "lapsed on {day}: it can be put in force again until {until}, for {amount}",
    "settle": "{amount} is outstanding since {day}",
}


def due_words(what: str, it: Item) -> str:
    return DUE_WORDS[what].format(amount=money(it.cents), day=it.day, until=it.until or "")


# --- the reserve over the years ---

class Curve(NamedTuple):
    """The printed rows of a policy on its anniversaries."""

    rows: list[tuple[datetime.date, ValuedRow]]


def anniversaries_of(policy: Policy) -> list[datetime.date]:
    days = [anniversary(policy.issued, year) for year in range(years_of(policy) + 1)
            if policy.issued.year + year <= LAST_DAY.year]
    return [day for day in days if day <= LAST_DAY]


def curve_of(book: View, known: Known) -> Curve:
    """Returns what the program prints on each anniversary for a journal that has only this policy's postings."""
    title = f"policy {known.policy.number} over the years"
    found = book.kept(("curve", known.policy.number, book.at), title, lambda job: drawn(book, known, job))
    assert isinstance(found, Curve)
    return found


def drawn(book: View, known: Known, job: Job) -> Curve:
    with book.at_position(0).desk_at_position() as desk:
        commands = [step.command for step in known.steps]
        if any(each.kind == "paidup" for each in commands):
            commands = [UPGRADE, *commands]
        with open(os.path.join(desk, "journal.life"), "wb") as file:
            file.write(file_of(commands))
        days = anniversaries_of(known.policy)
        rows: list[ValuedRow] = []
        for first in range(0, len(days), MOST_VALUATIONS):
            job.at("life run", first, len(days))
            rows += rows_on(book, desk, days[first:first + MOST_VALUATIONS])
        return Curve(list(zip(days, rows)))


def rows_on(book: View, desk: str, days: list[datetime.date]) -> Iterator[ValuedRow]:
    """Yields the rows of one policy that a script of valuations prints."""
    script = os.path.join(desk, "script")
    with open(script, "w", encoding="ascii") as file:
        file.writelines(f"1,value,{day},now,1\n" for day in days)
    words = ["run", "--basis", book.basis.name]
    path = printed_by(book.life, words, desk, book.copy.scratch, os.path.join(desk, "printed"), script)
    rows = [row_of(line, 2) for line in lines_of(path) if line.startswith("row,")]
    demand(len(rows) == len(days), f"life printed {len(rows)} rows for {len(days)} valuations of one policy")
    return iter(rows)
