"""Computes what the first page shows: sums by month and year of a book's history, and what the program prints for year-ends."""
from __future__ import annotations

import datetime
import os
from dataclasses import dataclass
from typing import NamedTuple, Sequence

from life_tools.common.arrays import Array, Cents, np
from life_tools.common.formats import demand, money, printed_cents
from life_tools.journal.at_position import WORKERS
from life_tools.journal.day_columns import FIRST, anniversaries, number_at
from life_tools.journal.policy_columns import Policies, missed_by
from life_tools.journal.records import CLAIM, MATURE, PREMIUM, REINSTATE
from life_tools.valuations.class_bases import measure_words
from life_tools.valuations.groups import added
from life_tools.window.history import NO_DAY, History
from life_tools.window.jobs import Job, TooMuch
from life_tools.window.runs import printed_by
from life_tools.window.views import View
from life_tools.rules.tables import INFORCE, NEVER

MOST_YEARS, MONTHS_BEFORE, MONTHS_AHEAD = 12, 18, 3
RECEIVED = (PREMIUM, REINSTATE)
# a year-end's reserve is a mean reserve, as in a statement of a calendar year
MEASURE = "mean"
LAST_BYTES = 512


class YearEnd(NamedTuple):
    """The end of a year that the postings reach: its position, and what is insured at that position."""

    day: datetime.date
    position: int
    lives: int
    insured: int


@dataclass(frozen=True)
class Figures:
    """Sums in cents by the labels of months and years."""

    year_ends: list[YearEnd]
    months: list[str]
    due: list[int]
    received: list[int]
    years: list[str]
    claims: list[int]
    maturities: list[int]
    ahead: Ahead | None = None


class Ahead(NamedTuple):
    """Postings of days far ahead, which no chart shows: their number, their first and their last day, and the position of the
    first of them; and how many postings of days that are shown came after that position."""

    postings: int
    first: datetime.date
    last: datetime.date
    position: int
    after: int


def month_of(days: Array) -> Array:
    """Returns the months of days, as numbers counted from January 1970."""
    found: Array = days.astype("datetime64[D]").astype("datetime64[M]").astype(np.int64)
    return found


def label_of(month: int) -> str:
    return str(np.datetime64(month, "M"))


def sums_in(codes: Array, first: int, count: int, cents: Cents) -> list[int]:
    """Returns the sums of the cents for `count` codes from the first one on."""
    mine = (codes >= first) & (codes < first + count)
    return added(codes[mine] - first, count, cents[mine])


# --- premiums ---

class Installments(NamedTuple):
    """Premiums with the day on which each was due, its cents, and the position that paid it, or else the policy's place."""

    due: Array
    cents: Cents
    position: Array
    place: Array


def paid_installments(history: History) -> Installments:
    """Returns the premiums that were paid; a reinstatement pays more than one."""
    at = np.flatnonzero(np.isin(history.kind, RECEIVED) & (history.paid > 0))
    count = history.paid[at].astype(np.int64)
    each = np.repeat(at, count)
    nth = np.arange(len(each)) - np.repeat(np.cumsum(count) - count, count)
    due = np.where(nth == 0, history.due[each], anniversaries(history.due[each], nth))
    cents = history.booked[each] // history.paid[each]
    return Installments(due, cents, each + 1, np.full(len(each), -1))


def unpaid_installments(of: Policies, first: int, last: int) -> Installments:
    """Returns the unpaid premiums, due between two days, of policies that are in force by their status."""
    place = np.flatnonzero((of.status == INFORCE) & (of.due != NEVER) & (of.due <= last))
    of_place = of.at(place)
    by_then = missed_by(of_place, np.full(len(place), last, np.int32)).astype(np.int64)
    before = missed_by(of_place, np.full(len(place), first - 1, np.int32)).astype(np.int64) if first > FIRST else 0 * by_then
    count = by_then - before
    each = np.repeat(place, count)
    nth = np.arange(len(each)) - np.repeat(np.cumsum(count) - count - before, count)
    due = anniversaries(of.issued[each], of.paid[each] + nth)
    return Installments(due, of.premium[each], np.zeros(len(each), np.int64), each)


def installments(book: View, history: History, first: int, last: int) -> Installments:
    """Returns the premiums that fell due between two days: those that were paid, and those of policies in force that are
    unpaid."""
    paid, unpaid = paid_installments(history), unpaid_installments(book.policies(), first, last)
    mine = np.flatnonzero((paid.due >= first) & (paid.due <= last))
    return Installments(*(np.concatenate([one[mine], other]) for one, other in zip(paid, unpaid)))


def first_of(month: int) -> int:
    """Returns the first day of a month that is counted from January 1970."""
    return int(np.datetime64(month, "M").astype("datetime64[D]").astype(np.int64))


# --- all figures ---

def year_ends_of(history: History, last: int) -> list[YearEnd]:
    """Returns the last year-ends that the postings reach."""
    first = day_of_number(int(history.days().min())).year
    newest = day_of_number(last)
    newest_year = newest.year if (newest.month, newest.day) == (12, 31) else newest.year - 1
    found = []
    for year in range(max(first, newest_year - MOST_YEARS + 1), newest_year + 1):
        day = datetime.date(year, 12, 31)
        position = history.position_on(number_at(day))
        lives, insured = (int(column[position - 1]) if position else 0 for column in (history.lives, history.insured))
        found.append(YearEnd(day, position, lives, insured))
    return found


def day_of_number(number: int) -> datetime.date:
    return datetime.date(1970, 1, 1) + datetime.timedelta(number)


def figures_of(book: View, on: datetime.date | None) -> Figures:
    """Returns the figures of a position on a day, by default the day of its last posting; raises Working while they are made."""
    # what an earlier position needs is made first, and not as part of this work
    book.policies()
    last = book.last_day
    if last and on and book.at != book.copy.newest:
        last = max(last, on)
    found = book.copy.kept(("figures", book.at, last), "the figures of the first page", lambda job: made(book, last))
    assert isinstance(found, Figures)
    return found


def made(book: View, until: datetime.date | None) -> Figures:
    """Returns the figures up to a day: the last one with a posting, or a later one if nothing more was posted by then."""
    history = book.history()
    if until is None:
        return Figures([], [], [], [], [], [], [])
    last = number_at(until)
    first, count = int(month_of(np.array([last]))[0]) - MONTHS_BEFORE + 1, MONTHS_BEFORE + MONTHS_AHEAD
    premiums = installments(book, history, first_of(first), first_of(first + count) - 1)
    is_received, months = np.isin(history.kind, RECEIVED), month_of(history.day)
    ends = year_ends_of(history, last)
    # the addresses of these positions contain checksums of the journal up to them
    book.copy.sum_all([each.position for each in ends])
    years, claims, maturities = claims_by_year(history, last)
    return Figures(ends, [label_of(month) for month in range(first, first + count)],
                   sums_in(month_of(premiums.due), first, count, premiums.cents),
                   sums_in(months[is_received], first, count, history.booked[is_received]), years, claims, maturities,
                   ahead_of(history, last))


def ahead_of(history: History, last: int) -> Ahead | None:
    """Returns the postings of days after the last one that is shown, or None."""
    places = np.flatnonzero(history.day > last)
    if not len(places):
        return None
    days, rest = history.day[places], history.day[places[0]:]
    return Ahead(len(places), day_of_number(int(days.min())), day_of_number(int(days.max())), int(places[0]) + 1,
                 int(np.count_nonzero((rest != NO_DAY) & (rest <= last))))


def claims_by_year(history: History, last: int) -> tuple[list[str], list[int], list[int]]:
    """Returns what was incurred by claims and by maturities in each of the last years."""
    year = month_of(np.array([last]))[0] // 12
    first = year - MOST_YEARS + 1
    found = []
    for kind in (CLAIM, MATURE):
        mine = history.kind == kind
        found.append(sums_in(month_of(history.day[mine]) // 12, first, MOST_YEARS, history.booked[mine]))
    labels = [str(1970 + each) for each in range(first, first + MOST_YEARS)]
    # leave out the years before the first one with an amount
    begins = next((at for at in range(MOST_YEARS) if found[0][at] or found[1][at]), 0)
    return labels[begins:], found[0][begins:], found[1][begins:]


# --- what the program prints of a year-end ---

class Total(NamedTuple):
    """A printed total: the bounds in cents, and the number of rows with a word."""

    lower: int
    upper: int
    words: int


@dataclass(frozen=True)
class Totals:
    """The totals of year-ends, None for one that is not there yet; `failure` says what went wrong."""

    found: list[Total | None]
    failure: str

    @property
    def missing(self) -> int:
        return sum(each is None for each in self.found)


def totals_of(book: View, ends: Sequence[YearEnd]) -> Totals:
    """Returns the mean reserves of the year-ends as far as they are known; the program is asked for the newest one that is
    missing."""
    found, failure, is_asked = [], "", False
    for end in reversed(ends):
        key = book.basis.sum, "total", end.day, end.position
        job = book.copy.jobs.look(key)
        if job is None and not is_asked and not failure:
            job = asked_total(book, end, key)
        is_there = job is not None and job.ended.is_set()
        is_asked = is_asked or (job is not None and not is_there)
        if job is not None and job.failure:
            failure = failure or job.failure
        found.append(job.result if is_there and job is not None else None)
    return Totals(found[::-1], failure)


def asked_total(book: View, end: YearEnd, key: tuple[object, ...]) -> Job | None:
    """Asks the program for a year-end, unless too much waits for it already."""
    title = f"the mean reserve on {end.day} at position {end.position:,}"
    try:
        return book.copy.jobs.job(key, title, lambda job: total_of(book.at_position(end.position), end.day, job))
    except TooMuch:
        return None


def total_of(book: View, on: datetime.date, job: Job) -> Total:
    job.at("life value")
    with book.desk_at_position() as desk:
        words = ["value", str(on), "--at", str(book.at), "--basis", book.basis.name, *measure_words(MEASURE), *WORKERS]
        path = printed_by(book.life, words, desk, book.copy.scratch, os.path.join(desk, "value"))
        return total_in(path)


def total_in(path: str) -> Total:
    """Returns the total of the last line of a printed valuation."""
    with open(path, "rb") as file:
        file.seek(max(os.path.getsize(path) - LAST_BYTES, 0))
        fields = file.read().decode("ascii", "replace").splitlines()[-1].split(",")
    demand(fields[0] == "total" and len(fields) == 4, "the valuation has no total")
    return Total(printed_cents(fields[1]), printed_cents(fields[2]), int(fields[3]))


def told(total: Total | None) -> list[str]:
    return [money(total.lower), money(total.upper), f"{total.words:,}"] if total else ["", "", ""]
