"""Lists what is behind a cell of a statement: the policies, postings or sums of which it consists."""
from __future__ import annotations

import csv
import os
from dataclasses import dataclass
from typing import Callable, Sequence

from life_tools.common.arrays import Array, np
from life_tools.journal.policy_columns import is_insured
from life_tools.journal.records import ALTER, CLAIM, ISSUE, LAPSE, MATURE, PAIDUP, PREMIUM, REINSTATE, SETTLE
from life_tools.reports import claim_sheet, exhibits, premium_sheet
from life_tools.reports.report_pages import apart, money
from life_tools.reports.wording import STATUS_WORDS
from life_tools.window.asked import Asked, BadRequest, shown
from life_tools.window.find_pages import policy_cell
from life_tools.window.group_pages import paged
from life_tools.window.history import History
from life_tools.window.parts import RIGHT, Answer, Cell, Head, Page, Table, cells, counted_policies
from life_tools.window.posting_pages import posted_cells
from life_tools.window.statement_pages import TITLES, asked_words, written
from life_tools.window.views import View, paged_words, turns
from life_tools.rules.tables import CODE_OF_STATUS, TERM

GROUP_OF = {title: group for group, title in exhibits.TITLES.items()}


@dataclass(frozen=True)
class Behind:
    """Rows behind a cell: what they are, the headers, the rows of a page, the number of all rows, and the sum of the cents."""

    says: str
    heads: Sequence[Head]
    rows: Callable[[slice], list[list[Cell]]]
    count: int
    cents: int


def told_words(words: dict[str, str]) -> dict[str, object]:
    return dict(words)


def cell(book: View, asked: Asked) -> Answer:
    """Returns the list behind a cell; it adds up to the cell's amount, except for the rounding that the sheet states."""
    words = asked_words(book, asked, "sheet", "line", "group", "page")
    sheet, line, group = asked.one_of("sheet", TITLES, "exhibit"), asked.text("line"), asked.text("group")
    found = LISTS[sheet](book, words, line, group)
    if found is None:
        raise BadRequest(f"Line: {shown(line) or 'nothing'} is no line of this sheet that lists policies")
    page, pages, some = paged(asked, found.count)
    told: dict[str, object] = {**words, "sheet": sheet, "line": line, "group": group}
    total = [Cell("all"), *cells((found.count,)), *(Cell("") for _ in found.heads[3:]), Cell(money(found.cents))]
    values = {"table": Table(f"{TITLES[sheet]}: {line}", found.heads, found.rows(some), [total], kind="list"), "says": found.says,
              "page": page, "pages": pages, "is_printed": False, "back": book.link("statement", **told_words(words)),
              "turns": turns(lambda to: book.link("statement/cell", **paged_words(told, to)), page, pages)}
    return Page("group.html", f"{TITLES[sheet]}: {line}", values)


# --- policies at one of both moments ---

POLICY_HEADS = (Head("policy", RIGHT), Head("status"), Head("amount", RIGHT))


def policies_behind(book: View, chosen: Array, cents: Array, says: str) -> Behind:
    of = book.policies()

    def rows(some: slice) -> list[list[Cell]]:
        return [[policy_cell(book, int(of.number[place])), Cell(STATUS_WORDS[of.policy(place).status]),
                 Cell(money(int(cents[place])))]
                for place in chosen[some].tolist()]

    return Behind(f"{counted_policies(len(chosen))} {says} at position {book.at:,}.", POLICY_HEADS, rows, len(chosen),
                  int(cents[chosen].sum()))


def in_force_behind(book: View, group: str) -> Behind:
    of = book.policies()
    mine = is_insured(of)
    if group in GROUP_OF:
        mine &= exhibits.groups_of(of) == exhibits.GROUPS.index(GROUP_OF[group])
    return policies_behind(book, np.flatnonzero(mine), of.amount, "in force")


# --- postings between the positions ---

POSTING_HEADS = (Head("position", RIGHT), Head("day"), Head("posting"), Head("policy", RIGHT), Head("amount", RIGHT))


def postings_behind(book: View, places: Array, cents: Array) -> Behind:
    def rows(some: slice) -> list[list[Cell]]:
        chosen = places[some]
        return [[*posted, Cell(money(amount))] for posted, amount in zip(posted_cells(book, chosen), cents[chosen].tolist())]

    says = f"{len(places):,} posting{'' if len(places) == 1 else 's'} between both positions."
    return Behind(says, POSTING_HEADS, rows, len(places), int(cents[places].sum()))


def between(book: View, words: dict[str, str], *kinds: int) -> Array:
    """Returns the places of the postings of some kinds between the two positions."""
    kind = book.history().kind
    first = int(words["p1"])
    found: Array = np.flatnonzero(np.isin(kind[first:], kinds)) + first
    return found


def insured_by(history: History) -> Array:
    """Returns by how much each posting changed the amount insured."""
    return np.diff(history.insured, prepend=0)


def group_at(book: View, places: Array) -> Array:
    """Returns the exhibit's group to which the policy of each posting belonged before it."""
    history, of = book.history(), book.policies()
    made = np.full(len(of), len(history), np.int64)
    upgraded = np.flatnonzero(history.kind == PAIDUP)
    made[history.place[upgraded]] = upgraded
    place = history.place[places]
    plan = exhibits.GROUP_OF[of.plan[place]]
    found: Array = np.where(made[place] < places, exhibits.GROUPS.index(exhibits.PAID_UP), plan)
    return found


EXHIBIT_KINDS = {exhibits.ISSUED: (ISSUE,), exhibits.REVIVED: (REINSTATE,), exhibits.DECREASED: (ALTER, PAIDUP),
                 exhibits.MADE_PAID_UP: (PAIDUP,), exhibits.DEATH: (CLAIM,), exhibits.MATURITY: (MATURE,),
                 exhibits.EXPIRY: (MATURE,), exhibits.LAPSE: (LAPSE,)}


def behind_exhibit(book: View, words: dict[str, str], line: str, group: str) -> Behind | None:
    if line in (exhibits.BEGINNING, exhibits.END):
        at = book if line == exhibits.END else book.at_position(int(words["p1"]))
        return in_force_behind(at, group)
    if line not in EXHIBIT_KINDS:
        return None
    places = between(book, words, *EXHIBIT_KINDS[line])
    if line in (exhibits.MATURITY, exhibits.EXPIRY):
        is_term = book.policies().plan[book.history().place[places]] == TERM
        places = places[is_term == (line == exhibits.EXPIRY)]
    if group in GROUP_OF:
        places = places[group_at(book, places) == exhibits.GROUPS.index(GROUP_OF[group])]
    return postings_behind(book, places, insured_by(book.history()))


def behind_premiums(book: View, words: dict[str, str], line: str, _: str) -> Behind | None:
    history = book.history()
    if line in (premium_sheet.FIRST_YEAR, premium_sheet.RENEWAL):
        places = between(book, words, PREMIUM)
        is_first = history.due[places] == book.policies().issued[history.place[places]]
        return postings_behind(book, places[is_first == (line == premium_sheet.FIRST_YEAR)], history.booked)
    if line == premium_sheet.BY_REVIVAL:
        return postings_behind(book, between(book, words, REINSTATE), history.booked)
    name, _, when = line.rpartition(" at the ")
    if name not in premium_sheet.LINES or f"at the {when}" not in (premium_sheet.AT_BEGINNING, premium_sheet.AT_END):
        return None
    return parts_behind(book, words, "premiums", lambda row: row["when"] == f"at the {when}" and row["line"] == name, "gross")


def behind_claims(book: View, words: dict[str, str], line: str, _: str) -> Behind | None:
    history = book.history()
    if line == claim_sheet.REPORTED:
        places = between(book, words, CLAIM, MATURE)
        return postings_behind(book, places[history.booked[places] > 0], history.booked)
    if line == claim_sheet.SETTLED:
        return postings_behind(book, between(book, words, SETTLE), -history.booked)
    if line in (claim_sheet.BEGINNING, claim_sheet.END):
        at = book if line == claim_sheet.END else book.at_position(int(words["p1"]))
        of = at.policies()
        owed = np.isin(of.status, [CODE_OF_STATUS[each] for each in claim_sheet.CODES])
        places = np.flatnonzero(owed & (of.outstanding > 0))
        return policies_behind(at, places, of.outstanding, "with something outstanding")
    ages = [name for _, name in claim_sheet.AGES]
    if line not in ages:
        return None
    most, least = claim_sheet.AGES[ages.index(line)][0], claim_sheet.AGES[ages.index(line) - 1][0] if ages.index(line) else -10**6
    return parts_behind(book, words, "claims", lambda row: least < int(row["days"]) <= most, "outstanding")


# --- each policy's part, as `statement --policies` writes it ---

def parts_behind(book: View, words: dict[str, str], sheet: str, is_of: Callable[[dict[str, str]], bool], column: str) -> Behind:
    run = written(book, words, "--policies", "parts")
    with open(os.path.join(run.file("parts"), f"{sheet}.csv"), encoding="utf-8", newline="") as file:
        found = [row for row in csv.DictReader(file) if is_of(row)]
    names = [name for name in (found[0] if found else {}) if name not in ("policy", "when", "line", column)][:4]
    heads = [Head("policy", RIGHT), *(Head(name, RIGHT) for name in names), Head(column, RIGHT)]

    def rows(some: slice) -> list[list[Cell]]:
        return [[policy_cell(book, int(row["policy"])), *(Cell(apart(row[name])) for name in names), Cell(apart(row[column]))]
                for row in found[some]]

    return Behind(f"{counted_policies(len(found))}.", heads, rows, len(found),
                  sum(int(row[column].replace(".", "")) for row in found))


def behind_increase(book: View, words: dict[str, str], line: str, bound: str) -> Behind | None:
    """Returns what is behind a line of the increase; a line between the two ends was computed once for both columns."""
    ends = "lower" if "lower" in bound else "upper"
    column = {"reserve at the beginning": f"opening {ends}", "reserve at the end": f"closing {ends}"}.get(line, line)
    if line in ("rounding", "change of basis"):
        return None
    run = written(book, words, "--policies", "parts")
    with open(os.path.join(run.file("parts"), "increase.csv"), encoding="utf-8", newline="") as file:
        names = next(csv.reader(file))
    if column not in names:
        return None
    return parts_behind(book, words, "increase", lambda row: row[column] not in ("", "0.00"), column)


def behind_reserves(book: View, words: dict[str, str], line: str, group: str) -> Behind | None:
    return None


LISTS: dict[str, Callable[[View, dict[str, str], str, str], Behind | None]] = {
    "exhibit": behind_exhibit, "premiums": behind_premiums, "claims": behind_claims, "increase": behind_increase,
    "reserves": behind_reserves}
