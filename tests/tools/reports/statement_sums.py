"""Computes the sums of a statement's sheets independently: by exact fractions, and by the lists of `due`. What SQLite finds over
`export` is compared in tests/year_end.

The increase in reserves is computed a second way: by the anniversaries on which each policy was in force, each with the exact
value of `life_tools.reserves`.
"""
import datetime
from fractions import Fraction
from typing import Any

from life_tools.journal.file import file_of
from life_tools.reports.periods import Asked
from life_tools.reserves.exact import insured_by, terms_of
from life_tools.rules.commands import Command
from life_tools.tables.basis import BasisRow
from tests.rules.policies import Book, Policy, anniversary, completed
from tests.support.drawn_scripts import for_tools
from tests.support.folders import Folder
from tests.support.shown import cents


def rows_of(sheet: Any) -> Any:
    return {row.cells[0]: row.cells for row in sheet.rows}


def printed_total(folder: Folder, on: datetime.date, position: int, measure: list[str]) -> list[int]:
    """Returns the sums of the last line of a valuation by the program, and how many rows have a word."""
    ended = folder.life("value", str(on), "--at", str(position), *measure)
    assert ended.status == 0, ended
    return [cents(text) for text in ended.out.splitlines()[-1].split(",")[1:]]


def judge_reserves(folder: Folder, sheets: dict[str, Any], asked: Asked) -> None:
    """Judges the sums by the last line that the program prints for each of the two positions."""
    measure = [] if asked.measure == "terminal" else ["--mean"]
    opening = printed_total(folder, asked.on1, asked.first, measure)
    closing = printed_total(folder, asked.on2, asked.last, measure)
    increase = [row.cells for row in sheets["increase"].rows]
    assert list(increase[0][2:]) == opening[:2] and list(increase[-1][2:]) == closing[:2], \
        f"increase: {increase}, {opening}, {closing}"
    for bound in (2, 3):
        assert sum(cells[bound] for cells in increase[:-1]) == increase[-1][bound], f"the increase doesn't add up: {increase}"
    assert all(abs(increase[-2][bound]) <= 2 * len(sheets["reserves"].rows) + 2 * 400 for bound in (2, 3)), \
        f"rounding: {increase}"
    reserves = sheets["reserves"]
    lines = [row.cells for row in reserves.rows if row.section == 0 and not row.is_total]
    assert [sum(cells[place] for cells in lines) for place in (7, 8)] == closing[:2], f"reserves: {lines}, {closing}"
    words = sum(row.cells[5] for row in reserves.rows if row.section == 1)
    assert words == closing[2], f"{words} policies have a word, and {closing[2]} are printed"
    in_force = rows_of(sheets["exhibit"])["in force at the end"]
    counted = [sum(row.cells[place] for row in reserves.rows if not row.is_total) for place in (5, 6)]
    assert counted == [in_force[11], in_force[12]], f"reserves are of {counted}, in force are {in_force}"


# --- the increase, computed a second way ---

def histories(commands: list[Command]) -> Any:
    """Returns the states of each policy, each with the position and the day from which it applies."""
    book = Book()
    found: dict[Any, Any] = {}
    for position, command in enumerate(commands, 1):
        book.post(command)
        if command.number:
            found.setdefault(command.number, []).append((position, command.day, command.kind, book.policies[command.number]))
    return found


def worth_of(policy: Policy, basis: list[BasisRow], known: dict[Any, Any]) -> Any:
    terms = terms_of(for_tools(policy), basis)
    if isinstance(terms, str):
        return None
    case = terms.row.day, policy.plan, policy.age, policy.years, policy.status == "paidup"
    if case not in known:
        known[case] = insured_by(terms, policy.age, policy.status == "paidup")
    return known[case]


def by_anniversaries(history: Any, asked: Asked, basis: list[BasisRow], known: dict[Any, Any]) -> Any:
    """Returns net premiums, interest and cost of insurance of one policy, in exact cents. They are summed over the
    anniversaries up to the closing day on which the policy was in force, each for the year that ended then. For a policy of
    the opening book they begin with the opening day."""
    found = [Fraction(0)] * 3
    states = [it for it in history if it[0] <= asked.last]
    opening = [it for it in states if it[0] <= asked.first]
    issued = history[0][3].issued
    if not states or issued > asked.on2:
        return found
    was_there = bool(opening) and issued <= asked.on1
    begun = completed(issued, asked.on1) if was_there else 0
    moments = [(asked.on1 if was_there else issued, opening[-1][3])] if opening else []
    moments += [(min(day, asked.on2), policy) for position, day, _, policy in states if position > asked.first]
    for year in range(begun, completed(issued, asked.on2)):
        ends = anniversary(issued, year + 1)
        before = [policy for day, policy in moments if max(day, asked.on1 if was_there else issued) < ends]
        policy = before[-1]
        insured = worth_of(policy, basis, known) if policy.status in ("inforce", "paidup") else None
        if insured is None or year >= insured.cover.years:
            continue
        net = insured.net_premium(year)
        interest = (1 / insured.cover.discount - 1) * (insured.terminal(year) + net)
        cost = insured.cover.rates[year] * (1 - insured.terminal(year + 1))
        for place, each in enumerate((net, interest, -cost)):
            found[place] += policy.amount * each
    return found


def judge_exactly(sheets: dict[str, Any], asked: Asked, past: dict[int, Any], basis: list[BasisRow],
                  known: dict[Any, Any]) -> None:
    sums = [Fraction(0)] * 3
    for history in past.values():
        sums = [one + other for one, other in zip(sums, by_anniversaries(history, asked, basis, known))]
    increase = rows_of(sheets["increase"])
    for name, exact in zip(("net premiums", "interest", "cost of insurance"), sums):
        assert abs(increase[name][2] - exact) <= Fraction(1, 2) + Fraction(1, 10**9), \
            f"{name}: {increase[name][2]} cents, by anniversaries {float(exact)}"


# --- premiums, computed a second way ---

def listed_due(folder: Folder, commands: list[Command], on: datetime.date) -> Any:
    """Returns what `due` lists for a prefix of the book: the number of premiums in grace and their sum, and the number of
    policies to lapse."""
    folder.write("prefix.life", file_of(commands))
    rows = [line.split(",") for line in folder.printed("due", str(on), "prefix.life").splitlines()[1:]]
    # a premium that is due on the day itself is listed as `premium`, and its days of grace are yet to come
    in_grace = [row for row in rows if row[0] in ("grace", "premium")]
    return len(in_grace), sum(cents(row[4]) for row in in_grace), sum(row[0] == "lapse" for row in rows)


def judge_premiums(folder: Folder, sheets: dict[str, Any], asked: Asked, commands: list[Command], past: dict[int, Any],
                   basis: list[BasisRow], known: dict[Any, Any]) -> None:
    lines = rows_of(sheets["premiums"])
    for at, on, when in ((asked.first, asked.on1, "at the beginning"), (asked.last, asked.on2, "at the end")):
        found = (*lines[f"uncollected in grace {when}"][1:4:2], lines[f"past grace and not lapsed {when}"][1])
        wanted = listed_due(folder, commands[:at], on)
        assert found == wanted, f"{when}: uncollected are {found}, and due lists {wanted}"
        ahead = [0, 0, 0, 0]
        for history in past.values():
            part = paid_ahead([it for it in history if it[0] <= at], on, basis, known)
            ahead = [one + other for one, other in zip(ahead, part)]
        assert list(lines[f"paid in advance {when}"][1:5]) == ahead, \
            f"{when}: {lines[f'paid in advance {when}']}, another way {ahead}"


def paid_ahead(states: Any, on: datetime.date, basis: list[BasisRow], known: dict[Any, Any]) -> Any:
    """Returns whether a policy is paid in advance, how many premiums, and their gross and net amounts. Each posting pays for a
    number of policy years that follow each other."""
    if not states or states[-1][3].status != "inforce":
        return 0, 0, 0, 0
    policy, gross, years = states[-1][3], 0, []
    for (_, _, _, before), (_, _, kind, after) in zip(states, states[1:]):
        for year in range(before.paid, after.paid):
            if anniversary(policy.issued, year) > on:
                gross += before.premium
                years.append(year)
    insured = worth_of(policy, basis, known)
    net = policy.amount * sum((insured.net_premium(year) for year in years), Fraction(0)) if insured else Fraction(0)
    return bool(years), len(years), gross, (2 * net + 1) // 2
