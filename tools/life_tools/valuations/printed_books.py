"""Reads what `life value` and `life state` printed for one position, as a whole: rows, policies, totals, balances."""
from __future__ import annotations

import datetime
from dataclasses import dataclass, replace
from typing import NamedTuple

from life_tools.common.formats import (MOST_COMMANDS, MOST_NUMBER, Wrong, day_in, demand, measure_of, money, number_of,
                                       printed_cents)
from life_tools.rules.policies import Policy

# the text of an amount is shorter
MOST_LETTERS = 22


class ValuedRow(NamedTuple):
    """A row: the policy's number, status and year, and its bounds in cents or a word.

    There are two bounds, or four by `deficiency`, which also says whether the premium is enough.
    """

    number: int
    status: str
    year: int
    bounds: tuple[int, ...]
    word: str
    premium: str = ""


class PrintedValuation(NamedTuple):
    """A valuation: its day, position, measure, rows in order of issue, the printed sums, and the number of rows with a word."""

    on: datetime.date
    position: int
    measure: str
    rows: list[ValuedRow]
    total: tuple[int, ...]
    words: int


def cents(text: str) -> int:
    """Returns the cents of a printed amount; `printed_cents` reports what is wrong with a text that is none."""
    if text[-3:-2] == "." and text[:-3].isdecimal() and text[-2:].isdecimal() and len(text) < MOST_LETTERS:
        return int(text[:-3] + text[-2:])
    return printed_cents(text)


def row_of(line: str, bounds: int) -> ValuedRow:
    fields = line.split(",")
    demand(fields[0] == "row" and len(fields) in (5, 4 + bounds, 5 + bounds), f"{line} is no row of a valuation")
    number, year = number_of(fields[1], 1, MOST_NUMBER), number_of(fields[3], 0, 131)
    if number is None or year is None:
        raise Wrong(f"{line} is no row of a valuation")
    if len(fields) == 5:
        return ValuedRow(number, fields[2], year, (0,) * bounds, fields[4])
    premium = fields[4 + bounds] if len(fields) == 5 + bounds else ""
    return ValuedRow(number, fields[2], year, tuple(cents(field) for field in fields[4:4 + bounds]), "", premium)


def valuation_in(text: str) -> PrintedValuation:
    """Returns the only valuation of the text that a run of `value` printed; its rows must add up to its total."""
    lines = text.splitlines()
    head = lines[0].split(",") if lines else []
    measure = measure_of(head)
    demand(measure is not None and len(lines) >= 2, "that is no valuation that life value prints")
    assert measure is not None
    bounds = 4 if measure == "deficiency" else 2
    rows = [row_of(line, bounds) for line in lines[1:-1]]
    last = lines[-1].split(",")
    demand(last[0] == "total" and len(last) == bounds + 2, f"{lines[-1]} is no total of a valuation")
    total = tuple(cents(field) for field in last[1:-1])
    position, count, words = (number_of(text, 0, MOST_NUMBER) for text in (head[3], head[4], last[-1]))
    demand(count == len(rows), f"{lines[0]}: there are {len(rows)} rows")
    sums = tuple(sum(row.bounds[place] for row in rows) for place in range(bounds))
    demand(sums == total, f"the rows add up to {' and '.join(money(each) for each in sums)}, and the total is {lines[-1]}")
    demand(words == sum(row.word != "" for row in rows), f"{lines[-1]}: another number of rows has a word")
    if position is None or words is None:
        raise Wrong(f"{lines[0]} begins no valuation")
    return PrintedValuation(day_in(head[2]), position, measure, rows, total, words)


@dataclass(frozen=True)
class PrintedState:
    """The policies in order of issue, the balances of the accounts in cents, and the number of postings."""

    policies: list[Policy]
    balances: dict[str, int]
    count: int


def policy_of(line: str) -> Policy:
    """Returns the policy of a line of `state`.

    The line does not have the day of the last posting, so the day of issue takes its place.
    """
    fields = line.split(",")
    demand(len(fields) == 11 and fields[0] == "policy", f"{line} is no policy of a state")
    _, number, status, plan, age, years, amount, premium, issued, paid, outstanding = fields
    day, whole = day_in(issued), [number_of(text, 0, MOST_NUMBER) for text in (number, age, years, paid)]
    demand(None not in whole, f"{line} is no policy of a state")
    whole_number, at_age, for_years, premiums = (each or 0 for each in whole)
    return Policy(whole_number, plan, at_age, for_years, cents(amount), cents(premium), day, day, status, premiums,
                  cents(outstanding))


def state_in(text: str) -> PrintedState:
    """Returns the book that a run of `state` printed."""
    policies: list[Policy] = []
    balances: dict[str, int] = {}
    count = -1
    for line in text.splitlines():
        if line.startswith("policy,"):
            policies.append(policy_of(line))
        elif line.startswith("balance,"):
            fields = line.split(",")
            demand(len(fields) == 3, f"{line} is no balance of a state")
            balances[fields[1]] = printed_cents(fields[2])
        else:
            found = number_of(line[6:], 0, MOST_COMMANDS) if line.startswith("count,") else None
            demand(found is not None, f"{line} is no line of a state")
            count = found or 0
    demand(count >= 0, "the state has no count")
    return PrintedState(policies, balances, count)


def account_in(text: str) -> Policy:
    """Returns the policy that a run of `state ID` printed, with the day of its last posting."""
    lines = text.splitlines()
    entries = [line.split(",") for line in lines if line.startswith("entry,")]
    policies = [line for line in lines if line.startswith("policy,")]
    demand(len(policies) == 1 and entries, "that is no account of a policy that state prints")
    return replace(policy_of(policies[0]), last=day_in(entries[-1][3]))
