"""Assigns each policy of a book that is divided to one of the new books, by one rule for each new book.

  numbers=1-4999,8001        policies with these numbers; `5000-` has no upper end
  years=1990-1999            policies issued in these years
  class=smoker               policies of a class, by a file of classes
  others                     policies that fall under no other rule

Each policy must fall under exactly one rule, and at least one policy under each rule.
"""
from __future__ import annotations

from typing import Callable, NamedTuple, Sequence

from life_tools.common.arrays import Array, np
from life_tools.valuations.class_bases import Range
from life_tools.journal.day_columns import FIRST_YEAR, LAST_YEAR, years_at
from life_tools.common.formats import MOST_NUMBER, Wrong, demand, number_of
from life_tools.journal.policy_columns import Policies

OTHERS = "others"
KINDS = ("numbers", "years", "class")
# a single new book is no division; more than 64 are likely to be folders named by mistake
LEAST, MOST = 2, 64


class Rule(NamedTuple):
    """A rule as it was typed, and the function that says which policies fall under it."""

    text: str
    takes: Callable[[Policies], Array]


def is_rule(word: str) -> bool:
    return word == OTHERS or word.partition("=")[0] in KINDS and "=" in word


def spans_in(text: str, least: int, most: int) -> list[tuple[int, int]]:
    """Returns the ranges of a list such as 1-4999,8001,9000-, which has no blank."""
    found = []
    for span in text.split(","):
        first, between, last = span.partition("-")
        start = number_of(first, least, most)
        end = most if between and not last else number_of(last, least, most) if between else start
        if start is None or end is None or end < start:
            raise Wrong(f"{span or 'nothing'} is no span from {least} to {most}, as {least}-{least + 4}")
        found.append((start, end))
    return found


def within(values: Array, spans: Sequence[tuple[int, int]]) -> Array:
    found: Array = np.zeros(len(values), bool)
    for first, last in spans:
        found |= (values >= first) & (values <= last)
    return found


def of_class(ranges: Sequence[Range], name: str) -> list[tuple[int, int]]:
    spans = [(each.first, each.last) for each in ranges if each.class_ == name]
    demand(spans, f"the file of classes has no class {name}")
    return spans


def rule_in(word: str, ranges: Sequence[Range] | None) -> Rule:
    kind, _, told = word.partition("=")
    if word == OTHERS:
        return Rule(word, lambda policies: np.zeros(len(policies), bool))
    if kind == "years":
        spans = spans_in(told, FIRST_YEAR, LAST_YEAR)
        return Rule(word, lambda policies: within(years_at(policies.issued), spans))
    demand(kind == "numbers" or ranges is not None, f"{word} wants --classes, a file of classes")
    numbers = spans_in(told, 1, MOST_NUMBER) if kind == "numbers" else of_class(ranges or (), told)
    return Rule(word, lambda policies: within(policies.number, numbers))


def rules_in(words: Sequence[str], ranges: Sequence[Range] | None) -> list[Rule]:
    demand(LEAST <= len(words) <= MOST, f"a book is divided by {LEAST} to {MOST} rules, each numbers=, years=, class= or others")
    demand(len(set(words)) == len(words), "a rule stands twice")
    return [rule_in(word, ranges) for word in words]


def places_by(rules: Sequence[Rule], policies: Policies) -> Array:
    """Returns the place of the rule under which each policy falls; each policy must fall under exactly one."""
    takes = np.array([rule.takes(policies) for rule in rules])
    for place, rule in enumerate(rules):
        if rule.text == OTHERS:
            takes[place] = ~takes.any(axis=0)
    many = np.count_nonzero(takes, axis=0)
    wrong = np.flatnonzero(many != 1)
    if len(wrong):
        under = [rule.text for rule, taken in zip(rules, takes[:, wrong[0]]) if taken]
        raise Wrong(f"policy {policies.number[wrong[0]]} falls under {' and '.join(under) or 'no rule'}")
    for rule, taken in zip(rules, takes):
        demand(taken.any(), f"no policy falls under {rule.text}")
    places: Array = takes.argmax(axis=0)
    return places
