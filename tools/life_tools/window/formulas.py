"""Shows one row of a valuation as mathematical formulas in MathML: those of `why`, with their numbers.

The numbers are computed exactly as by `why`, and shown beside the printed row. The window adds them; they are not reserves that
the program printed.
"""
from __future__ import annotations

import datetime
from fractions import Fraction
from html import escape
from typing import NamedTuple, Sequence

from life_tools.valuations.explained_rows import compared
from life_tools.valuations.printed_books import ValuedRow
from life_tools.reports.report_pages import money
from life_tools.reserves.exact import InForce, Insured, PaidUp, Terms, exact_value, insured_on, is_insured, row_for, terms_of
from life_tools.rules.policies import Policy
from life_tools.tables.basis import BasisRow
from life_tools.reserves.worked_rows import WORDS, Worked, cents_about, decimal


class Line(NamedTuple):
    """A step: what is computed, and its formulas as MathML, from the letters to the result."""

    says: str
    formulas: list[str]


class Explained(NamedTuple):
    """A row worked out: steps, the rates used, and the comparison with the printed row; the status is 0 if they agree."""

    lines: list[Line]
    rates: list[tuple[int, int, str]]
    basis: str
    status: int
    compared: str


# --- MathML ---

def letter(name: str) -> str:
    return f"<mi>{escape(name)}</mi>"


def number(value: Fraction | int) -> str:
    text = decimal(Fraction(value))
    return f"<mrow><mo>−</mo><mn>{text[1:]}</mn></mrow>" if text.startswith("-") else f"<mn>{text}</mn>"


def amount(cents: Fraction | int) -> str:
    exact = Fraction(cents)
    return f"<mn>{money(int(exact))}</mn>" if exact.denominator == 1 else f"<mn>{decimal(exact / 100)}</mn>"


def sign(name: str) -> str:
    return f"<mo>{name}</mo>"


def row(*parts: str) -> str:
    return f"<mrow>{''.join(parts)}</mrow>"


def over(top: str, bottom: str) -> str:
    return f"<mfrac>{row(top)}{row(bottom)}</mfrac>"


def sub(name: str, index: str) -> str:
    return f"<msub>{letter(name)}<mrow>{index}</mrow></msub>"


def annuity(index: str) -> str:
    return f"<msub><mover><mi>a</mi><mo>¨</mo></mover><mrow>{index}</mrow></msub>"


def of(name: str, *parts: str) -> str:
    """Returns a function of some arguments, such as min(a, b)."""
    inner = "<mo>,</mo>".join(parts)
    return row(f"<mi mathvariant=\"normal\">{name}</mi>", sign("("), inner, sign(")"))


def math(*parts: str) -> str:
    return f"<math display=\"block\">{row(*parts)}</math>"


def equal(*sides: str) -> list[str]:
    """Returns a chain of equations, each on its own line, so that it can be read on a narrow screen."""
    first, *others = sides
    return [math(first, sign("="), others[0]), *(math(sign("="), side) for side in others[1:])]


def whole(value: int) -> str:
    return f"<mn>{value}</mn>"


BENEFITS, ANNUITY = sub("A", whole(0)), annuity(whole(0))
FIRST = sub("P", "<mi mathvariant=\"normal\">B</mi>")
LEVEL = sub("P", "<mi mathvariant=\"normal\">A</mi>")
LIMIT = sub("P", "<mn>19</mn>")


# --- the steps ---

class Steps:
    """The steps for one policy on one day."""

    def __init__(self, policy: Policy, terms: Terms, insured: Insured, year: int) -> None:
        self.policy, self.terms, self.insured, self.year = policy, terms, insured, year
        self.lines: list[Line] = []

    def say(self, says: str, *formulas: str) -> None:
        self.lines.append(Line(says, list(formulas)))

    def premium(self) -> None:
        if isinstance(self.insured, PaidUp):
            self.say("Paid up: no premium is to come, so none is taken off.")
            return
        it = self.insured
        benefits, annuity_due = it.cover.values_at(0)
        rate, discount = it.cover.rates[0], it.cover.discount
        self.say("At issue, of 1 insured: the benefits, and premiums of 1 a year",
                 math(BENEFITS, sign("="), number(benefits), "<mspace width=\"2em\"/>", ANNUITY, sign("="), number(annuity_due)))
        self.say("The net premium of the first year alone (B)",
                 *equal(FIRST, row(letter("v"), "<mspace width=\"0.2em\"/>", sub("q", letter("x"))),
                        row(number(discount), sign("·"), number(rate)), number(it.first_year)))
        self.say("The level premium for what follows (A)",
                 *equal(LEVEL, over(row(BENEFITS, sign("−"), FIRST), row(ANNUITY, sign("−"), whole(1))),
                        over(row(number(benefits), sign("−"), number(it.first_year)),
                             row(number(annuity_due), sign("−"), whole(1))),
                        number(it.renewal)))
        self.limit(it)
        self.say("Its excess over the net premium of the first year, or 0",
                 *equal(letter("E"), of("max", row(of("min", LEVEL, LIMIT), sign("−"), FIRST), whole(0)), number(it.excess)))
        self.say("The modified net premium",
                 *equal(letter("β"), over(row(BENEFITS, sign("+"), letter("E")), ANNUITY),
                        over(row(number(benefits), sign("+"), number(it.excess)), number(annuity_due)), number(it.modified)))

    def limit(self, it: InForce) -> None:
        benefits, annuity_due = it.limit.values_at(0)
        taken = "which is less than (A), and takes its place" if it.most < it.renewal else "which isn't less than (A)"
        self.say(f"Its limit, whole life at age {self.policy.age + 1} on {it.limit.payments} premiums, {taken}",
                 *equal(LIMIT, over(number(benefits), number(annuity_due)), number(it.most)))

    def terminal(self, year: int) -> None:
        benefits, annuity_due = self.insured.cover.values_at(year)
        at = whole(year)
        if isinstance(self.insured, PaidUp):
            self.say(f"The terminal reserve of 1 at the end of year {year}", *equal(sub("V", at), sub("A", at), number(benefits)))
            return
        it = self.insured
        taken = benefits - it.modified * annuity_due
        self.say(f"The terminal reserve of 1 at the end of year {year}" + (": not below 0" if taken < 0 else ""),
                 *equal(sub("V", at), row(sub("A", at), sign("−"), letter("β"), "<mspace width=\"0.2em\"/>", annuity(at)),
                        row(number(benefits), sign("−"), number(it.modified), sign("·"), number(annuity_due)), number(taken)),
                 *([math(sub("V", at), sign("="), whole(0))] if taken < 0 else []))

    def mean(self) -> None:
        it, year = self.insured, self.year
        if year == it.cover.years:
            self.say("At the end of the cover the mean reserve is the terminal one.")
            return
        self.terminal(year + 1)
        starts, net, ends = it.terminal(year), it.net_premium(year), it.terminal(year + 1)
        now, then = sub("V", whole(year)), sub("V", whole(year + 1))
        self.say(f"The mean reserve of 1 in year {year + 1}: half of its start, its net premium and its end",
                 *equal(sub("M", whole(year)), over(row(now, sign("+"), sub("P", whole(year)), sign("+"), then), whole(2)),
                        over(row(number(starts), sign("+"), number(net), sign("+"), number(ends)), whole(2)),
                        number(exact_value(it, year, "mean"))))

    def minimum(self) -> None:
        it, year, policy = self.insured, self.year, self.policy
        if isinstance(it, PaidUp) or year >= it.cover.payments:
            self.say("No premium is to come: the minimum reserve is the reserve.")
            return
        gross = Fraction(policy.premium, policy.amount)
        benefits, annuity_due = it.cover.values_at(year)
        counted, at = min(gross, it.modified), whole(year)
        short = "short of β" if gross < it.modified else "not below β"
        self.say(f"The premium charged, of 1 insured: {short}",
                 *equal(letter("G"), over(amount(policy.premium), amount(policy.amount)), number(gross)))
        self.say("With the lesser of both premiums, and at least the reserve: the minimum reserve of 1",
                 *equal(sub("D", at), of("max", sub("V", at), row(sub("A", at), sign("−"), of("min", letter("β"), letter("G")),
                                                                  annuity(at))),
                        of("max", number(it.terminal(year)), row(number(benefits), sign("−"), number(counted), sign("·"),
                                                                 number(annuity_due))),
                        number(it.minimum(gross, year))))

    def times_amount(self, says: str, name: str, worth: Fraction) -> None:
        exact = self.policy.amount * worth
        low, high = cents_about(exact)
        insured, made = amount(self.policy.amount), f"<mn>{decimal(exact / 100)}</mn>"
        bounds = [math(amount(low), sign("≤"), made, sign("≤"), amount(high))] if low < high else []
        self.say(says, math(insured, sign("·"), sub(name, whole(self.year)), sign("="), insured, sign("·"), number(worth),
                            sign("="), made), *bounds)


def steps_of(policy: Policy, terms: Terms, insured: Insured, year: int, measure: str) -> list[Line]:
    steps = Steps(policy, terms, insured, year)
    steps.premium()
    steps.terminal(year)
    if measure == "mean":
        steps.mean()
    name = "M" if measure == "mean" and year < insured.cover.years else "V"
    steps.times_amount("The amount insured times it" if measure != "deficiency" else "The reserve", name,
                       exact_value(insured, year, "mean" if measure == "mean" else "terminal"))
    if measure == "deficiency":
        steps.minimum()
        if isinstance(insured, InForce) and year < insured.cover.payments:
            steps.times_amount("The minimum reserve", "D", insured.minimum(Fraction(policy.premium, policy.amount), year))
    return steps.lines


def basis_words(basis: Sequence[BasisRow], policy: Policy) -> str:
    row_ = row_for(basis, policy.issued)
    if row_ is None:
        return "No row of the basis holds on the day of issue."
    return f"Row of the basis from {row_.day}: table {row_.name}, interest of {decimal(Fraction(row_.points, 100))} %."


def rates_of(policy: Policy, terms: Terms, insured: Insured) -> list[tuple[int, int, str]]:
    """Returns rows of year, age and rate."""
    return [(year, policy.age + year, decimal(insured.cover.rates[year])) for year in range(terms.years)]


def explained(policy: Policy, position: int, on: datetime.date, basis: Sequence[BasisRow], measure: str,
              printed: ValuedRow) -> Explained:
    """Returns the row worked out independently, compared with the printed row."""
    worked = Worked(policy, position, on, basis, measure)
    status, line = compared(worked, printed)
    words = basis_words(basis, policy)
    if worked.word:
        return Explained([Line(f"No value: {worked.word}: {WORDS[worked.word]}.", [])], [], words, status, line)
    if not is_insured(policy, on):
        why = f"it is issued after {on}" if policy.issued > on else f"a policy that is {policy.status} has no reserve"
        return Explained([Line(f"The reserve is 0.00, since {why}.", [])], [], words, status, line)
    year, insured = insured_on(policy, basis, on, {})
    terms = terms_of(policy, basis)
    assert isinstance(terms, Terms) and isinstance(insured, (InForce, PaidUp))
    return Explained(steps_of(policy, terms, insured, year, measure), rates_of(policy, terms, insured), words, status, line)
