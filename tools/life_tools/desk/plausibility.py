"""Decides whether an issue is plausible.

An issue binds the office and cannot be undone, so a person checks a doubtful one first.
"""
from __future__ import annotations

import datetime
import os
from fractions import Fraction

from life_tools.common.formats import Wrong, money
from life_tools.desk.settings import DAY, PREMIUM, Settings, settings_of
from life_tools.reserves.exact import Cover, Terms, terms_of
from life_tools.rules.commands import Command
from life_tools.rules.policies import issued
from life_tools.tables.basis import BasisRow, read_basis

# why a row is held: the reason by its name in `desk.toml`, and a sentence
Why = tuple[str, str]


class NetPremiums:
    """The net level premiums of a basis, each computed once: the value of the benefits divided by that of the annuity."""

    def __init__(self, folder: str, name: str) -> None:
        self.name = name
        self.known: dict[tuple[datetime.date, int, int, int, bool], Fraction] = {}
        self.rows: list[BasisRow] = []
        # why premiums are not compared, or None if they are
        self.missing: str | None = None
        if not os.path.exists(os.path.join(folder, name)):
            self.missing = f"there is no {name}"
            return
        try:
            self.rows = read_basis(os.path.join(folder, name))
        except Wrong as wrong:
            self.missing = str(wrong)

    def of(self, command: Command) -> Fraction | str:
        """Returns the exact net premium of an issue in cents, or the word that says why the basis has none."""
        terms = terms_of(issued(command), self.rows)
        if isinstance(terms, str):
            return terms
        return command.amount * self.of_one(terms, command.age)

    def of_one(self, terms: Terms, age: int) -> Fraction:
        case = terms.row.day, age, terms.years, terms.payments, terms.matures
        if case not in self.known:
            cover = Cover(terms.table, age, terms.years, terms.payments, terms.matures, terms.row.discount)
            benefits, annuity = cover.values_at(0)
            self.known[case] = benefits / annuity
        return self.known[case]


def decimal(number: Fraction) -> str:
    """Returns a setting as it is written in `desk.toml`; it has few digits."""
    return f"{float(number):g}"


def doubtful_day(command: Command, today: datetime.date, settings: Settings) -> Why | None:
    behind, ahead = (today - command.on).days, (command.on - today).days
    if behind > settings.days_back:
        return DAY, f"its day is {behind} days before today, {today}, and {settings.days_back} are allowed"
    if ahead > settings.days_ahead:
        return DAY, f"its day is {ahead} days after today, {today}, and {settings.days_ahead} are allowed"
    return None


def doubtful_premium(command: Command, nets: NetPremiums, settings: Settings) -> Why | None:
    if settings.premium_below_amount and command.premium >= command.amount:
        return PREMIUM, f"its premium {money(command.premium)} is not below its amount {money(command.amount)}"
    if nets.missing:
        return None
    net = nets.of(command)
    if isinstance(net, str):
        return PREMIUM, f"{nets.name} has no net premium for it ({net})"
    least, most = settings.least_of_net, settings.most_of_net
    if not least * net <= command.premium <= most * net:
        band = f"{decimal(least)} to {decimal(most)} times the net premium {money(round(net))} of {nets.name}"
        return PREMIUM, f"its premium {money(command.premium)} lies outside {band}"
    return None


def doubtful_issue(command: Command, today: datetime.date, nets: NetPremiums, settings: Settings) -> Why | None:
    """Returns why a person has to check an issue, or None if nobody has to."""
    return doubtful_day(command, today, settings) or doubtful_premium(command, nets, settings)


class Doubts:
    """Finds what is doubtful about issues, by a folder's basis and its `desk.toml`."""

    def __init__(self, today: datetime.date, folder: str, basis: str) -> None:
        self.today, self.settings = today, settings_of(folder)
        self.nets = NetPremiums(folder, basis)

    def of(self, command: Command) -> list[str]:
        """Returns what is doubtful about an issue.

        That its day is in the future is reported elsewhere, for every kind of row.
        """
        if command.kind != "issue":
            return []
        day = doubtful_day(command, self.today, self.settings) if command.on <= self.today else None
        premium = doubtful_premium(command, self.nets, self.settings)
        return [why[1] for why in (day, premium) if why]
