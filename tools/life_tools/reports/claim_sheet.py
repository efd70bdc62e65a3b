"""Makes the sheet of claims and maturities: outstanding at the beginning, reported, settled, outstanding at the end by age."""
from __future__ import annotations

from typing import Iterator

from life_tools.journal import records as kinds
from life_tools.common.arrays import Array, np
from life_tools.journal.day_columns import texts_at
from life_tools.common.formats import STATUSES, money
from life_tools.valuations.groups import added
from life_tools.reports.periods import Moment, NotWhole, Period, demand_whole
from life_tools.journal.policy_columns import Policies
from life_tools.reports.posted_steps import Steps
from life_tools.reports.sheets import COUNT, TEXT, Column, Sheet
from life_tools.rules import tables
from life_tools.rules.tables import NEVER

BEGINNING, REPORTED, SETTLED, END = LINES = ("outstanding at the beginning", "reported", "settled", "outstanding at the end")
# the upper limits of the classes of age, in days since the report, and their names
AGES = ((-1, "reported after the day"), (30, "up to 30 days"), (90, "31 to 90 days"), (365, "91 to 365 days"),
        (10**6, "more than 365 days"))
CLAIM, MATURITY = "claimed", "matured"
CODES = {CLAIM: tables.CLAIMED, MATURITY: tables.MATURED}
KINDS = ("claim", "mature")


class Claims:
    """Takes the postings, and keeps for each line and status the number and the amount; it also counts the payments."""

    def __init__(self) -> None:
        self.parts = {(line, status): [0, 0] for line in (*LINES, *(name for _, name in AGES)) for status in CODES}
        self.payments = 0

    def put(self, line: str, status: str, count: int, amount: int) -> None:
        part = self.parts[line, status]
        part[0] += count
        part[1] += amount

    def take(self, steps: Steps) -> None:
        for status, code in CODES.items():
            if steps.kind in KINDS:
                mine = steps.after.status == code
                self.put(REPORTED, status, int(np.count_nonzero(mine)), int(steps.after.amount[mine].sum()))
            elif steps.kind == "settle":
                mine = steps.before.status == code
                settled = np.count_nonzero(mine & (steps.after.status == tables.SETTLED))
                self.put(SETTLED, status, -int(settled), -int(steps.amount[mine].sum()))
        self.payments += len(steps) if steps.kind == "settle" else 0

    def take_outstanding(self, line: str, of: Policies) -> None:
        for status, code in CODES.items():
            mine = of.status == code
            self.put(line, status, int(np.count_nonzero(mine)), int(of.outstanding[mine].sum()))

    def take_ages(self, of: Policies, days: Array) -> None:
        """Adds what is outstanding to the lines by age; `days` are the days since the report."""
        ages = np.searchsorted([most for most, _ in AGES], days)
        for status, code in CODES.items():
            mine = of.status == code
            counts = np.bincount(ages[mine], minlength=len(AGES)).tolist()
            for (_, name), count, amount in zip(AGES, counts, added(ages[mine], len(AGES), of.outstanding[mine])):
                self.put(name, status, count, amount)

    def sum_of(self, line: str, place: int) -> int:
        return self.parts[line, CLAIM][place] + self.parts[line, MATURITY][place]

    def cells(self, line: str) -> list[int]:
        pairs = [self.parts[line, CLAIM], self.parts[line, MATURITY]]
        return [*pairs[0], *pairs[1], pairs[0][0] + pairs[1][0], pairs[0][1] + pairs[1][1]]


def reported_on(period: Period, places: Array) -> Array:
    """Returns the days of the claims or maturities of policies at the closing that have something outstanding."""
    found = np.full(len(period.closing.policies), NEVER)
    reports = np.flatnonzero(np.isin(period.records.kind, (kinds.CLAIM, kinds.MATURE)))
    found[period.place[reports]] = period.records.day[reports]
    missing = places[found[places] == NEVER]
    if len(missing):
        number = period.closing.policies.number[missing[0]]
        raise NotWhole(f"claims: policy {number} has something outstanding without a claim or a maturity")
    return found[places]


def outstanding(moment: Moment) -> Array:
    """Returns the places of the policies that have something outstanding."""
    of = moment.policies
    owed, payable = int(of.outstanding.sum()), -moment.balances["payable"]
    said = f"claims: {money(owed)} is outstanding on {moment.on}, and the account payable has {money(payable)}"
    demand_whole(owed == payable, said)
    return np.flatnonzero(of.outstanding)


def demand_accounts(period: Period, claims: Claims) -> None:
    """Raises NotWhole unless the accounts moved by what was reported and settled."""
    before, after = period.opening.balances, period.closing.balances
    incurred = after["incurred"] - before["incurred"]
    demand_whole(claims.sum_of(REPORTED, 1) == incurred, f"claims: the account incurred moved by {money(incurred)}")
    paid = -(after["cash"] - before["cash"]) - (after["premiums"] - before["premiums"])
    demand_whole(-claims.sum_of(SETTLED, 1) == paid, f"claims: the accounts cash and premiums moved by {money(paid)} paid out")
    for status in CODES:
        for place in (0, 1):
            moved = sum(claims.parts[line, status][place] for line in LINES[:3])
            demand_whole(moved == claims.parts[END, status][place], f"claims: the lines of those {status} don't balance")


def policy_rows(of: Policies, reported: Array, days: Array) -> Iterator[list[str]]:
    rows = zip(of.number.tolist(), of.status.tolist(), texts_at(reported), days.tolist(), of.outstanding.tolist())
    return ([str(number), STATUSES[status - 1], day, str(since), money(cents)] for number, status, day, since, cents in rows)


def claim_sheet(period: Period, claims: Claims) -> Sheet:
    columns = [Column(f"{name}: {what}", COUNT if what == "number" else "cents")
               for name in ("claims", "maturities", "total") for what in ("number", "amount")]
    sheet = Sheet("claims", "Claims and maturities", [Column("line", TEXT), *columns, Column("postings", COUNT)])
    claims.take_outstanding(BEGINNING, period.opening.policies.at(outstanding(period.opening)))
    places = outstanding(period.closing)
    of, reported = period.closing.policies.at(places), reported_on(period, places)
    days = period.closing.day - reported
    claims.take_outstanding(END, of)
    claims.take_ages(of, days)
    demand_accounts(period, claims)
    for place, line in enumerate(LINES):
        count = {REPORTED: claims.sum_of(REPORTED, 0), SETTLED: claims.payments}.get(line)
        sheet.add(line, *claims.cells(line), count, section=place, is_total=line in (BEGINNING, END))
    for place, (_, name) in enumerate(AGES, len(LINES)):
        sheet.add(name, *claims.cells(name), None, section=place)
    sheet.notes = [f"A payment of a part settles no claim or maturity. Ages are counted from the report to {period.closing.on}."]
    sheet.checks = ["What is outstanding is the printed balance of the account payable, at the beginning and at the end.",
                    "What was reported and settled is what the accounts incurred, cash and premiums moved by."]
    if period.asked.are_parts_kept:
        sheet.policy_head = ["policy", "status", "reported", "days", "outstanding"]
        sheet.policy_rows = policy_rows(of, reported, days)
    return sheet
