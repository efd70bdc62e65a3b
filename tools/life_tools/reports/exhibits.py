"""Makes the exhibit of life insurance: number and amount in force at the beginning, what came and went, in force at the end."""
from __future__ import annotations

from life_tools.common.arrays import Array, Cents, np
from life_tools.common.formats import PLANS
from life_tools.valuations.groups import added
from life_tools.reports.periods import Moment, Period, demand_whole
from life_tools.journal.policy_columns import Policies, is_insured
from life_tools.reports.posted_steps import Steps
from life_tools.reports.sheets import COUNT, TEXT, Column, Sheet
from life_tools.rules.tables import EXPIRED, MADE_PAIDUP, PLAN_CODES, is_past_grace

PAID_UP = "paid up"
GROUPS = ("whole", "endowment", "term", "limited", PAID_UP)
TITLES = {"whole": "whole life", **{plan: plan for plan in PLANS.values() if plan != "whole"}, PAID_UP: PAID_UP}
BEGINNING, ISSUED, REVIVED, DECREASED, MADE_PAID_UP, DEATH, MATURITY, EXPIRY, LAPSE, END = LINES = (
    "in force at the beginning", "issued", "revived", "decreased", "made paid up", "death", "maturity", "expiry", "lapse",
    "in force at the end")
LINE_OF = {"issue": ISSUED, "reinstate": REVIVED, "alter": DECREASED, "paidup": MADE_PAID_UP, "claim": DEATH,
           "mature": MATURITY, "lapse": LAPSE}
# for the code of each plan, the place of its group
GROUP_OF = np.array([0] + [GROUPS.index(plan) for plan in PLAN_CODES], np.uint8)
Pair = tuple[int, int]


def groups_of(of: Policies) -> Array:
    """Returns the place of each policy's group."""
    return np.where(of.status == MADE_PAIDUP, GROUPS.index(PAID_UP), GROUP_OF[of.plan])


def in_force(of: Policies) -> dict[str, Pair]:
    """Returns the number and the amount in force of each group."""
    insured = is_insured(of)
    return sums_by_group(groups_of(of)[insured], of.amount[insured])


def sums_by_group(groups: Array, amounts: Cents) -> dict[str, Pair]:
    counts = np.bincount(groups, minlength=len(GROUPS)).tolist()
    return {group: (count, amount) for group, count, amount in zip(GROUPS, counts, added(groups, len(GROUPS), amounts))}


class LifeExhibit:
    """Takes the postings, and adds them to the lines of the exhibit."""

    def __init__(self) -> None:
        self.parts = {(line, group): [0, 0] for line in LINES for group in GROUPS}
        self.postings = dict.fromkeys(LINES, 0)

    def put(self, line: str, group: str, count: int, amount: int) -> None:
        part = self.parts[line, group]
        part[0] += count
        part[1] += amount

    def put_each(self, line: str, groups: Array, sign: int, amounts: Cents) -> None:
        """Adds the policies to their groups if `sign` is 1, takes them out if it is -1, and changes only the amounts if it is
        0."""
        for group, (count, amount) in sums_by_group(groups, amounts).items():
            self.put(line, group, sign * count, amount)

    def take(self, steps: Steps) -> None:
        """Adds each command to its own line; a command counts only once."""
        line = LINE_OF.get(steps.kind)
        if line is None:
            return
        if line == MATURITY:
            expired = steps.after.status == EXPIRED
            self.take_line(EXPIRY, steps.some(expired))
            steps = steps.some(~expired)
        self.take_line(line, steps)

    def take_line(self, line: str, steps: Steps) -> None:
        before, after, groups = steps.before, steps.after, groups_of(steps.before)
        self.postings[line] += len(steps)
        if line in (ISSUED, REVIVED):
            self.put_each(line, groups_of(after), 1, after.amount)
        elif line == DECREASED:
            self.put_each(line, groups, 0, after.amount - before.amount)
        elif line == MADE_PAID_UP:
            self.put_each(line, groups, -1, -after.amount)
            self.put_each(line, groups_of(after), 1, after.amount)
            self.put_each(DECREASED, groups, 0, after.amount - before.amount)
        else:
            self.put_each(line, groups, -1, -before.amount)

    def demand_balanced(self, opening: dict[str, Pair], closing: dict[str, Pair]) -> None:
        """Raises NotWhole unless the opening and what came and went make up what the program printed at the closing."""
        for group in GROUPS:
            for place, what in enumerate(("number", "amount")):
                moved = sum(self.parts[line, group][place] for line in LINES)
                found, wanted = opening[group][place] + moved, closing[group][place]
                demand_whole(found == wanted, f"exhibit: the {what} in force, {TITLES[group]}, comes to {found}, not to {wanted}")

    def cells(self, line: str) -> list[int]:
        pairs = [self.parts[line, group] for group in GROUPS]
        return [cell for pair in (*pairs, [sum(pair[0] for pair in pairs), sum(pair[1] for pair in pairs)]) for cell in pair]


def remarks(moment: Moment) -> list[str]:
    """Returns remarks on policies that are in force only by their status; each is counted under the first remark that applies."""
    of, insured = moment.policies, is_insured(moment.policies)
    later, ended = of.issued > moment.day, of.end <= moment.day
    past = is_past_grace(of, moment.day)
    counted = {"issued after that day": later, "whose cover has ended, with no maturity posted": ended & ~later,
               "past the grace of an unpaid premium, with no lapse posted": past & ~ended & ~later}
    found = {says: int(np.count_nonzero(insured & each)) for says, each in counted.items()}
    return [f"In force on {moment.on} by their status, but {says}: {count}" for says, count in found.items() if count]


def exhibit_sheet(period: Period, exhibit: LifeExhibit) -> Sheet:
    columns = [Column("line", TEXT)]
    for title in (*(TITLES[group] for group in GROUPS), "total"):
        columns += [Column(f"{title}: number", COUNT), Column(f"{title}: amount")]
    sheet = Sheet("exhibit", "Exhibit of life insurance", [*columns, Column("postings", COUNT)])
    opening, closing = in_force(period.opening.policies), in_force(period.closing.policies)
    exhibit.demand_balanced(opening, closing)
    for line, found in ((BEGINNING, opening), (END, closing)):
        for group in GROUPS:
            exhibit.put(line, group, *found[group])
    for line in LINES:
        is_total = line in (BEGINNING, END)
        sheet.add(line, *exhibit.cells(line), None if is_total else exhibit.postings[line], is_total=is_total,
                  section=LINES.index(line))
    sheet.notes = ["What is made paid up leaves its plan at its new amount; the difference stands under decreased.",
                   *remarks(period.opening), *remarks(period.closing)]
    sheet.checks = ["Each column balances.",
                    "The policies of the first position, carried on by each posting, are those printed at the second one."]
    return sheet
