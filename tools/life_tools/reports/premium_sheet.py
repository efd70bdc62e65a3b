"""Makes the sheet of premiums: collected, uncollected, past their grace, and paid in advance; gross and net amounts."""
from __future__ import annotations

from dataclasses import dataclass
from typing import Iterator

from life_tools.common.arrays import Array, Cents, np
from life_tools.journal.day_columns import anniversaries, completed_years, texts_at
from life_tools.common.formats import money
from life_tools.valuations.groups import added
from life_tools.journal.records import ALTER, ISSUE, PREMIUM, REINSTATE
from life_tools.reports.periods import Moment, NotWhole, Period, demand_whole
from life_tools.journal.policy_columns import Policies, missed_by
from life_tools.reports.posted_steps import Steps, blocks_of
from life_tools.journal.replays import stable_order
from life_tools.reports.reserve_cases import Cases
from life_tools.reports.reserve_units import Units, cents, summed
from life_tools.rules.tables import GRACE_DAYS, INFORCE
from life_tools.reports.sheets import COUNT, TEXT, Column, Sheet

GRACE_LINE, PAST, ADVANCE = LINES = "uncollected in grace", "past grace and not lapsed", "paid in advance"
DEFERRED = "deferred: none, since all premiums are annual and due at the anniversary"
FIRST_YEAR, RENEWAL, BY_REVIVAL = "first-year premiums collected", "renewal premiums collected", "collected by reinstatement"
COLUMNS = [Column("line", TEXT), Column("policies", COUNT), Column("premiums", COUNT), Column("gross"), Column("net"),
           Column("reserve: lower"), Column("reserve: upper")]
AT_BEGINNING, AT_END = "at the beginning", "at the end"
POLICY_HEAD = ["when", "line", "policy", "first due", "premiums", "gross", "net", "reserve lower", "reserve upper"]


class Collected:
    """Takes the postings, and adds up what came in by first premiums, by renewal premiums, and by reinstatements."""

    def __init__(self) -> None:
        self.sums = {line: [0, 0, 0] for line in (FIRST_YEAR, RENEWAL, BY_REVIVAL)}

    def take(self, steps: Steps) -> None:
        if steps.kind == "reinstate":
            self.add(BY_REVIVAL, steps, np.ones(len(steps), bool))
        elif steps.kind == "premium":
            is_first = steps.before.paid == 0
            self.add(FIRST_YEAR, steps, is_first)
            self.add(RENEWAL, steps, ~is_first)

    def add(self, line: str, steps: Steps, chosen: Array) -> None:
        premiums = steps.after.paid[chosen].astype(np.int64) - steps.before.paid[chosen]
        for place, each in enumerate((len(premiums), int(premiums.sum()), int(steps.amount[chosen].sum()))):
            self.sums[line][place] += each

    @property
    def gross(self) -> int:
        return sum(sums[2] for sums in self.sums.values())


# --- what is due and unpaid, or paid before it is due ---

@dataclass
class Parts:
    """The policies' parts of the lines at a moment.

    Each has the place of its line, the policy's place, number and amount, the day on which its first premium was due, from which
    year on how many premiums, the gross and (if known) the net amount, and the bounds of the reserve.
    """

    line: Array
    place: Array
    number: Array
    amount: Cents
    due: Array
    year: Array
    premiums: Array
    gross: Cents
    net: Cents
    has_net: Array
    reserve: Cents


def paid_ahead(moment: Moment, of: Policies) -> Array:
    """Returns how many of the paid premiums are due after the day."""
    due = np.maximum(completed_years(of.issued, moment.day) + 1, 0)
    found: Array = np.maximum(of.paid - due, 0)
    return found


def parts_of(period: Period, moment: Moment) -> Parts:
    """Returns for each policy in force what is due and unpaid, and what was paid before it is due."""
    of = moment.policies
    due, ahead = of.due, paid_ahead(moment, of)
    is_due = due <= moment.day
    place = np.flatnonzero((of.status == INFORCE) & (is_due | (ahead > 0)))
    of, due, ahead, is_due = of.at(place), due[place], ahead[place], is_due[place]
    line = np.where(is_due, np.where(moment.day <= due + GRACE_DAYS * is_due, LINES.index(GRACE_LINE), LINES.index(PAST)),
                    LINES.index(ADVANCE))
    year = np.where(is_due, of.paid, of.paid - ahead)
    premiums = np.where(is_due, missed_by(of, np.full(len(of), moment.day)), ahead)
    gross = premiums * of.premium
    gross[~is_due] = posted_ahead(period, moment, place[~is_due], of.at(~is_due), year[~is_due])
    return Parts(line, place, of.number, of.amount, np.where(is_due, due, anniversaries(of.issued, year)), year, premiums, gross,
                 np.zeros(len(place), np.int64), np.zeros(len(place), bool), moment.valuation.rows.bounds[place, :2])


def posted_ahead(period: Period, moment: Moment, places: Array, of: Policies, year: Array) -> Cents:
    """Returns what the premiums of these policies amounted to from a year on.

    A reinstatement pays all missed premiums at the premium that was valid then.
    """
    # the last place is that of an upgrade
    mine = np.full(len(moment.policies) + 1, -1)
    mine[places] = np.arange(len(places))
    policy = mine[period.place[:moment.position]]
    at = np.flatnonzero(policy >= 0)
    at = at[stable_order(policy[at])]
    policy, kind = policy[at], period.records.kind[at]
    # the postings of each policy begin with its issue
    sets = np.isin(kind, (ISSUE, ALTER))
    premium = period.records.premium[at][np.maximum.accumulate(np.where(sets, np.arange(len(at)), 0))]
    paid = np.where(np.isin(kind, (PREMIUM, REINSTATE)), period.records.amount[at] // premium, 0)
    ends = np.cumsum(paid)
    begun = np.append(0, ends)[np.searchsorted(policy, np.arange(len(places)))]
    ends -= begun[policy]
    posted = np.bincount(policy, paid, len(places)).astype(np.int64)
    wrong = np.flatnonzero(posted != of.paid)
    if len(wrong):
        number = of.number[wrong[0]]
        raise NotWhole(f"premiums: policy {number} has paid {of.paid[wrong[0]]}, and {posted[wrong[0]]} are posted")
    counted = np.maximum(ends - np.maximum(ends - paid, year[policy]), 0)
    return np.array(added(policy, len(places), counted * premium), np.int64)


class Uncollected:
    """The parts at both moments; their net premiums are computed with the units of the increase in reserves."""

    def __init__(self, period: Period, cases: Cases) -> None:
        self.parts = {when: parts_of(period, moment) for when, moment in ((AT_BEGINNING, period.opening),
                                                                          (AT_END, period.closing))}
        # the parts whose policies have a value, by their case
        self.by_case: list[tuple[Parts, Array, Array]] = []
        for parts in self.parts.values():
            case = np.where(cases.years[cases.of[parts.place]] >= 0, 2 * cases.of[parts.place], -1)
            order = np.argsort(case, kind="stable")[np.count_nonzero(case < 0):]
            self.by_case.append((parts, order, case[order]))

    @property
    def cases(self) -> Array:
        found: Array = np.unique(np.concatenate([case for _, _, case in self.by_case]))
        return found

    def price(self, case: int, units: Units) -> None:
        """Computes the net premiums of a case, to the nearest cent for each policy."""
        net, most = summed(units.net), len(units.net)
        for parts, order, cases in self.by_case:
            for some in blocks_of(order[slice(*np.searchsorted(cases, (case, case + 1)))]):
                first, last = parts.year[some], np.minimum(parts.year[some] + parts.premiums[some], most)
                rows = zip(parts.amount[some].tolist(), np.minimum(first, most).tolist(), last.tolist())
                parts.net[some] = [cents(amount * (net[last] - net[first])) for amount, first, last in rows]
                parts.has_net[some] = True


@dataclass
class Sums:
    """The sums for some policies: their number, their premiums, gross and net, their reserves, and how many have no net
    premium."""

    policies: int = 0
    premiums: int = 0
    gross: int = 0
    net: int = 0
    lower: int = 0
    upper: int = 0
    without: int = 0


def sums_of(parts: Parts, line: str) -> Sums:
    mine = parts.line == LINES.index(line)
    lower, upper = parts.reserve[mine].sum(axis=0, dtype=np.int64).tolist()
    return Sums(int(np.count_nonzero(mine)), int(parts.premiums[mine].sum()), int(parts.gross[mine].sum()),
                int(parts.net[mine].sum()), lower, upper, int(np.count_nonzero(mine & ~parts.has_net)))


def policy_rows(when: str, parts: Parts) -> Iterator[list[str]]:
    for some in blocks_of(np.arange(len(parts.place))):
        columns = (parts.line, parts.number, parts.premiums, parts.gross, parts.net, parts.has_net, *parts.reserve.T)
        rows = zip(texts_at(parts.due[some]), *(column[some].tolist() for column in columns))
        for due, line, number, premiums, gross, net, has_net, *reserve in rows:
            yield [when, LINES[line], str(number), due, str(premiums), money(gross), money(net) if has_net else "",
                   *map(money, reserve)]


def demand_account(period: Period, collected: Collected) -> None:
    before, after = period.opening.balances, period.closing.balances
    moved = before["premiums"] - after["premiums"]
    said = f"premiums: {money(collected.gross)} were collected, and the account moved by {money(moved)}"
    demand_whole(collected.gross == moved, said)


def income_of(collected: Collected, sums: dict[tuple[str, str], Sums]) -> int:
    """Returns the premium income.

    It is what was collected, plus the increase of what is uncollected in grace, less the increase of what is paid in advance.
    """
    return (collected.gross + sums[GRACE_LINE, AT_END].gross - sums[GRACE_LINE, AT_BEGINNING].gross
            - sums[ADVANCE, AT_END].gross + sums[ADVANCE, AT_BEGINNING].gross)


def premium_sheet(period: Period, collected: Collected, uncollected: Uncollected) -> Sheet:
    sheet = Sheet("premiums", "Premiums", list(COLUMNS))
    sums = {(line, when): sums_of(uncollected.parts[when], line) for line in LINES for when in (AT_BEGINNING, AT_END)}
    demand_account(period, collected)
    for line, (postings, premiums, gross) in collected.sums.items():
        sheet.add(line, postings, premiums, gross, None, None, None)
    for (line, when), each in sums.items():
        reserve = (each.lower, each.upper) if line == PAST else (None, None)
        sheet.add(f"{line} {when}", each.policies, each.premiums, each.gross, each.net, *reserve, section=1)
    sheet.add(DEFERRED, 0, 0, 0, 0, None, None, section=2)
    sheet.add("premium income", None, None, income_of(collected, sums), None, None, None, section=3, is_total=True)
    without = sum(each.without for each in sums.values())
    sheet.notes = ["Policies in force. Of a collected line the policies are postings. Premium income is what was collected, with "
                   "what is uncollected in grace, less what is paid in advance, each at the end less at the beginning.",
                   *([f"Policies that are not valued, and so have no net premium, in these lines: {without}"] if without else [])]
    sheet.checks = ["What was collected is what the account premiums moved by.",
                    "Each premium paid in advance is posted in the journal at the amount shown."]
    if period.asked.are_parts_kept:
        sheet.policy_head = POLICY_HEAD
        sheet.policy_rows = (row for when, parts in uncollected.parts.items() for row in policy_rows(when, parts))
    return sheet
