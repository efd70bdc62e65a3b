"""Makes the sheet of the increase in reserves, from the opening to the closing.

Its lines are net premiums, interest, cost of insurance, releases and changes. Each policy is followed year by year and posting by
posting, by the formulas that `why` shows. A posting dated after the closing day counts on the closing day; a posting dated before
the opening day, if its policy is in the opening book, counts on the opening day. Amounts insured are added up by case and year
before they are multiplied by what 1 is worth there; this is exact.
"""
from __future__ import annotations

from typing import Iterator, NamedTuple, Sequence

from life_tools.common.arrays import Array, Cents, np
from life_tools.journal.day_columns import completed_years
from life_tools.common.formats import money
from life_tools.reports.periods import Moment, NotWhole, Period, demand_whole
from life_tools.journal.policy_columns import Policies, is_insured
from life_tools.reports.posted_steps import REPEATED, Steps, blocks_of
from life_tools.valuations.printed_columns import NO_WORDS
from life_tools.reports.reserve_cases import Cases
from life_tools.reports.reserve_units import ONE, Units, cents
from life_tools.reports.sheets import BY_BOUNDS, COUNT, TEXT, Column, Sheet
from life_tools.rules.tables import MADE_PAIDUP

OPENING, ROUNDING, CLOSING = "reserve at the beginning", "rounding", "reserve at the end"
NET, INTEREST, COST, HELD = GROWN = "net premiums", "interest", "cost of insurance", "kept from falling below 0"
DEATH, LAPSE, MATURITY = "released by death", "released by lapse", "released by maturity and expiry"
REVIVED, DECREASED, PAID_UP = "revived", "decreased", "made paid up"
JUMPS = (DEATH, LAPSE, MATURITY, REVIVED, DECREASED, PAID_UP)
WORKED = (*GROWN, *JUMPS)
LINES = (OPENING, *WORKED, ROUNDING, CLOSING)
RELEASED = {"claim": DEATH, "lapse": LAPSE, "mature": MATURITY}
CHANGED = {"alter": DECREASED, "paidup": PAID_UP}
# what years add to a policy is weighed once for four lines
GROWTH = "growth"
# an exact value may be outside its printed row by this many units of the last of thirty decimals of 1
SLACK = 1000


def grown_by(units: Units) -> tuple[tuple[list[int], int], ...]:
    """Returns what years have added to 1 for each of the four lines, and whether the line counts up or down."""
    return (units.premiums, 1), (units.interest, 1), (units.cost, -1), (units.held, 1)


class Rows:
    """The policies at a moment, by their case; their exact reserves must be in their printed rows."""

    def __init__(self, moment: Moment, place: Array, case: Array, year: Array, amount: Cents) -> None:
        order = np.argsort(case, kind="stable")
        self.moment, self.place, self.case, self.year, self.amount = moment, place[order], case[order], year[order], amount[order]
        self.wrong: dict[int, int] = {}
        self.exact = 0

    def price(self, case: int, units: Units) -> None:
        """Adds up the exact reserves of a case, and compares each with its printed row."""
        rows = self.moment.valuation.rows
        for some in blocks_of(np.arange(*np.searchsorted(self.case, (case, case + 1)))):
            place = self.place[some]
            columns = (place, self.amount[some], self.year[some], rows.year[place], rows.bounds[place, 0], rows.bounds[place, 1])
            for at, amount, year, printed, lower, upper in zip(*(column.tolist() for column in columns)):
                reserve, slack = amount * units.reserve[year], amount * SLACK
                self.exact += reserve
                if year != printed or not lower * ONE - slack <= reserve <= upper * ONE + slack:
                    self.wrong[at] = reserve

    def demand_held(self) -> None:
        if self.wrong:
            at = min(self.wrong)
            raise NotWhole(f"increase: the printed row of policy {self.moment.policies.number[at]} doesn't hold "
                           f"{money(cents(self.wrong[at]))}")


class Event(NamedTuple):
    """One step of some policies: the line, their places, the index of case and year, the index before or -1, and the amounts."""

    line: str
    place: Array
    reached: Array
    since: Array
    amount: Cents


class Parts:
    """The sums of each policy that has any, in the order of the lines."""

    def __init__(self, events: list[Event], policies: int) -> None:
        self.sums: Array = np.zeros((policies, len(WORKED)), object)
        self.has_any = np.zeros(policies, bool)
        lines = [np.full(len(event.place), WORKED.index(event.line) if event.line != GROWTH else -1) for event in events]
        columns = [np.concatenate(parts) for parts in (lines, *zip(*(event[1:] for event in events)))]
        order = np.argsort(columns[2], kind="stable")
        self.columns = [column[order] for column in columns]

    def price(self, first: int, units: Units) -> None:
        """Adds the events of the case whose years begin at index `first`."""
        for some in blocks_of(np.arange(*np.searchsorted(self.columns[2], (first, first + len(units.reserve))))):
            for line, place, reached, since, amount in zip(*(column[some].tolist() for column in self.columns)):
                if line >= 0:
                    self.put(place, line, amount * units.reserve[reached - first])
                else:
                    self.grow(place, reached - first, since - first if since >= 0 else None, amount, units)

    def grow(self, place: int, year: int, since: int | None, amount: int, units: Units) -> None:
        for line, (sums, sign) in enumerate(grown_by(units)):
            step = sums[year] - (sums[since] if since is not None else 0)
            if step:
                self.put(place, line, sign * amount * step)

    def put(self, place: int, line: int, scaled: int) -> None:
        self.sums[place, line] += scaled
        self.has_any[place] = True


class Increase:
    """Takes the opening book, the postings and the closing book; afterwards `price` is called for each case."""

    def __init__(self, period: Period, cases: Cases) -> None:
        self.period, self.terms = period, cases
        self.on2 = period.closing.day
        of, count = period.closing.policies, len(period.closing.policies)
        self.issued = of.issued
        # for each policy that is being followed, its case, year and amount insured; the case of the others is -1
        self.case, self.year, self.amount = np.full(count, -1, np.int32), np.zeros(count, np.int16), np.zeros(count, np.int64)
        # the index at which the years of each case begin
        self.firsts = np.append(0, np.cumsum(np.repeat(cases.years.astype(np.int64) + 1, 2)))
        self.weights = {line: np.zeros(int(self.firsts[-1]), np.int64) for line in (GROWTH, *JUMPS)}
        self.is_wanted = np.zeros(cases.count, bool)
        self.sums, self.counts = dict.fromkeys(WORKED, 0), dict.fromkeys(LINES, 0)
        none = np.empty(0, np.int64)
        self.events = [Event(GROWTH, none, none, none, none)]
        self.parts: Parts | None = None
        self.opening = self.open()
        self.closing: Rows | None = None

    # --- policies' ways ---

    def add(self, line: str, place: Array, sign: int, since: Array | None = None) -> None:
        """Adds the amounts insured of the policies to the weights at their case and year, times the sign.

        If `since` is given, the same amounts are taken away at that earlier year.
        """
        case, amount = self.case[place], sign * self.amount[place]
        first = self.firsts[case]
        np.add.at(self.weights[line], first + self.year[place], amount)
        self.is_wanted[case] = True
        if since is not None:
            np.add.at(self.weights[line], first + since, -amount)
        if self.period.asked.are_parts_kept:
            before = np.full(len(place), -1) if since is None else first + since
            self.events.append(Event(line, place, first + self.year[place], before, amount))

    def years_on(self, place: Array, day: Array) -> Array:
        """Returns the policy years on these days, at most the years of the cover."""
        return np.minimum(completed_years(self.issued[place], day), self.terms.years[self.case[place] // 2])

    def go_on(self, place: Array, day: Array) -> Array:
        """Carries the policies that are being followed up to their days, at most to the closing day, and returns their places."""
        is_there = self.case[place] >= 0
        place, since = place[is_there], self.year[place[is_there]]
        year = np.maximum(since, self.years_on(place, np.minimum(day[is_there], self.on2)))
        self.year[place] = year
        grown = year != since
        self.add(GROWTH, place[grown], 1, since[grown])
        return place

    def begin(self, place: Array, of: Policies) -> Array:
        """Begins to follow policies at year 0, and returns the places of those that have a value."""
        case = 2 * self.terms.of[place] + (of.status == MADE_PAIDUP)
        is_valued = self.terms.years[case // 2] >= 0
        place = place[is_valued]
        self.case[place], self.year[place], self.amount[place] = case[is_valued], 0, of.amount[is_valued]
        self.is_wanted[case[is_valued]] = True
        return place

    def begin_new(self, place: Array, of: Policies) -> None:
        """Begins to follow policies that are issued.

        A policy that is paid up already, although its issue is dated later, counts as paid up from the beginning.
        """
        is_there = of.issued <= self.on2
        place = self.begin(place[is_there], of.at(is_there))
        is_paid_up = self.case[place] % 2 == 1
        self.add(PAID_UP, place[is_paid_up], 1)
        self.add(GROWTH, place[~is_paid_up], 1)

    # --- the opening book ---

    def open(self) -> Rows:
        moment = self.period.opening
        insured, is_later = is_insured(moment.policies), moment.policies.issued > moment.day
        place = np.flatnonzero(insured & ~is_later)
        begun = self.begin(place, moment.policies.at(place))
        self.year[begun] = self.years_on(begun, np.full(len(begun), moment.day))
        self.counts[OPENING] = len(begun)
        rows = self.rows_of(moment, place)
        place = np.flatnonzero(insured & is_later)
        self.begin_new(place, moment.policies.at(place))
        return rows

    def rows_of(self, moment: Moment, place: Array) -> Rows:
        """Returns the rows of the policies that have a value, and raises NotWhole unless these are the ones printed with
        bounds."""
        is_valued, word = self.case[place] >= 0, moment.valuation.rows.word[place]
        other = np.flatnonzero(is_valued == (word > 0))
        if len(other):
            said = NO_WORDS[word[other[0]]] or "bounds"
            raise NotWhole(f"increase: policy {moment.policies.number[place[other[0]]]} is printed with {said}")
        place = place[is_valued]
        return Rows(moment, place, self.case[place], self.year[place], self.amount[place])

    # --- postings ---

    def take(self, steps: Steps) -> None:
        if steps.kind in REPEATED:
            return
        steps = steps.some(steps.after.issued <= self.on2)
        if steps.kind == "issue":
            self.begin_new(steps.place, steps.after)
        elif steps.kind in RELEASED:
            self.release(RELEASED[steps.kind], steps)
        elif steps.kind == "reinstate":
            self.revive(steps)
        elif steps.kind in CHANGED:
            self.change(CHANGED[steps.kind], steps)

    def count(self, line: str, place: Array, sign: int) -> None:
        self.counts[line] += len(place)
        self.add(line, place, sign)

    def release(self, line: str, steps: Steps) -> None:
        place = self.go_on(steps.place, steps.day)
        self.count(line, place, -1)
        self.case[place] = -1

    def revive(self, steps: Steps) -> None:
        place = self.begin(steps.place, steps.after)
        days = np.zeros(len(self.case), np.int32)
        days[steps.place] = np.minimum(steps.day, self.on2)
        opened = len(self.period.opening.policies)
        begun = np.where(place < opened, self.period.opening.day, self.issued[place])
        self.year[place] = self.years_on(place, np.maximum(np.maximum(days[place], begun), self.issued[place]))
        self.count(REVIVED, place, 1)

    def change(self, line: str, steps: Steps) -> None:
        """Takes away the reserve before the change, and adds the reserve after it."""
        is_there = self.case[steps.place] >= 0
        place = self.go_on(steps.place, steps.day)
        self.add(line, place, -1)
        self.amount[place] = steps.after.amount[is_there]
        if line == PAID_UP:
            self.case[place] |= 1
        self.count(line, place, 1)

    # --- the closing book ---

    def close(self) -> None:
        """Carries all policies on to the closing day."""
        moment = self.period.closing
        place = np.flatnonzero(is_insured(moment.policies) & (moment.policies.issued <= self.on2))
        self.go_on(place, np.full(len(place), self.on2))
        self.closing = self.rows_of(moment, place)
        place = self.closing.place
        other = np.sort(place[self.amount[place] != moment.policies.amount[place]])
        if len(other):
            raise NotWhole(f"increase: policy {moment.policies.number[other[0]]} has another amount")
        self.counts[CLOSING] = len(place)
        if self.period.asked.are_parts_kept:
            self.parts = Parts(self.events, len(self.case))

    @property
    def cases(self) -> Array:
        """Returns the cases whose units are needed."""
        return np.flatnonzero(self.is_wanted)

    def price(self, case: int, units: Units) -> None:
        """Adds what a case contributes to the lines."""
        assert self.closing
        self.opening.price(case, units)
        self.closing.price(case, units)
        first, last = self.firsts[case:case + 2].tolist()
        for line, weights in self.weights.items():
            years = np.flatnonzero(weights[first:last])
            weighed = list(zip(weights[first:last][years].tolist(), years.tolist()))
            if line == GROWTH:
                for name, (sums, sign) in zip(GROWN, grown_by(units)):
                    self.sums[name] += sign * sum(weight * sums[year] for weight, year in weighed)
            else:
                self.sums[line] += sum(weight * units.reserve[year] for weight, year in weighed)
        if self.parts:
            self.parts.price(first, units)

    def demand_led(self) -> None:
        """Raises NotWhole unless the exact reserves are in the printed rows, and the lines lead from the opening to the
        closing."""
        assert self.closing
        self.opening.demand_held()
        self.closing.demand_held()
        moved = sum(self.sums.values())
        demand_whole(self.opening.exact + moved == self.closing.exact, "increase: the lines don't lead from the opening to the "
                                                                       "closing")


class Led(NamedTuple):
    """What leads from the opening of one or more books to the closing.

    It has the printed totals, the exact sums and the counts of the lines, and the widths of the rows' bounds at both ends.
    """

    measure: str
    opening: tuple[int, ...]
    closing: tuple[int, ...]
    sums: dict[str, int]
    counts: dict[str, int]
    widths: tuple[int, int]


def width_of(moment: Moment) -> int:
    bounds = moment.valuation.rows.bounds
    return int((bounds[:, 1] - bounds[:, 0]).sum())


def led_by(period: Period, increase: Increase) -> Led:
    increase.demand_led()
    opening, closing = period.opening, period.closing
    return Led(period.asked.measure, opening.valuation.total[:2], closing.valuation.total[:2], increase.sums,
               increase.counts, (width_of(opening), width_of(closing)))


def led_together(books: Sequence[Led]) -> Led:
    """Returns what leads all books together from their openings to their closings."""
    def sums(pairs: Sequence[tuple[int, ...]]) -> tuple[int, ...]:
        return tuple(map(sum, zip(*pairs)))

    most = sums([it.widths for it in books])
    return Led(books[0].measure, sums([it.opening for it in books]), sums([it.closing for it in books]),
               {line: sum(it.sums[line] for it in books) for line in WORKED},
               {line: sum(it.counts[line] for it in books) for line in LINES}, (most[0], most[1]))


def lines_sheet(led: Led) -> Sheet:
    """Returns the sheet of the lines from the opening to the closing; each exact sum is rounded once."""
    columns = [Column("line", TEXT), Column("policies", COUNT), *BY_BOUNDS]
    sheet = Sheet("increase", f"Increase in reserves, {led.measure}", columns, exact=led)
    lines = {line: cents(scaled) for line, scaled in led.sums.items()}
    rounding = [led.closing[bound] - led.opening[bound] - sum(lines.values()) for bound in (0, 1)]
    most = led.widths
    demand_whole(-most[1] - len(lines) <= rounding[0] <= most[0] + len(lines)
                 and -most[0] - len(lines) <= rounding[1] <= most[1] + len(lines),
                 f"increase: {rounding} cents are left, and the rows are {most} cents wide")
    sheet.add(OPENING, led.counts[OPENING], *led.opening, is_total=True)
    for line, amount in lines.items():
        sheet.add(line, led.counts[line] if line in JUMPS else None, amount, amount, section=1)
    sheet.add(ROUNDING, None, *rounding, section=2)
    sheet.add(CLOSING, led.counts[CLOSING], *led.closing, section=3, is_total=True)
    sheet.notes = ["By lower and by upper bounds: each column begins and ends with the sum of the printed rows' bounds; the "
                   "lines between are worked out once for both.",
                   f"Rounding: what the printed bounds of the rows leave open, which are {money(most[0])} wide at the beginning "
                   f"and {money(most[1])} at the end, and less than a cent of each line."]
    sheet.checks = ["Each policy's exact opening and closing reserve lies in its printed row.",
                    "The lines lead from the printed opening total to the printed closing one."]
    return sheet


def increase_sheet(period: Period, increase: Increase) -> Sheet:
    sheet = lines_sheet(led_by(period, increase))
    if increase.parts:
        sheet.policy_head = ["policy", "opening lower", "opening upper", *WORKED, "closing lower", "closing upper"]
        sheet.policy_rows = policy_rows(period, increase.parts)
    return sheet


def increases_added(sheets: Sequence[Sheet]) -> Sheet:
    """Returns one sheet for the increase sheets of several books."""
    return lines_sheet(led_together([sheet.exact for sheet in sheets]))


def policy_rows(period: Period, parts: Parts) -> Iterator[list[str]]:
    """Yields each policy's part: its printed bounds, and between them the computed lines."""
    numbers, closing = period.closing.policies.number, period.closing.valuation.rows.bounds
    opening = np.zeros((len(numbers), 2), np.int64)
    opening[:len(period.opening.policies)] = period.opening.valuation.rows.bounds[:, :2]
    is_told = parts.has_any | opening.any(axis=1) | closing.any(axis=1)
    for some in blocks_of(np.flatnonzero(is_told)):
        columns = zip(numbers[some].tolist(), opening[some].tolist(), parts.sums[some].tolist(), closing[some, :2].tolist())
        for number, before, worked, after in columns:
            yield [str(number), *map(money, before), *(money(cents(each)) for each in worked), *map(money, after)]
