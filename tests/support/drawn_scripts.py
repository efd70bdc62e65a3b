"""Draws random scripts of eight lanes and the basis of their valuations, and runs scripts in an independent model of the office.

The lanes share policies, and most commands are near what the rules allow, so that commands of each kind are accepted, and are
refused for each reason. The model takes the turns of the lanes in random order. It uses no code of the program.
"""
from __future__ import annotations

import datetime
import math
import random
from typing import Any

from life_tools.rules.commands import UPGRADE, Command, words_of
from life_tools.common.formats import FIRST_DAY, LAST_DAY, money
from life_tools.reserves.exact import Known, worth
from life_tools.rules import policies
from life_tools.scripts.lines import Line, lanes_of, lines_in
from life_tools.tables.basis import BasisRow
from tests.rules.policies import EARLY, GRACE, Book, Policy, Refusal

BASIS = "2000-01-01,q.xml,0\n2010-01-01,m.xml,300\n2015-01-01,g.xml,400\n2018-01-01,select.xml,250\n"
# a table of the ages 20 to 25, by which a death is likelier than survival at age 22
MIDDLE = ('<XTbML><Table><Values><Axis><Y t="20">0.01</Y><Y t="21">0.02</Y><Y t="22">0.6</Y><Y t="23">0.1</Y>'
          '<Y t="24">0.25</Y><Y t="25">1</Y></Axis></Values></Table></XTbML>\n')
DAY = datetime.timedelta(1)
# few ages and years for each table, so that few exact values have to be computed
YOUNG = [(datetime.date(1999, 6, 1), (0, 1), (2,)), (datetime.date(2004, 2, 29), (0, 1, 2, 3, 4), (2, 3, 4, 5)),
         (datetime.date(2012, 2, 29), (19, 20, 21, 22, 24), (2, 3, 4)), (datetime.date(2016, 2, 29), (85, 100, 110), (2, 5, 9)),
         (datetime.date(2018, 2, 28), (0, 1, 2, 3), (2, 3, 4))]


def make_issue(draw: random.Random, number: int) -> Command:
    first, ages, years = draw.choice(YOUNG)
    plan, age = draw.choice(["term", "whole", "endowment", "limited"]), draw.choice(ages)
    return Command("issue", number, day=first + draw.randrange(400) * DAY, plan=plan, age=age,
                   years=0 if plan == "whole" else draw.choice(years), amount=draw.randrange(1, 5 * 10**6),
                   premium=draw.randrange(1, 10**5))


def days_near(draw: random.Random, policy: Policy) -> datetime.date:
    """Returns a day near one of those days by which the policy's commands are judged."""
    due = policy.due_day(policy.paid)
    near = [due, due - EARLY, due + GRACE, policy.reinstatement_end, policy.end, policy.last,
            policy.last + draw.randrange(60) * DAY]
    day = draw.choice(near) + draw.choice([-1, 0, 0, 1]) * DAY
    return min(max(day, FIRST_DAY), LAST_DAY)


def make_command(draw: random.Random, book: Book, number: int) -> Command:
    """Returns a command on the policy that would be accepted, or that is nearly acceptable and refused."""
    policy = book.policies.get(number)
    if policy is None and draw.random() < 0.9:
        return make_issue(draw, number)
    policy = policy or book_policy(draw)
    if policy.status == "inforce" and draw.random() < 0.4:
        return next_premium(draw, policy, number)
    kinds = {"inforce": ["premium"] * 6 + ["alter", "lapse", "lapse", "claim", "mature", "reinstate", "settle", "issue",
                                           "paidup", "paidup"],
             "lapsed": ["reinstate"] * 5 + ["premium", "lapse", "claim"],
             "claimed": ["settle"] * 4 + ["premium", "mature"], "matured": ["settle"] * 4 + ["claim", "alter"],
             "paidup": ["claim", "mature", "mature", "premium", "alter", "lapse", "paidup"]}
    kind = draw.choice(kinds.get(policy.status, ["premium", "alter", "settle", "mature"]))
    if kind == "issue":
        return make_issue(draw, number)
    day, off = days_near(draw, policy), draw.choice([0, 0, 0, 0, 1])
    amount = premium = 0
    if kind == "premium":
        amount = policy.premium + off
    elif kind in ("alter", "paidup"):
        amount = max(policy.amount * 2 // 3, 1) if draw.random() < 0.8 else policy.amount
        premium = draw.randrange(1, 10**5) if kind == "alter" else 0
    elif kind == "reinstate":
        amount = max(policy.missed(day) * policy.premium + off, 1)
    elif kind == "settle":
        amount = max(draw.choice([policy.outstanding, policy.outstanding // 2]) + off, 1)
    return Command(kind, number, day, amount=amount, premium=premium)


def next_premium(draw: random.Random, policy: Policy, number: int) -> Command:
    """Returns the next premium, on a day that the rules accept if there is one."""
    due = policy.due_day(policy.paid)
    day = max(due - draw.randrange(60) * DAY, policy.last)
    return Command("premium", number, min(day, LAST_DAY), amount=policy.premium)


def book_policy(draw: random.Random) -> Policy:
    """Returns a policy that is in no book."""
    return Book([make_issue(draw, 1)]).policies[1]


def make_book(draw: random.Random, count: int) -> Book:
    """Returns a book with this number of policies, which no command has changed since their issue."""
    return Book(make_issue(draw, number) for number in range(1, count + 1))


def row_of(lane: int, command: Command) -> str:
    return ",".join([str(lane), *words_of(command)])


def valued_on(draw: random.Random) -> datetime.date:
    """Returns a day on which policies of each table have begun and not all have ended."""
    return datetime.date(draw.choice([2003, 2006, 2007, 2013, 2014, 2017, 2019]), draw.randrange(1, 13), 28)


def value_words(draw: random.Random, on: object, measure: str) -> list[str]:
    """Returns the arguments of a valuation by a measure, with the number of workers, in a drawn order."""
    words = [[str(on)], ["--workers", draw.choice(["1", "2", "64"])], [] if measure == "terminal" else ["--" + measure]]
    draw.shuffle(words)
    return ["value", *(word for part in words for word in part)]


def make_script(draw: random.Random, book: Book, sizes: range = range(50, 301)) -> str:
    """Returns a script for the book. Afterwards the book is the one that the rows leave if they are decided in their order."""
    rows, asked, size = [], 0, draw.choice(sizes)
    numbers = list(book.policies)[-20:] + [draw.randrange(1, 2**32) for _ in range(size // 12 + 1)]
    for _ in range(size):
        lane, what = draw.randrange(1, 9), draw.random()
        if what < 0.04 and asked < 16:
            asked += 1
            near = max(len(book.commands) + draw.randrange(-20, 8), 0)
            at = draw.choice(["now", "now", near, draw.randrange(near + 1)])
            on = valued_on(draw)
            rows.append(f"{lane},value,{on},{at},{draw.choice([1, 2, 8, 64])}")
        elif what < 0.08:
            rows.append(f"{lane},trim")
        elif what < 0.09:
            after = book.decide(UPGRADE)
            if not isinstance(after, Refusal):
                book.take(UPGRADE, after)
            rows.append(row_of(lane, UPGRADE))
        else:
            number = draw.choice(numbers)
            # most commands on a policy are of one lane, so that many are decided in the order in which they were drawn
            lane = 1 + number % 8 if draw.random() < 0.8 else lane
            command = make_command(draw, book, number)
            after = book.decide(command)
            if not isinstance(after, Refusal):
                book.take(command, after)
            rows.append(row_of(lane, command))
    return "\n".join(rows) + "\n"


def for_tools(policy: Policy) -> policies.Policy:
    """Returns a policy as the tools' reserves take it."""
    return policies.Policy(**vars(policy))


class Office:
    """Runs a script: the lanes take turns at random, and the lines stand in the order of their first turns."""

    def __init__(self, draw: random.Random, book: Book, basis: list[BasisRow], known: Known) -> None:
        self.draw, self.book, self.basis, self.known = draw, book, basis, known
        self.lines: list[str] = []
        self.live: dict[Any, Any] = {}
        self.floor = 0
        self.accepted = self.premiums = 0

    def run(self, script: str) -> str:
        left = lanes_of(lines_in(script.encode()))
        while any(left.values()) or self.live:
            lane = self.draw.choice([lane for lane in left if left[lane] or lane in self.live])
            if lane not in self.live:
                self.take(lane, left[lane].pop(0))
            elif self.live[lane][1] == 0:
                del self.live[lane]
            else:
                self.live[lane][1] -= 1
        self.lines.append(f"watcher,1,{self.accepted},{self.accepted}")
        self.lines.append(f"watcher,2,{self.accepted},{self.premiums}")
        return "\n".join(self.lines) + "\n"

    def take(self, lane: int, line: Line) -> None:
        count = len(self.book.commands)
        if line.kind == "trim":
            self.floor = min([position for position, _ in self.live.values()], default=count)
            self.lines.append(f"{lane},trim,{self.floor}")
        elif line.kind == "value":
            position = count if line.position is None else line.position
            if position > count:
                self.lines.append(",".join([*line.head, "refused", "ahead", str(count)]))
            elif position < self.floor:
                self.lines.append(",".join([*line.head, "refused", "trimmed", str(self.floor)]))
            else:
                # this number of turns to read, and one turn to release the pin
                self.live[lane] = [position, self.draw.choice([0, 1, 2, 8, 20])]
                self.show(line, position)
        else:
            self.post(line)

    def post(self, line: Line) -> None:
        command, after = line.posted, self.book.decide(line.posted)
        if isinstance(after, Refusal):
            self.lines.append(",".join([*line.head, "refused", *after.words()]))
            return
        self.book.take(command, after)
        self.lines.append(",".join([*line.head, "accepted", str(len(self.book.commands))]))
        self.accepted += 1
        self.premiums += command.amount if command.kind in ("premium", "reinstate") else 0

    def show(self, line: Line, position: int) -> None:
        book = Book(self.book.commands[:position])
        self.lines.append(",".join([*line.head, str(position), str(len(book.policies))]))
        sums, words = [0, 0], 0
        for number, policy in book.policies.items():
            assert line.day
            year, exact = worth(for_tools(policy), self.basis, line.day, self.known)
            head = f"row,{number},{policy.status},{year}"
            if isinstance(exact, str):
                words += 1
                self.lines.append(f"{head},{exact}")
            else:
                bounds = math.floor(exact), math.ceil(exact)
                sums = [one + other for one, other in zip(sums, bounds)]
                self.lines.append(f"{head},{money(bounds[0])},{money(bounds[1])}")
        self.lines.append(f"total,{money(sums[0])},{money(sums[1])},{words}")
