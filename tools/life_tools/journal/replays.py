"""Applies the commands of a journal to all its policies at once, and finds the first command that cannot follow.

The commands are judged block by block, and a block in rounds: the first command of each policy in it, then the second, and so on.
When few policies are left in a block, `rules.decide` decides their remaining commands one by one.
"""
from __future__ import annotations

from typing import Iterator

from life_tools.common.formats import KINDS
from life_tools.journal.records import ISSUE, PAIDUP, UPGRADE, Records
from life_tools.common.arrays import Array, Cents, np
from life_tools.journal.policy_columns import Chosen, Policies, change, is_refused, issued_by
from life_tools.rules.commands import CODES
from life_tools.rules.policies import Policy, Refusal, decide, refused_by_upgrade
from life_tools.rules.tables import BOOKINGS, CHECKS, Line

# Numbers are looked up in a table if the greatest is at most SPREAD times the count plus LEAST_TABLE, and otherwise in a sorted
# list.
SPREAD, LEAST_TABLE = 8, 1 << 20
# number of commands in a block, so that the block's data fits in a processor's cache
AT_ONCE = 1 << 15
# when at most so many policies are left, their commands are decided one after the other
FEW = 24


class Rounds:
    """The remaining commands of policies, in rounds: the first command of each policy, then the second, and so on.

    `order` has the commands policy by policy; those of a policy are between its places in `begins` and `ends`. The policies with
    the most commands stand first. When few policies are left, `alone` gives their commands policy by policy.
    """

    def __init__(self, order: Array, begins: Array, ends: Array) -> None:
        self.order, self.begins, self.ends = order, begins, ends
        left = ends - begins
        mine = np.flatnonzero(left)
        self.mine = mine[np.argsort(-left[mine], kind="stable")]
        self.rising = left[self.mine][::-1]
        self.done = 0

    @property
    def active(self) -> int:
        return len(self.mine) - int(np.searchsorted(self.rising, self.done, "right"))

    def rounds(self) -> Iterator[tuple[Array, Array]]:
        """Yields, for each round, one command of each policy that still has one, and these policies."""
        while (active := self.active) > FEW:
            mine = self.mine[:active]
            yield self.order[self.begins[mine] + self.done], mine
            self.done += 1

    def alone(self) -> Iterator[tuple[int, Array]]:
        """Yields each policy that is left after the rounds, with all its remaining commands."""
        for place in self.mine[:self.active].tolist():
            yield place, self.order[self.begins[place] + self.done:self.ends[place]]


class Replay:
    """The policies after the commands. If a command cannot follow, `bad` is its place, and the commands after it do not count."""

    def __init__(self, records: Records) -> None:
        self.records = records
        self.bad: int | None = None
        # the position of the upgrade, or 0
        self.upgrade = 0
        self.find_upgrade()
        issues = np.flatnonzero(self.kind == ISSUE)
        self.policies: Policies = issued_by(records, issues)
        # for each record, the place of its policy (-1 for an upgrade), and the cents that it books
        self.place: Array = np.empty(self.count, np.int32)
        self.booked: Cents = np.zeros(self.count, np.int64)
        # for each policy, the place of one of its commands in the block that is checked last
        self.last_at: Array = np.zeros(len(issues), np.int32)
        self.judge(issues)

    @property
    def count(self) -> int:
        """Returns how many commands can follow one another as far as is known so far."""
        return len(self.records) if self.bad is None else self.bad

    @property
    def kind(self) -> Array:
        return self.records.kind[:self.count]

    def finds_bad(self, places: Array) -> None:
        """Notes that the commands at these places cannot follow."""
        if len(places):
            self.bad = min(self.count, int(places.min()))

    def find_upgrade(self) -> None:
        upgrades = np.flatnonzero(self.kind == UPGRADE)
        self.upgrade = int(upgrades[0]) + 1 if len(upgrades) else 0
        self.finds_bad(upgrades[1:])
        self.finds_bad(np.flatnonzero(self.kind[:self.upgrade - 1 if self.upgrade else self.count] == PAIDUP))

    def judge(self, issues: Array) -> None:
        numbers = Numbers(self.records.number[issues], self.records.number[:self.count])
        # an unknown policy counts as issued after all records
        issued_at = np.append(issues, self.count)
        start = 0
        while start < self.count:
            some = slice(start, min(start + AT_ONCE, self.count))
            place = numbers.places(self.records.number[some])
            self.judge_block(some, place, issued_at)
            start = some.stop

    def judge_block(self, some: slice, place: Array, issued_at: Array) -> None:
        """Judges a block: each issue must use a new number, and every other command must name a policy that was issued before."""
        kind, at = self.records.kind[some], np.arange(some.start, some.stop)
        is_issue, is_upgrade = kind == ISSUE, kind == UPGRADE
        place[is_upgrade] = -1
        self.place[some] = place
        np.copyto(self.booked[some], self.records.amount[some], where=BOOKS_AMOUNT[kind])
        issues, others = np.flatnonzero(is_issue), np.flatnonzero(~(is_issue | is_upgrade))
        self.finds_bad(at[issues[issued_at[place[issues]] != at[issues]]])
        self.finds_bad(at[others[issued_at[place[others]] > at[others]]])
        # nothing after the first command that cannot follow is judged, so each of these commands names an issued policy
        sound = others if self.bad is None else others[at[others] < self.bad]
        self.judge_rounds(at[sound], place[sound].astype(np.intp))

    def are_apart(self, places: Array) -> bool:
        """Returns whether no policy occurs twice among these places."""
        at = np.arange(len(places), dtype=np.int32)
        self.last_at[places] = at
        return bool((self.last_at[places] == at).all())

    def judge_rounds(self, where: Array, places: Array) -> None:
        """Judges the commands of a block that are neither issues nor upgrades, in rounds unless each policy has only one."""
        if self.are_apart(places):
            self.judge_round(where, places)
            return
        order = stable_order(places)
        where, places = where[order], places[order]
        starts = np.flatnonzero(np.diff(places, prepend=-2))
        left, mine = Rounds(where, starts, np.append(starts[1:], len(where))), places[starts]
        for now, of in left.rounds():
            self.judge_round(now, mine[of])
        for one, rest in left.alone():
            self.judge_alone(int(mine[one]), rest)

    def judge_round(self, where: Array, places: Array) -> None:
        """Judges one command for each of some policies."""
        if self.bad is not None:
            still = where < self.bad
            where, places = where[still], places[still]
        kinds = self.records.kind[where]
        for kind in JUDGED:
            chosen = np.flatnonzero(kinds == kind)
            if len(chosen):
                self.judge_kind(kind, where[chosen], places[chosen])

    def judge_kind(self, kind: int, where: Array, places: Array) -> None:
        of, records = Chosen(self.policies, places), self.records
        day, amount = records.day[where], records.amount[where]
        self.finds_bad(where[is_refused(of, kind, day, amount)])
        changes = change(self.policies, places, of, kind, Line(day, amount, records.premium[where]))
        if BOOKS_OUTSTANDING[kind]:
            self.booked[where] = changes["outstanding"]

    def judge_alone(self, place: int, where: Array) -> None:
        """Judges the remaining commands of one policy, one by one."""
        policy = self.policies.policy(place)
        where = where[where < self.count]
        for at, command in zip(where.tolist(), self.records.commands(where)):
            after = decide(policy, command)
            if isinstance(after, Refusal):
                self.finds_bad(np.array([at]))
                break
            policy = after
            if BOOKS_OUTSTANDING[CODES[command.kind]]:
                self.booked[at] = policy.outstanding
        self.policies.put(place, policy)

    def refusal(self) -> Refusal:
        """Returns why the bad command cannot follow, by the rules for single commands."""
        assert self.bad is not None
        command = self.records.command(self.bad)
        refusal = refused_by_upgrade(command.kind, self.upgrade if self.upgrade <= self.bad else 0)
        if refusal:
            return refusal
        policy: Policy | None = None
        mine = self.records.places_of(command.number)
        for each in [*self.records.commands(mine[mine < self.bad]), command]:
            after = decide(policy, each)
            if isinstance(after, Refusal):
                return after
            policy = after
        raise AssertionError(f"command {self.bad + 1} can follow")


def booking(is_of_line: bool) -> Array:
    """Returns for each code of a kind whether it books the line's amount, or else what is outstanding after it."""
    return np.array([KINDS.get(code) in BOOKINGS and BOOKINGS[KINDS[code]].is_of_line == is_of_line for code in range(256)])


JUDGED = [CODES[kind] for kind in CHECKS]
BOOKS_AMOUNT, BOOKS_OUTSTANDING = booking(True), booking(False)


def stable_order(place: Array) -> Array:
    """Returns the order that sorts numbers from -1 on and keeps equal ones in their order; numpy radix-sorts 16 bits at a
    time."""
    number = (place + 1).astype(np.uint32)
    order = np.argsort((number & 0xFFFF).astype(np.uint16), kind="stable")
    if len(number) and int(number.max()) > 0xFFFF:
        order = order[np.argsort((number[order] >> 16).astype(np.uint16), kind="stable")]
    return order


class Numbers:
    """Finds for each number the first place at which it stands among the known numbers, or -1."""

    def __init__(self, known: Array, asked: Array) -> None:
        most = int(max(known.max(initial=0), asked.max(initial=0)))
        self.table = self.order = np.empty(0, np.int32)
        self.known = known
        if most <= SPREAD * len(asked) + LEAST_TABLE:
            self.table = np.full(most + 1, -1, np.int32)
            # of equal numbers the last assignment stays, so the arrays are reversed to keep the first place
            self.table[known[::-1]] = np.arange(len(known), dtype=np.int32)[::-1]
        else:
            self.order = np.argsort(known, kind="stable").astype(np.int32)
            self.known = known[self.order]

    def places(self, numbers: Array) -> Array:
        if len(self.table):
            return self.table[numbers]
        if not len(self.known):
            return np.full(len(numbers), -1, np.int32)
        at = np.minimum(np.searchsorted(self.known, numbers), len(self.known) - 1)
        return np.where(self.known[at] == numbers, self.order[at], np.int32(-1))


def places_of(numbers: Array, known: Array) -> Array:
    """Returns for each number its first place among the known numbers, or -1."""
    return Numbers(known, numbers).places(numbers)
