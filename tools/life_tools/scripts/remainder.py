"""Finds the rows of a script that an interrupted run did not reach.

The journal has what the interrupted run had accepted, and a lane's rows are answered in their order. So in each lane, the rows up
to the last one that the journal shows were answered, and the rows after it are to be run. If the transcript is there as well, the
rows answered in it are certain, and only the later records have to be assigned to rows.

A record does not say from which lane it came. If equal rows stand in several lanes, the records are assigned so that each row
that is passed over was refused at some moment, or is a valuation or a trim: the interrupted run together with the rest is then a
possible run of the whole script.
"""
from __future__ import annotations

from bisect import bisect_left, bisect_right
from dataclasses import dataclass
from itertools import chain
from typing import Dict, Iterable, Iterator, Tuple

from life_tools.rules.commands import Command, words_of
from life_tools.common.arrays import np
from life_tools.common.formats import Wrong, demand
from life_tools.journal.columns import Columns
from life_tools.scripts.cut_transcripts import Printed
from life_tools.common.progress import Progress
from life_tools.rules.policies import Book, Policy, Refusal, Upgraded, decide
from life_tools.scripts.lines import Line, lanes_of

# how many records may be assigned again after an assignment turned out to be impossible
MOST_AGAIN = 1_000_000
# how many rows of a lane are answered, and after how many records of the run the last of them was answered
Stand = Tuple[int, int]
Stands = Dict[int, Stand]
# the lane that posted a record, and where the lane stands after it
Way = Tuple[int, Stand]


class NoRun(Wrong):
    """No run of the script leaves this journal."""


class History(Book):
    """The book together with its history in the run: what each policy was after any number of the run's records."""

    def __init__(self, begun: int, commands: Iterable[Command] = ()) -> None:
        """`begun` is the number of commands before the run."""
        self.begun = begun
        # for each policy that the run changed: the numbers of records after which it changed, and what it was from then on
        self.moments: dict[int, list[int]] = {}
        self.states: dict[int, list[Policy | None]] = {}
        # the number of records after which the journal is upgraded, or None if it never is
        self.upgraded: int | None = None
        super().__init__(commands)

    def take(self, command: Command, after: Policy | Upgraded) -> None:
        before = self.policies.get(command.number)
        super().take(command, after)
        moment = len(self.commands) - self.begun
        if not isinstance(after, Policy):
            self.upgraded = max(moment, 0)
        elif moment > 0:
            self.moments.setdefault(command.number, [0]).append(moment)
            self.states.setdefault(command.number, [before]).append(after)

    @property
    def records(self) -> int:
        return len(self.commands) - self.begun

    def record(self, n: int) -> Command:
        return self.commands[self.begun + n]

    def refused_in(self, command: Command, moment: int, last: int) -> int | None:
        """Returns the first moment from `moment` to `last` at which the command is refused, or None; moments count the run's
        records."""
        if command.kind in ("upgrade", "paidup"):
            upgraded = self.records + 1 if self.upgraded is None else self.upgraded
            if command.kind == "upgrade":
                return max(upgraded, moment) if upgraded <= last else None
            if moment < upgraded:
                return moment
        if command.number not in self.moments:
            return moment if isinstance(decide(self.policies.get(command.number), command), Refusal) else None
        return self.refused_by(command, moment, last)

    def refused_by(self, command: Command, moment: int, last: int) -> int | None:
        """Does the same for a policy that the run has changed."""
        moments, states = self.moments[command.number], self.states[command.number]
        for place in range(bisect_right(moments, moment) - 1, len(moments)):
            if moments[place] > last:
                break
            if isinstance(decide(states[place], command), Refusal):
                return max(moments[place], moment)
        return None


def history_in(columns: Columns, begun: int, lines: Iterable[Line]) -> History:
    """Returns the history of the policies that a script or its run names; the run began after `begun` commands of the journal."""
    demand(begun <= columns.count, f"the journal has {columns.count} commands, and before the run there were {begun}")
    records, script = columns.records, {line.command.number for line in lines if line.command}
    numbers = np.union1d(np.array(sorted(script), np.uint32), records.number[begun:])
    # an upgrade, which has the number 0, concerns all of them
    is_of_them = (np.isin(records.number, numbers) | (records.number == 0))[:begun]
    before = np.flatnonzero(is_of_them)
    history = History(len(before), records.commands(before))
    for command in records.commands(np.arange(begun, columns.count)):
        history.post(command)
    return history


class Passage:
    """A lane's rows from where it stands, as far as they can have been answered without any of them being accepted."""

    def __init__(self, history: History, lines: list[Line], stand: Stand) -> None:
        self.history, self.lines, self.stand = history, lines, stand
        # moments[n] is the least moment at which n rows are answered; up to `looked`, the next row is not refused
        self.moments = [stand[1]]
        self.looked = stand[1]

    def passes(self, rows: int, record: int) -> bool:
        """Returns whether the next `rows` rows can have been answered before a record."""
        while len(self.moments) <= rows and self.moments[-1] <= record:
            moment = self.answered(self.lines[self.stand[0] + len(self.moments) - 1], record)
            if moment is None:
                self.looked = max(self.looked, record + 1)
                return False
            self.moments.append(moment)
            self.looked = moment
        return len(self.moments) > rows and self.moments[rows] <= record

    def answered(self, line: Line, record: int) -> int | None:
        """Returns the least moment at which a row is answered without being accepted, or None.

        A value or a trim is answered at once.
        """
        if line.command is None:
            return self.moments[-1]
        return self.history.refused_in(line.command, self.looked, record) if self.looked <= record else None


@dataclass
class Choice:
    """A record that several rows may have posted: the state of the lanes before it, and the ways that were not tried yet."""

    record: int
    stands: Stands
    ways: Iterator[Way]


class Search:
    """Assigns the records to lanes. For each lane it keeps how many rows are answered, and when the last one was."""

    def __init__(self, lanes: dict[int, list[Line]], history: History) -> None:
        self.lanes, self.history = lanes, history
        # for each command, the lanes in which it stands, and its places there
        self.places: dict[Command, dict[int, list[int]]] = {}
        for lane, lines in lanes.items():
            self.place_all(lane, lines)
        self.passages: dict[int, Passage] = {}
        self.choices: list[Choice] = []
        self.seen: set[tuple[Stand, ...]] = set()

    def place_all(self, lane: int, lines: list[Line]) -> None:
        for place, line in enumerate(lines):
            if line.command:
                self.places.setdefault(line.command, {}).setdefault(lane, []).append(place)

    def passage(self, lane: int, stand: Stand) -> Passage:
        """Returns the passage of a lane from where it stands; the results are kept until the lane stands elsewhere."""
        known = self.passages.get(lane)
        if known is None or known.stand != stand:
            known = self.passages[lane] = Passage(self.history, self.lanes[lane], stand)
        return known

    def ways(self, stands: Stands, record: int) -> Iterator[Way]:
        """Yields the ways to assign a record: lane by lane, each row that equals it, if the rows before it can have been
        answered."""
        for lane, places in self.places.get(self.history.record(record), {}).items():
            yield from ((lane, stand) for stand in self.steps(lane, places, stands[lane], record))

    def steps(self, lane: int, places: list[int], stand: Stand, record: int) -> Iterator[Stand]:
        for at in range(bisect_left(places, stand[0]), len(places)):
            if not self.passage(lane, stand).passes(places[at] - stand[0], record):
                break
            yield places[at] + 1, record + 1

    def first_way(self, stands: Stands, record: int) -> Way | None:
        """Returns the first way from here, or None. If there are others, they are kept in case the first one leads nowhere."""
        ways = self.ways(stands, record)
        first, second = next(ways, None), next(ways, None)
        if first is None or second is None:
            return first
        key = tuple(stands.values())
        if key in self.seen:
            return None
        self.seen.add(key)
        self.choices.append(Choice(record, stands, chain([second], ways)))
        return first

    def other_way(self, record: int) -> tuple[Choice, Way]:
        """Returns the last choice that has a way left, with that way."""
        while self.choices:
            way = next(self.choices[-1].ways, None)
            if way is not None:
                return self.choices[-1], way
            self.choices.pop()
        raise NoRun(f"no run of this script leaves this journal: nobody can have posted "
                    f"{','.join(words_of(self.history.record(record)))}, which is command {record + 1} of the run")

    def run(self, answered: dict[int, int], record: int) -> Stands:
        """Assigns the records from `record` on by a depth-first search, and returns where each lane stands at the end.

        `answered` has the number of rows of each lane that are answered before. A choice that was met before is not tried again.
        """
        stands: Stands = {lane: (answered.get(lane, 0), record) for lane in self.lanes}
        farthest, steps = record, 0
        progress = Progress("dealing the records out", self.history.records)
        while record < self.history.records:
            steps += 1
            farthest = max(farthest, record)
            way = self.first_way(stands, record)
            if way is None:
                choice, way = self.other_way(farthest)
                stands, record = choice.stands, choice.record
            stands = {**stands, way[0]: way[1]}
            record += 1
            demand(steps <= MOST_AGAIN + self.history.records, "there are too many equal rows to deal the records out")
            if record % 4096 == 0:
                progress.at(record)
        progress.end()
        return stands


def demand_records(printed: Printed, history: History) -> None:
    """Raises NoRun unless the run's records begin with the commands that are printed as accepted."""
    for place, command in enumerate(printed.accepted):
        if place >= history.records or history.record(place) != command:
            raise NoRun(f"{','.join(words_of(command))} is printed as accepted, and isn't command {place + 1} of the run")


def dealt_by(printed: Printed, history: History) -> int:
    """Returns how many of the run's records belong to printed lines.

    The record of a line that was answered `fault`, if there is one, comes after all others.
    """
    count = len(printed.accepted)
    return count + (history.records == count + 1 and history.record(count) in printed.in_doubt)


def rest_of(lines: list[Line], history: History, printed: Printed | None = None) -> dict[int, list[Line]]:
    """Returns for each lane the rows that are still to be run, after those that are printed as answered."""
    lanes, printed = lanes_of(lines), printed or Printed()
    stands = Search(lanes, history).run(printed.answered, dealt_by(printed, history))
    return {lane: lanes[lane][answered:] for lane, (answered, _) in stands.items()}
