"""Finds out what became of each row of a run, however it ended, from its output and from the records that the journal gained.

The transcript may be cut anywhere or be missing; what is printed answers the first rows of each lane. Each further record of the
journal is assigned to the nearest unanswered row of some lane that equals it. The rows of the lane before that row were answered
and not accepted, although their answers were not printed. A record that equals no row of the run was posted by another run, and
is only counted.
"""
from __future__ import annotations

import os
from dataclasses import dataclass, field

from life_tools.common.formats import MOST_COMMANDS, Wrong, number_of
from life_tools.journal.file import gate_of
from life_tools.rules.commands import Command, command_in, words_of
from life_tools.scripts.cut_transcripts import whole_answers
from life_tools.scripts.lines import Line, lanes_of

NOT_PRINTED = "unknown: the run ended before it printed the reason"
UNPOSTED = ("fault", "nomemory")


class NotOfTheRun(Wrong):
    """The journal does not have what the run printed as accepted."""

    status = 1


@dataclass
class Reckoned:
    """The results for the rows of a script, by their numbers.

    `accepted` has positions, `refused` the reasons, `answered` the answers to valuations and trims, `left` the rows without an
    answer; `foreign` is the number of records that belong to no row.
    """

    accepted: dict[int, int] = field(default_factory=dict)
    refused: dict[int, str] = field(default_factory=dict)
    answered: dict[int, str] = field(default_factory=dict)
    left: list[int] = field(default_factory=list)
    foreign: int = 0


def commands_between(journal: str, first: int, last: int) -> dict[int, Command]:
    """Returns the commands of a journal after position `first` up to `last`, by their positions."""
    if last <= first or not os.path.exists(journal):
        return {}
    with open(journal, "rb") as file:
        file.seek(gate_of(first))
        data = file.read(gate_of(last) - gate_of(first))
    size = gate_of(1) - gate_of(0)
    return {first + place + 1: command_in(data[place * size + 1:(place + 1) * size]) for place in range(len(data) // size)}


class Reckoning:
    """Follows the printed answers, and then assigns the other records to rows."""

    def __init__(self, lines: list[Line], records: dict[int, Command]) -> None:
        self.lanes, self.records = lanes_of(lines), records
        self.at = dict.fromkeys(self.lanes, 0)
        self.found = Reckoned()
        # for each command, the lanes and places of the rows that equal it and have no printed answer
        self.places: dict[Command, list[tuple[int, int]]] = {}
        # the rows that met a fault or ran out of memory; one of them may be in the journal all the same
        self.unposted: list[Line] = []

    def follow(self, head: list[str]) -> None:
        """Takes the next answer that was printed."""
        lane = number_of(head[0], 1, 8) or 0
        place = self.at.get(lane, 0)
        if place >= len(self.lanes.get(lane, [])):
            raise NotOfTheRun(f"the script of the run has no row for the printed line {','.join(head)}")
        line = self.lanes[lane][place]
        start, self.at[lane] = line.head, place + 1
        if head[:len(start)] != start:
            raise NotOfTheRun(f"the printed line {','.join(head)} answers another row than {line.row.text}")
        self.take(line, head[len(start):])

    def take(self, line: Line, words: list[str]) -> None:
        if line.command is None:
            self.found.answered[line.row.number] = ",".join(words)
        elif words[:1] == ["accepted"]:
            self.accept(line, number_of(words[-1], 1, MOST_COMMANDS) or 0)
        elif words[:1] == ["refused"]:
            self.found.refused[line.row.number] = ",".join(words[1:])
        elif words[0] in UNPOSTED:
            self.unposted.append(line)
        else:
            raise NotOfTheRun(f"the run printed {','.join(words)} for {line.row.text}, which is no answer")

    def accept(self, line: Line, position: int) -> None:
        if self.records.get(position) != line.command:
            record = self.records.get(position)
            has = ",".join(words_of(record)) if record else "nothing"
            raise NotOfTheRun(f"{line.row.text} was printed as accepted at position {position}, where the journal has {has}: the "
                              "journal was changed since. After a restore from a backup call `life-tools day --restored`")
        self.found.accepted[line.row.number] = position

    def deal(self, first: int) -> None:
        """Assigns the records after a position to rows."""
        for lane, lines in self.lanes.items():
            for place in range(self.at[lane], len(lines)):
                command = lines[place].command
                if command:
                    self.places.setdefault(command, []).append((lane, place))
        for position in sorted(position for position in self.records if position > first):
            if not self.is_dealt(position, self.records[position]):
                self.found.foreign += 1

    def is_dealt(self, position: int, command: Command) -> bool:
        for line in self.unposted:
            if line.command == command:
                self.unposted.remove(line)
                self.found.accepted[line.row.number] = position
                return True
        places = self.places.get(command, [])
        ahead = [(place - self.at[lane], lane, place) for lane, place in places if place >= self.at[lane]]
        if not ahead:
            return False
        _, lane, place = min(ahead)
        self.pass_over(lane, place)
        self.found.accepted[self.lanes[lane][place].row.number] = position
        return True

    def pass_over(self, lane: int, place: int) -> None:
        """Notes that the rows of a lane before an accepted one were answered."""
        for line in self.lanes[lane][self.at[lane]:place]:
            which = self.found.refused if line.command else self.found.answered
            which[line.row.number] = NOT_PRINTED
        self.at[lane] = place + 1

    def end(self) -> Reckoned:
        left = [line.row.number for line in self.unposted]
        left += [line.row.number for lane, lines in self.lanes.items() for line in lines[self.at[lane]:]]
        self.found.left = sorted(left)
        return self.found


def reckoned(lines: list[Line], transcript: str, records: dict[int, Command], before: int) -> Reckoned:
    """Returns what became of each row of a script.

    The journal had `before` commands when the run began, and `records` are the commands after them.
    """
    reckoning = Reckoning(lines, records)
    # a run that began nothing prints a single line without numbers, such as `diskfault`
    for answer in whole_answers(transcript) if transcript[:1].isdigit() else ():
        reckoning.follow(answer[0])
    reckoning.deal(max(reckoning.found.accepted.values(), default=before))
    return reckoning.end()
