"""Reads what an interrupted run has printed: a prefix of its transcript.

The lines stand in the order of the turns in which they were answered, and an accepted line has its position. So the prefix shows
which rows of each lane were certainly answered, which records of the run are theirs, and where the run began.
"""
from __future__ import annotations

from dataclasses import dataclass, field

from life_tools.rules.commands import Command
from life_tools.common.formats import Wrong, demand, number_of
from life_tools.scripts.lines import Line, lanes_of
from life_tools.scripts.transcript_check import Answer, is_block, is_whole


@dataclass
class Printed:
    """The rows that are printed as answered, the commands that were accepted, and how many commands were accepted before the run
    if a line shows that."""

    rows: set[int] = field(default_factory=set)
    answered: dict[int, int] = field(default_factory=dict)
    accepted: list[Command] = field(default_factory=list)
    begun: int | None = None
    # the rows that were answered `fault` or `nomemory`, each with that word
    unposted: list[tuple[str, Line]] = field(default_factory=list)
    # the rows that were refused because the book was full
    full: list[Line] = field(default_factory=list)
    # the commands answered `fault` after which none was accepted; one of them may be in the journal
    in_doubt: list[Command] = field(default_factory=list)

    def began(self, count: int, answer: list[str]) -> None:
        """Takes a line that shows how many commands were accepted before it, and computes the count before the run from it."""
        begun = count - len(self.accepted)
        demand(begun >= 0 and self.begun in (None, begun), f"{','.join(answer)} has another position than the lines before")
        self.begun = begun

    def follow(self, answer: Answer, line: Line) -> None:
        head, start = answer[0], line.head
        demand(head[:len(start)] == start, f"{','.join(head)} answers another row than {line.row.text}")
        told = head[len(start):]
        if line.command is None:
            if line.kind == "value" and line.position is None and is_block(answer):
                self.began(counted(told[0], head), head)
        elif told[:1] == ["accepted"]:
            self.began(counted(told[-1], head) - 1, head)
            self.accepted.append(line.command)
            self.in_doubt = []
        elif told in (["fault"], ["nomemory"]):
            self.unposted.append((told[0], line))
            self.in_doubt += [line.command] if told == ["fault"] else []
        else:
            demand(told[:1] == ["refused"], f"{','.join(head)} is no answer to {line.row.text}")
            self.full += [line] if told[1:2] == ["full"] else []
        self.rows.add(line.row.number)
        self.answered[line.lane] = self.answered.get(line.lane, 0) + 1


def counted(text: str, answer: list[str]) -> int:
    found = number_of(text, 0, 1 << 32)
    if found is None:
        raise Wrong(f"{','.join(answer)} has no position")
    return found


def whole_answers(text: str) -> list[Answer]:
    """Returns the complete answers of a text that may end anywhere: its finished lines, without a valuation that lacks its
    total."""
    answers: list[Answer] = []
    for row in text.split("\n")[:-1]:
        line = row.split(",")
        if line[0] == "watcher":
            break
        if line[0] in ("row", "total"):
            demand(answers and not is_whole(answers[-1]), f"{row} belongs to no valuation")
            answers[-1].append(line)
        else:
            demand(not answers or is_whole(answers[-1]), f"no total before {row}")
            answers.append([line])
    return answers if not answers or is_whole(answers[-1]) else answers[:-1]


def read_prefix(text: str, lines: list[Line]) -> Printed:
    """Returns what a prefix of a transcript says about a script's lines."""
    printed, lanes = Printed(), lanes_of(lines)
    for answer in whole_answers(text):
        lane = number_of(answer[0][0], 1, 8) or 0
        place = printed.answered.get(lane, 0)
        demand(place < len(lanes.get(lane, [])), f"the script has no row for {','.join(answer[0])}")
        printed.follow(answer, lanes[lane][place])
    return printed
