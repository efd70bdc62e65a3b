"""Checks whether what `life run` printed for a script is right, and what it left in the journal.

The lines in their order must be one legal history: each clerk's rows are answered once and in order; a posting is accepted at the
next position, or refused for the first reason that the rules have; a valuation shows the book at its position, with bounds around
the exact values; the floor of a trim is the position of a pin that may be live, or the count. The journal afterwards has exactly
what was accepted. Runs that met a fault of the disk or ran out of memory are not checked.
"""
from __future__ import annotations

from typing import List, Sequence

from life_tools.rules.commands import Command, words_of
from life_tools.common.formats import Wrong, demand, number_of, printed_rows
from life_tools.journal.file import Journal, read_journal
from life_tools.reserves.exact import Known
from life_tools.rules.policies import Book, Refusal
from life_tools.scripts.lines import Fault, Line, lanes_of, read_script
from life_tools.tables.basis import BasisRow
from life_tools.reserves.valuation_check import check_block

# the lines of one valuation, or one other line
Answer = List[List[str]]


def is_block(answer: Answer) -> bool:
    head = answer[0]
    return len(head) > 3 and head[1] == "value" and head[3] not in ("refused", "nomemory")


def is_whole(answer: Answer) -> bool:
    return not is_block(answer) or answer[-1][0] == "total"


def answers_in(transcript: str) -> tuple[list[Answer], list[list[str]]]:
    """Returns the answers in order, a valuation's with its rows and its total, and the lines of the watchers."""
    demand(transcript.endswith("\n") or not transcript, "the last line isn't ended")
    answers: list[Answer] = []
    watchers: list[list[str]] = []
    for line in printed_rows(transcript):
        if line[0] == "watcher":
            watchers.append(line)
            continue
        demand(not watchers, f"{line} follows a watcher's line")
        if line[0] in ("row", "total"):
            demand(answers and not is_whole(answers[-1]), f"{line} belongs to no valuation")
            answers[-1].append(line)
        else:
            demand(not answers or is_whole(answers[-1]), f"no total before {line}")
            answers.append([line])
    demand(not answers or is_whole(answers[-1]), "no total at the end")
    return answers, watchers


class Run:
    """The state after the lines so far: what is left of the script, the book, the pins that may be live, and the floor."""

    def __init__(self, lines: list[Line], book: Book, basis: Sequence[BasisRow], known: Known) -> None:
        self.left = lanes_of(lines)
        self.book, self.basis, self.known = book, basis, known
        self.floor = self.accepted = self.premiums = 0
        self.pins: dict[int, int] = {}

    def follow(self, answer: Answer) -> None:
        head = answer[0]
        lane = number_of(head[0], 1, 8) or 0
        demand(self.left.get(lane) and len(head) > 2, f"clerk {head[0]} has no row left for {head}")
        line = self.left[lane].pop(0)
        # the valuation before this line of the clerk has given up its pin by now
        self.pins.pop(lane, None)
        demand(head[1] == line.kind, f"{head} answers {line.row.text}")
        if line.command:
            self.post(head, line, line.command)
        elif line.kind == "trim":
            self.trim(head)
        else:
            self.value(answer, line)

    def post(self, head: list[str], line: Line, command: Command) -> None:
        answer = self.book.decide(command)
        if isinstance(answer, Refusal):
            words = ["refused", *answer.words()]
        else:
            words = ["accepted", str(len(self.book.commands) + 1)]
            self.book.take(command, answer)
            self.accepted += 1
            self.premiums += command.amount if command.kind in ("premium", "reinstate") else 0
        demand(head == [*line.head, *words], f"{line.row.text} is answered {head}, and the rules say {words}")

    def trim(self, head: list[str]) -> None:
        count = len(self.book.commands)
        floor = number_of(head[2], 0, count) if len(head) == 3 else None
        if floor is None:
            raise Wrong(f"{head} is no trim's line, where {count} commands are accepted")
        # a pin may be live if it is not known to be given up; if the floor is its position, it was live
        demand(floor == count or floor in self.pins.values(),
               f"{head}: the count is {count}, and pins that may be live are at {sorted(self.pins.values())}")
        self.floor = floor
        self.pins = {lane: position for lane, position in self.pins.items() if position >= floor}

    def value(self, answer: Answer, line: Line) -> None:
        head, count = answer[0], len(self.book.commands)
        position = count if line.position is None else line.position
        start = line.head
        if position > count:
            demand(head == [*start, "refused", "ahead", str(count)], f"{head}: position {position} is ahead of {count}")
        elif position < self.floor:
            demand(head == [*start, "refused", "trimmed", str(self.floor)], f"{head}: position {position} is below {self.floor}")
        else:
            demand(head[:4] == [*start, str(position)], f"{head} answers {line.row.text}, and the position is {position}")
            self.pins[line.lane] = position
            policies = list(Book(self.book.commands[:position]).policies.values())
            check_block(answer, policies, self.basis, self.known)


def check_journal(after: Journal, commands: list[Command]) -> None:
    """Raises Wrong unless the journal has exactly these commands."""
    demand(not after.refused, f"the journal after the run: {after.refused}: {after.why}")
    found = after.commands
    for position, (command, wanted) in enumerate(zip(found, commands), 1):
        demand(command == wanted, f"record {position} of the journal is {','.join(words_of(command))}, "
                                  f"and was accepted as {','.join(words_of(wanted))}")
    demand(len(found) == len(commands), f"the journal has {len(found)} records of {len(commands)}")


def check_run(lines: list[Line], transcript: str, begun: Book, after: Journal, basis: Sequence[BasisRow],
              known: Known | None = None) -> int:
    """Checks a script's transcript against the book before the run, which it changes, and the journal after it.

    Returns the number of answers, or raises `Wrong`. `known` keeps exact values for further calls.
    """
    run = Run(lines, begun, basis, {} if known is None else known)
    answers, watchers = answers_in(transcript)
    for answer in answers:
        run.follow(answer)
    left = [line.row.text for lines in run.left.values() for line in lines]
    demand(not left, f"rows without an answer: {left}")
    demand(watchers == [["watcher", "1", str(run.accepted), str(run.accepted)],
                        ["watcher", "2", str(run.accepted), str(run.premiums)]], f"the watchers' lines: {watchers}")
    check_journal(after, run.book.commands)
    return len(answers)


# --- a run that was cut ---

def prefix_of(transcript: str) -> tuple[str, int]:
    """Returns the complete lines of a transcript without a valuation that has no total, and the number of these lines."""
    lines = transcript[:transcript.rfind("\n") + 1].splitlines(keepends=True)
    # rows and totals belong to the line before them
    heads = [place for place, line in enumerate(lines) if not line.startswith(("row,", "total,", "watcher,"))]
    last = lines[heads[-1]:] if heads else []
    if last and is_block([last[0].rstrip("\n").split(",")]) and not any(line.startswith("total,") for line in last):
        lines = lines[:heads[-1]]
    return "".join(lines), len(lines)


def is_cut(transcript: str) -> bool:
    """Returns whether the transcript lacks the watchers' lines, with which every run that ended closes."""
    last = transcript.splitlines()[-2:]
    return not transcript.endswith("\n") or [line.split(",")[0] for line in last] != ["watcher", "watcher"]


def check_cut(lines: list[Line], transcript: str, begun: Book, after: Journal, basis: Sequence[BasisRow]) -> str:
    """Checks the prefix of an interrupted transcript, and that the journal has what the prefix says was accepted.

    Returns a sentence that says where the transcript ends and what of the run is known from the journal alone.
    """
    front, count = prefix_of(transcript)
    run = Run(lines, begun, basis, {})
    for answer in answers_in(front)[0]:
        run.follow(answer)
    accepted, found = run.book.commands, after.commands
    check_journal(Journal(Book(found[:len(accepted)])), accepted)
    left = sum(map(len, run.left.values()))
    return (f"cut after line {count}: what stands up to there is right, and the journal holds the {run.accepted} postings "
            f"that it accepts. {left} rows have no answer there; {len(found) - len(accepted)} postings more are in the journal")


def check(script: bytes, transcript: str, before: bytes, after: bytes, basis: Sequence[BasisRow],
          known: Known | None = None) -> int:
    """Does the same for the bytes of a script and of the journal before and after."""
    lines = read_script(script)
    if isinstance(lines, Fault):
        raise Wrong(f"the script is {lines.answer}")
    begun = read_journal(before)
    demand(not begun.refused, f"the journal before the run: {begun.refused}: {begun.why}")
    return check_run(lines, transcript, begun.book, read_journal(after), basis, known)


def asks_for_values(script: bytes) -> bool:
    lines = read_script(script)
    return not isinstance(lines, Fault) and any(line.kind == "value" for line in lines)
