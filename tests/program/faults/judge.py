"""Judges a run that met a fault, a limit or a signal, by docs/reference/statuses.md: its status, what it printed, and the file
that it left.

Nothing that was accepted may be lost. Only the lines whose calls failed may be answered `fault`, and those after a failed sync;
and the status must be the right one. Beyond what was accepted the file may hold one more command: that of a line that was
answered `fault` and after which nothing was accepted.
"""
import re

from life_tools.journal.file import read_journal
from life_tools.rules.commands import Command, words_of
from life_tools.rules.policies import Refusal
from life_tools.scripts.lines import Line, lanes_of, lines_in
from life_tools.scripts.transcript_check import Run, answers_in, is_block
from tests.program.runs import Desk, Ended
from tests.rules import policies as rules

# the last line of a run that ends before its lanes begin, by its exit status
LAST_LINES = {6: "readfault\n", 8: "diskfault\n", 9: "nomemory\n"}


def commands_in(data: bytes, what: str) -> list[Command]:
    """Returns the commands of a file, which must be a journal or an unfinished creation of one."""
    journal = read_journal(data)
    assert not journal.refused, f"{what}: {journal.refused}: {journal.why}"
    return journal.commands


class FaultyRun(Run):
    """A run over a desk, in which postings may be answered `fault` or `nomemory`, and valuations `nomemory`."""

    def __init__(self, desk: Desk) -> None:
        super().__init__(lines_in(desk.script), read_journal(desk.before).book, desk.basis, desk.known)
        self.faults = self.unserved = 0
        # how many lines were answered `fault` before the last accepted one
        self.recovered = 0
        # the commands that the file may hold beyond the accepted ones
        self.in_doubt: list[Command] = []

    def post(self, head: list[str], line: Line, command: Command) -> None:
        if head == [*line.head, "nomemory"]:
            self.unserved += 1
        elif head == [*line.head, "fault"]:
            assert not isinstance(self.book.decide(command), Refusal), f"{head}: the rules refuse it, which needs no disk"
            self.faults += 1
            self.in_doubt.append(command)
        else:
            before = self.accepted
            super().post(head, line, command)
            if self.accepted > before:
                self.in_doubt = []
                self.recovered = self.faults

    def value(self, answer: list[list[str]], line: Line) -> None:
        if answer[0] == [*line.head, "nomemory"]:
            self.unserved += 1
        else:
            super().value(answer, line)


def followed(desk: Desk, text: str) -> tuple[FaultyRun, list[list[str]], list[str]]:
    """Returns the run that a text reports, the lines of the watchers in it, and the rows of the script without an answer."""
    run = FaultyRun(desk)
    answers, watchers = answers_in(text)
    for answer in answers:
        run.follow(answer)
    return run, watchers, [line.row.text for lines in run.left.values() for line in lines]


def follow(desk: Desk, text: str) -> FaultyRun:
    """Returns the run that a complete transcript reports. Every line of the script must be answered, and the watchers' lines
    must be right."""
    run, watchers, left = followed(desk, text)
    assert not left, f"rows without an answer: {left}"
    assert watchers == [["watcher", "1", str(run.accepted), str(run.accepted)],
                        ["watcher", "2", str(run.accepted), str(run.premiums)]], f"the watchers' lines: {watchers}"
    return run


def demand_file(after: bytes, accepted: list[Command], in_doubt: list[Command] | tuple[()] = ()) -> None:
    """Asserts that the file holds what was accepted, in order, and at most one more command, which is in doubt."""
    found = commands_in(after, "the file afterwards")
    for position, command in enumerate(accepted):
        assert position < len(found), f"record {position} is lost: {','.join(words_of(command))}"
        assert found[position] == command, f"record {position} is another: {','.join(words_of(found[position]))}"
    more = found[len(accepted):]
    assert len(more) <= 1 and all(it in in_doubt for it in more), f"more was posted than was answered: {more}"


def judge_transcript(desk: Desk, ended: Ended) -> FaultyRun:
    """Judges a run that printed its whole transcript: its lines, its file and its status."""
    run = follow(desk, ended.text)
    demand_file(ended.after, run.book.commands, run.in_doubt)
    due = 8 if run.faults else 9 if run.unserved else 0
    assert ended.status == due, f"status {ended.status}, with {run.faults} faults and {run.unserved} lines without memory"
    return run


def prefix_of(text: str) -> str:
    """Returns the complete part of a text that may be cut anywhere: its ended lines, without those of a valuation that has no
    total."""
    lines, whole, amid = text.split("\n")[:-1], 0, False
    for count, line in enumerate(lines, 1):
        fields = line.split(",")
        amid = is_block([fields]) or (amid and fields[0] != "total")
        whole = whole if amid else count
    return "".join(line + "\n" for line in lines[:whole])


def judge_prefix(desk: Desk, ended: Ended) -> None:
    """Judges a run whose transcript is cut: its complete part must be a prefix of a right transcript, and the file must hold
    what it reports as accepted."""
    run, watchers, left = followed(desk, prefix_of(ended.text))
    assert not (watchers and left), f"the watchers' lines stand before the answers of {left}"
    accepted, found = run.book.commands, commands_in(ended.after, "the file afterwards")
    assert found[:len(accepted)] == accepted, "the file doesn't begin with what was printed as accepted"


def failed_calls(log: list[str]) -> tuple[int, int]:
    """Counts the calls that strace made fail, as two numbers: calls of a sync, including the check of the file's name that
    belongs to it; and all others."""
    syncs, others, begun = 0, 0, {}
    for line in log:
        thread = line.split(" ", 1)[0]
        if "<unfinished" in line:
            begun[thread] = line
        elif "(INJECTED)" in line:
            call = begun.get(thread, "") if "resumed>" in line else line
            if re.search(r"\bfsync\(|\bstatx\(AT_FDCWD", call):
                syncs += 1
            else:
                others += 1
    return syncs, others


def demand_faults(run: FaultyRun, log: list[str]) -> None:
    """Asserts that each failed call cost exactly one line. After a failed sync, however, no posting may be accepted."""
    syncs, others = failed_calls(log)
    if syncs:
        assert run.recovered <= others < run.faults, (
            f"{run.faults} lines are answered fault, {run.recovered} before one is accepted; a sync failed, and {others} others")
    else:
        assert run.faults == others, f"{run.faults} lines are answered fault, and {others} calls failed"


def judge_early_end(desk: Desk, ended: Ended, status: int) -> None:
    """Judges a run that ends before it posts: it prints only its last line, and the file has the commands that it had before."""
    assert ended.status == status, f"status {ended.status}, wanted {status}; printed {ended.text[:200]!r}"
    assert ended.text == LAST_LINES[status], f"printed {ended.text[:200]!r}, wanted {LAST_LINES[status]!r}"
    assert status != 6 or ended.after == desk.before, "the file was touched"
    demand_file(ended.after, commands_in(desk.before, "the file before"))


# --- lanes with policies of their own ---

def due_of(lines: list[Line], kept: list[Command]) -> list[Command]:
    """Returns the commands that are accepted from a lane's lines after these commands, if no other lane uses the policies."""
    book = rules.Book(kept)
    for line in lines:
        after = book.decide(line.command) if line.command else None
        if after and not isinstance(after, rules.Refusal):
            book.take(line.posted, after)
    return book.commands[len(kept):]


def posted_by_lane(desk: Desk, after: bytes) -> tuple[list[Command], list[tuple[int, list[Line], list[Command]]]]:
    """Returns the commands from before a run, which must still be there, and each lane with its lines and what it posted."""
    kept, found = commands_in(desk.before, "the file before"), commands_in(after, "the file afterwards")
    assert found[:len(kept)] == kept, "a record from before is lost or another"
    lanes = lanes_of(lines_in(desk.script))
    lane_of = {line.command.number: lane for lane, lines in lanes.items() for line in lines if line.command}
    of_lane: dict[int, list[Command]] = {lane: [] for lane in lanes}
    for command in found[len(kept):]:
        assert command.number in lane_of, f"a record was never asked for: {','.join(words_of(command))}"
        of_lane[lane_of[command.number]].append(command)
    return kept, [(lane, lanes[lane], own) for lane, own in of_lane.items()]


def judge_unanswered(desk: Desk, after: bytes, is_whole: bool) -> int:
    """Judges the file of a run that printed no transcript: it holds for each lane a prefix of what is accepted, or all of it."""
    kept, of_lanes = posted_by_lane(desk, after)
    for lane, lines, own in of_lanes:
        due = due_of(lines, kept)
        assert own == due[:len(own)], f"lane {lane}'s records aren't the first of its postings, in order"
        assert not is_whole or own == due, f"lane {lane} has {len(own)} records of {len(due)}"
    return sum(len(own) for *_, own in of_lanes)


def judge_lacking(desk: Desk, after: bytes) -> int:
    """Judges the file of a run that was out of memory and printed no transcript: it holds for each lane some of its postings, in
    their order, and the rules accept each after those before it. A posting that was out of memory changes nothing, and the next
    one may find memory.
    """
    _, of_lanes = posted_by_lane(desk, after)
    for lane, lines, own in of_lanes:
        unread = iter([line.command for line in lines if line.command])
        assert all(command in unread for command in own), f"lane {lane}'s records aren't some of its postings, in order"
    book = rules.Book()
    for command in commands_in(after, "the file afterwards"):
        decided = book.decide(command)
        assert not isinstance(decided, rules.Refusal), f"the rules refuse record {len(book.commands) + 1}: {command}"
        book.post(command)
    return sum(len(own) for *_, own in of_lanes)
