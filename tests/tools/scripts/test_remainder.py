"""Tests `rest`, which gives the rows that a run which ended early didn't reach, each once.

A model of an office runs a script up to some turn, and leaves what a kill leaves: the script, the journal, and perhaps a prefix
of the transcript. The program itself is killed at some moment, too.
"""
import datetime
import signal
import subprocess
import time
from random import Random
from typing import Iterator

import pytest
from hypothesis import given, settings
from hypothesis import strategies as st

from life_tools.common.formats import Wrong
from life_tools.journal.file import file_of
from life_tools.rules.commands import Command, words_of
from life_tools.scripts.cut_transcripts import read_prefix
from life_tools.scripts.lines import Line, lanes_of, lines_in
from life_tools.scripts.remainder import History, NoRun, demand_records, rest_of
from tests.rules.policies import Book, Policy, Refusal, Upgraded
from tests.strategies import scripts
from tests.support.folders import Folder

# by lane: how many of its rows were answered, in all or up to the last accepted one
Counts = dict[int, int]


def answer_text(line: Line, book: Book, after: Policy | Refusal | Upgraded) -> str:
    """Returns the answer to a row as the program prints it; here no valuation has policies."""
    count = len(book.commands)
    if line.kind == "trim":
        words = [str(count)]
    elif line.kind == "value" and (line.position or 0) > count:
        words = ["refused", "ahead", str(count)]
    elif line.kind == "value":
        return ",".join([*line.head, str(count if line.position is None else line.position), "0"]) + "\ntotal,0.00,0.00,0\n"
    else:
        words = ["refused", *after.words()] if isinstance(after, Refusal) else ["accepted", str(count + 1)]
    return ",".join([*line.head, *words]) + "\n"


def run_up_to(draw: Random, lines: list[Line], book: Book, turns: int) -> tuple[Counts, list[tuple[int, str]]]:
    """Runs this number of turns, each of a drawn lane. Returns for each lane the rows up to its last accepted one, and the
    transcript."""
    left, told = lanes_of(lines), []
    answered, shown = dict.fromkeys(left, 0), dict.fromkeys(left, 0)
    for _ in range(turns):
        lane = draw.choice([lane for lane in left if answered[lane] < len(left[lane])])
        line = left[lane][answered[lane]]
        answered[lane] += 1
        after = book.decide(line.command) if line.command else Refusal("none")
        told.append((lane, answer_text(line, book, after)))
        if not isinstance(after, Refusal):
            book.take(line.posted, after)
            shown[lane] = answered[lane]
    return shown, told


def cut(draw: Random, told: list[tuple[int, str]]) -> tuple[str, Counts]:
    """Returns a transcript that is cut anywhere, and how many answers of each lane are complete in it."""
    whole = draw.randrange(len(told) + 1)
    part = told[whole][1][:draw.randrange(len(told[whole][1]))] if whole < len(told) else ""
    counts: Counts = {}
    for lane, _ in told[:whole]:
        counts[lane] = counts.get(lane, 0) + 1
    return "".join(text for _, text in told[:whole]) + part, counts


def has_equal(lines: list[Line]) -> bool:
    commands = [line.command for line in lines if line.command]
    return len(commands) != len(set(commands))


def judge_rest(lines: list[Line], rest: dict[int, list[Line]], shown: Counts) -> None:
    """Asserts that for each lane the rows after its last accepted one are left. Equal rows of one lane may be mistaken for
    each other."""
    for lane, rows in lanes_of(lines).items():
        assert len(rest[lane]) <= len(rows) - shown.get(lane, 0), f"too much is left of lane {lane}"
        assert rows[shown.get(lane, 0):] == rest[lane] or has_equal(rows), f"too little is left of lane {lane}"


def without_equal_lanes(script: str) -> list[Line]:
    """Returns the rows of a script without postings that another lane has, too."""
    rows, lane_of = list[str](), dict[str, str]()
    for row in script.splitlines():
        lane, words = row.split(",", 1)
        if words == "trim" or words.startswith("value") or lane_of.setdefault(words, lane) == lane:
            rows.append(row)
    return lines_in("\n".join(rows).encode())


@given(scripts(), st.randoms(use_true_random=False))
def test_what_is_left_of_a_drawn_script(script: str, draw: Random) -> None:
    lines, book = without_equal_lanes(script), Book()
    shown, told = run_up_to(draw, lines, book, draw.randrange(len(lines) + 1))
    history = History(0, book.commands)
    judge_rest(lines, rest_of(lines, history), shown)
    prefix, counts = cut(draw, told)
    printed = read_prefix(prefix, lines)
    assert printed.begun in (None, 0) and printed.answered == counts
    demand_records(printed, history)
    reached = {lane: max(shown.get(lane, 0), counts.get(lane, 0)) for lane in lanes_of(lines)}
    judge_rest(lines, rest_of(lines, history, printed), reached)


def can_leave(lanes: dict[int, list[Line]], at: Counts, book: Book, commands: list[Command],
              seen: set[tuple[int, tuple[int, ...]]]) -> bool:
    """Returns whether a run of exactly these rows can leave these commands, with some order of the lanes' turns."""
    key = (len(book.commands), tuple(at.values()))
    if key in seen:
        return False
    seen.add(key)
    if all(at[lane] == len(rows) for lane, rows in lanes.items()):
        return book.commands == commands
    return any(can_leave(lanes, {**at, lane: at[lane] + 1}, further, commands, seen)
               for lane, further in turns(lanes, at, book, commands))


def turns(lanes: dict[int, list[Line]], at: Counts, book: Book, commands: list[Command]) -> Iterator[tuple[int, Book]]:
    """Yields each lane whose next row may be answered now, with the book after it."""
    for lane, rows in lanes.items():
        if at[lane] == len(rows):
            continue
        line, further = rows[at[lane]], Book(book.commands)
        after = book.decide(line.command) if line.command else Refusal("none")
        if isinstance(after, Refusal):
            yield lane, further
        elif len(book.commands) < len(commands) and commands[len(book.commands)] == line.command:
            further.take(line.command, after)
            yield lane, further


OPENING = [line.posted for line in lines_in(b"1,issue,1,2020-01-01,whole,30,0,60.00,1.00\n1,claim,1,2020-02-01\n"
                                            b"1,issue,2,2020-01-01,whole,30,0,10.00,1.00\n")]
SETTLEMENTS = st.sampled_from(("settle,1,2020-03-01,10.00", "settle,1,2020-03-01,20.00", "premium,2,2020-01-01,1.00",
                               "claim,2,2020-02-01", "settle,2,2020-03-01,5.00", "trim", "value,2020-04-01,now,1"))


@settings(max_examples=150)
@given(st.lists(st.tuples(st.integers(1, 3), SETTLEMENTS), min_size=2, max_size=11), st.randoms(use_true_random=False))
def test_what_is_left_of_equal_rows_is_what_some_run_leaves(rows: list[tuple[int, str]], draw: Random) -> None:
    lines, book = lines_in("\n".join(f"{lane},{words}" for lane, words in rows).encode()), Book(OPENING)
    _, told = run_up_to(draw, lines, book, draw.randrange(len(lines) + 1))
    prefix, counts = cut(draw, told)
    for text in ("", prefix):
        printed, history = read_prefix(text, lines), History(len(OPENING), book.commands)
        assert printed.begun in (None, len(OPENING))
        demand_records(printed, history)
        rest = rest_of(lines, history, printed)
        lanes = {lane: rows_of[:len(rows_of) - len(rest[lane])] for lane, rows_of in lanes_of(lines).items()}
        assert can_leave(lanes, dict.fromkeys(lanes, 0), Book(OPENING), book.commands, set()), map(words_of, book.commands)
    assert all(len(rest[lane]) <= len(rows_of) - counts.get(lane, 0) for lane, rows_of in lanes_of(lines).items())


PAIR = lines_in(b"1,settle,1,2020-03-01,10.00\n2,settle,1,2020-03-01,10.00\n")
CLAIMED = OPENING[:2]
PAID, OTHER = PAIR[0].posted, lines_in(b"1,settle,1,2020-03-01,10.01\n")[0].posted


@pytest.mark.parametrize("records", [[PAID] * 3, [OTHER]], ids=["one more than its rows", "another amount"])
def test_a_journal_that_no_run_of_the_script_leaves(records: list[Command]) -> None:
    with pytest.raises(Wrong):
        rest_of(PAIR, History(len(CLAIMED), [*CLAIMED, *records]))


def test_an_accepted_row_that_the_journal_lacks() -> None:
    with pytest.raises(NoRun):
        demand_records(read_prefix("1,settle,1,accepted,3\n", PAIR), History(len(CLAIMED), CLAIMED))


@pytest.mark.parametrize("commands", [CLAIMED, [*CLAIMED, PAID]], ids=["not posted", "posted"])
def test_rows_that_ended_in_a_fault_were_reached(commands: list[Command]) -> None:
    printed = read_prefix("1,settle,1,fault\n2,settle,1,nomemory\n", PAIR)
    assert printed.begun is None and [word for word, _ in printed.unposted] == ["fault", "nomemory"]
    assert not any(rest_of(PAIR, History(len(CLAIMED), commands), printed).values())


@pytest.mark.parametrize("text", ["1,settle,1,accepted,3\n1,settle,1,accepted,4\n", "1,settle,2,accepted,3\n",
                                  "row,1,inforce,0,0.00,0.00\n", "1,settle,1,accepted,3\n2,settle,1,accepted,5\n"])
def test_the_transcript_of_another_script(text: str) -> None:
    with pytest.raises(Wrong):
        read_prefix(text, PAIR)


def killed_run(folder: Folder, script: str, size: int) -> str:
    """Runs a script, kills the run once the journal is larger than this number of bytes, and returns what it printed."""
    with open(folder.write("script", script), "rb") as given, open(folder.path / "killed", "wb") as out:
        with subprocess.Popen([str(folder.program.path), "run"], cwd=folder.path, stdin=given, stdout=out) as run:
            while run.poll() is None and not (folder.journal.exists() and folder.journal.stat().st_size > size):
                time.sleep(0.005)
            run.send_signal(signal.SIGKILL)
        assert run.returncode == -signal.SIGKILL, "the run ended before it was killed"
    return folder.read("killed")


def test_the_rest_of_a_killed_run_is_posted(folder: Folder) -> None:
    killed = killed_run(folder, "".join(f"{lane},issue,{lane}{number:02},2020-01-01,endowment,0,3,1000.00,400.00\n"
                                        for lane in range(1, 9) for number in range(90)), 9000)
    rest = folder.printed("rest", "script", "journal.life", "0")
    # if the output shows a position, it also shows where the run began
    begun = [] if ",accepted," in killed else ["0"]
    assert folder.printed("rest", "script", "journal.life", *begun, "--printed", "killed") == rest
    folder.refused("rest", "script", "journal.life", says="BEFORE is needed")
    folder.write("nothing", "")
    folder.refused("rest", "script", "journal.life", "--printed", "nothing", says="BEFORE is needed")
    assert folder.count() + len(rest.splitlines()) == 720
    assert folder.post(rest).count(",accepted,") == len(rest.splitlines())
    folder.write("rest", rest)
    folder.finds("rest", "rest", "journal.life", "0", says="no run of this script leaves this journal")
    folder.refused("rest", "script", "journal.life", "721", says="before the run there were 721")


def rows_of_policy(number: int) -> Iterator[str]:
    """Yields an issue and the rows that follow it in other lanes; no two rows are equal."""
    yield f"{number % 8 + 1},issue,{number},2020-01-01,endowment,0,3,1000.00,400.00"
    if number > 40:
        yield f"{(number + 3) % 8 + 1},premium,{number - 40},2020-01-02,400.00"
    if number > 80:
        yield f"{(number + 5) % 8 + 1},alter,{number - 80},2020-01-03,900.00,300.00"
    if number > 120:
        yield f"{(number + 6) % 8 + 1},premium,{number - 120},2020-11-01,300.00"


def test_the_rest_of_a_long_killed_run(folder: Folder) -> None:
    """No two rows are equal, so the rest of each lane begins after its last row that is in the journal."""
    policies = 50000 if folder.program.is_proved else 2000
    rows = [row for number in range(1, policies + 1) for row in rows_of_policy(number)]
    killed_run(folder, "\n".join(rows) + "\n", policies * 50)
    # after the last record there may be part of another one, as after any crash, which `read` reports by its status
    posted = {line.split(",", 1)[1] for line in folder.tools("read", "journal.life").out.splitlines() if line[0].isdigit()}
    last = {row.split(",", 1)[0]: place for place, row in enumerate(rows) if row.split(",", 1)[1] in posted}
    wanted = [row for place, row in enumerate(rows) if place > last.get(row.split(",", 1)[0], -1)]
    assert wanted and len(posted) > policies // 3
    assert folder.printed("rest", "script", "journal.life", "0").splitlines() == wanted


POLICIES = 100_000
# limit for the time of `rest` compared with reading the book in the same test; by objects it takes fifteen times as long
MOST_TIMES = 6


@pytest.mark.alone
def test_the_rest_takes_little_longer_than_to_read_the_book(folder: Folder) -> None:
    day = datetime.date(2020, 1, 1)
    issues = [Command("issue", number, day, "endowment", 30, 20, 100000, 4000) for number in range(1, POLICIES + 1)]
    folder.write("journal.life", file_of([*issues, *(Command("premium", it.number, day, amount=4000) for it in issues)]))
    last = "".join(f"1,premium,{number},2020-01-01,40.00\n" for number in range(POLICIES - 999, POLICIES + 1))
    more = "1,premium,1,2030-01-01,40.00\n"
    folder.write("script.csv", last + more)
    begun = time.monotonic()
    assert folder.printed("read", "--verify", "journal.life").endswith(f"count,{2 * POLICIES}\n")
    reading = time.monotonic() - begun
    begun = time.monotonic()
    assert folder.printed("rest", "script.csv", "journal.life", str(2 * POLICIES - 1000)) == more
    assert time.monotonic() - begun < MOST_TIMES * reading + 0.5
