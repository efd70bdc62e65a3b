"""Stops the program: by signals at random moments of runs and of openings, and by an output that is closed before the text ends.

In half of the runs the journal lies on a real disk, where syncs take most of the time; in the others it lies in memory.
tests/program/test_kills.py kills runs that have no valuations; here two valuations run.
"""
import random
import signal
import subprocess
import time
from pathlib import Path

import pytest

from life_tools.journal.file import file_of
from tests.program.faults.judge import judge_prefix, judge_transcript, judge_unanswered
from tests.program.faults.scenes import eight_clerks, many_policies
from tests.program.runs import Desk, Ended, case
from tests.support.program import Program

pytestmark = [pytest.mark.alone, pytest.mark.timeout(1500), pytest.mark.needs_proof]
SIGNALS = [signal.SIGTERM, signal.SIGINT, signal.SIGKILL]
BEFORE, EACH, LARGE = 150, 12, 20000
# commands that open a journal and may not change it
OPENING = [words.split() for words in (
    "state", "checkpoint", "state 7", "value 2021-01-01", "value 2021-01-01 --mean", "value --deficiency 2021-01-01",
    "project 2021-01-01 40", "run")]
TEXTS = {"value 2021-01-01": "0,value,2021-01-01,4000,4000\n", "state": "policy,1,",
         "value 2021-01-01 --mean": "0,value,2021-01-01,4000,4000,mean\n",
         "value 2021-01-01 --deficiency": "0,value,2021-01-01,4000,4000,deficiency\n"}


@pytest.fixture(params=["disk", "memory"])
def place(request: pytest.FixtureRequest, tmp_path: Path, quick: Path) -> Path:
    return tmp_path if request.param == "disk" else quick


def timed(desk: Desk, words: list[str]) -> tuple[float, Ended]:
    start = time.perf_counter()
    ended = desk.run(words)
    return time.perf_counter() - start, ended


def stopped(desk: Desk, words: list[str], delay: float, number: int) -> Ended:
    run = desk.start(words)
    time.sleep(delay)
    run.send_signal(number)
    ended = desk.ended(run)
    assert ended.status in (0, -number), f"status {ended.status} after signal {number}: {ended.complaints[:200]}"
    return ended


def test_runs_of_eight_lanes_are_stopped(place: Path, program: Program) -> None:
    desk, draw = Desk(program, place / "stopped"), random.Random("runs")
    before, script = file_of(many_policies(BEFORE).commands), eight_clerks(EACH, BEFORE)
    desk.lay(before, script)
    span, ended = timed(desk, ["run"])
    judge_transcript(desk, ended)
    for number in range(12):
        desk.lay(before, script)
        with case(f"stop {number} in {desk.path}"):
            ended = stopped(desk, ["run"], draw.uniform(0, span), draw.choice(SIGNALS))
            if ended.status == 0:
                judge_transcript(desk, ended)
            else:
                judge_unanswered(desk, ended.after, False)
                judge_prefix(desk, ended)
            desk.judge_reopening()


def test_openings_are_stopped(place: Path, program: Program) -> None:
    """Not a byte of a large journal changes if its opening is stopped."""
    desk, draw = Desk(program, place / "opened"), random.Random("openings")
    desk.lay(file_of(many_policies(LARGE).commands))
    span, right = timed(desk, ["state"])
    assert right.status == 0 and right.text.endswith(f"count,{LARGE}\n"), "the large journal doesn't open"
    for number in range(6):
        words = draw.choice(OPENING)
        with case(f"stop {number} of {words} in {desk.path}"):
            ended = stopped(desk, words, draw.uniform(0, span), draw.choice(SIGNALS))
            assert ended.after == desk.before, "the file was changed"


@pytest.fixture
def large(program: Program, quick: Path) -> Desk:
    """A book whose texts no pipe can hold."""
    desk = Desk(program, quick / "large")
    desk.lay(file_of(many_policies(4000).commands), eight_clerks(EACH, 4000))
    return desk


def read_a_line(desk: Desk, words: list[str]) -> tuple[int, str]:
    """Runs the program into a pipe of which one line is read, as `head -n 1` does; returns its status and that line."""
    run = desk.start(words, out=subprocess.PIPE)
    assert run.stdout
    line = run.stdout.readline()
    run.stdout.close()
    ended = desk.ended(run)
    assert not ended.complaints, f"on standard error: {ended.complaints[:200]!r}"
    return ended.status, line.decode("ascii", "replace")


def test_a_reader_leaves_after_one_line(large: Desk) -> None:
    """The status is 7, and the postings are kept."""
    status, line = read_a_line(large, ["run"])
    assert (status, line.split(",")[1]) in ((7, "issue"), (7, "value"))
    judge_unanswered(large, large.bytes_of(), True)
    large.judge_reopening()


@pytest.mark.parametrize("words", TEXTS)
def test_a_reader_of_a_text_leaves_after_one_line(words: str, large: Desk) -> None:
    status, line = read_a_line(large, words.split())
    assert status == 7 and line.startswith(TEXTS[words])
    assert large.bytes_of() == large.before


def pause(run: subprocess.Popen[bytes]) -> None:
    """Stops and continues the program, once it has had time to wait for something."""
    for number in (signal.SIGSTOP, signal.SIGCONT):
        time.sleep(0.1)
        run.send_signal(number)


def test_a_pause_changes_nothing(large: Desk) -> None:
    """The program is stopped and continued while it waits for the rest of its input and for space in its output."""
    run = large.start(["run"], out=subprocess.PIPE, given=subprocess.PIPE)
    assert run.stdin and run.stdout
    run.stdin.write(large.script[:1000])
    pause(run)
    run.stdin.write(large.script[1000:])
    run.stdin.close()
    text = run.stdout.read(1)
    pause(run)
    judge_transcript(large, large.ended(run, text + run.stdout.read()))
