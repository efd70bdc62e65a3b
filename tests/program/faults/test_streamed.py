"""Tests that a transcript is seen while its run goes on.

Each line is printed as soon as its place is settled. A reader that stops, or that leaves, delays no posting. What a killed run
has printed is a prefix that agrees with its journal. At no moment of a run of eight lanes have more accepted lines been written
than commit bytes are safe.
"""
import os
import random
import re
import subprocess
import time
from pathlib import Path
from typing import IO

import pytest

from life_tools.journal.file import file_of
from tests.program.faults.judge import judge_prefix, judge_transcript, judge_unanswered
from tests.program.faults.scenes import eight_clerks, many_policies
from tests.program.runs import Desk, strace
from tests.support.program import Program

pytestmark = [pytest.mark.alone, pytest.mark.timeout(1500)]
LINES, BEFORE, EACH, MANY = 20000, 150, 60, 500


@pytest.fixture
def desk(program: Program, quick: Path) -> Desk:
    return Desk(program, quick / "streamed")


def lay(desk: Desk, each: int) -> None:
    """Lays out a book and a script of eight lanes, each with so many new policies."""
    desk.lay(file_of(many_policies(BEFORE).commands), eight_clerks(each, BEFORE))


def piped(desk: Desk) -> tuple[subprocess.Popen[bytes], IO[bytes]]:
    run = desk.start(["run"], out=subprocess.PIPE)
    assert run.stdout
    return run, run.stdout


def rest_of(out: IO[bytes]) -> bytes:
    return b"".join(iter(lambda: out.read(65536), b""))


def test_a_first_line_is_read_while_most_postings_are_yet_to_be_made(desk: Desk) -> None:
    desk.lay(b"", b"".join(b"1,issue,%d,2020-01-01,endowment,0,3,1000.00,400.00\n" % n for n in range(1, LINES + 1)))
    run, out = piped(desk)
    text = out.read(65536)
    posted = (len(desk.bytes_of()) - 18) // 65
    text += rest_of(out)
    assert run.wait(60) == 0 and text.count(b",accepted,") == LINES
    assert posted < LINES / 2


def test_all_postings_are_made_while_a_reader_has_stopped(desk: Desk) -> None:
    """The reader stops after the first byte of more text than a pipe holds; the text is right once it reads the rest."""
    lay(desk, MANY)
    run, out = piped(desk)
    text, end = out.read(1), time.monotonic() + 60
    while desk.journal.stat().st_size < len(desk.before) + 65 * 16 * MANY and time.monotonic() < end:
        time.sleep(0.05)
    assert run.poll() is None, "it ended before its text was read"
    judge_unanswered(desk, desk.bytes_of(), True)
    judge_transcript(desk, desk.ended(run, text + rest_of(out)))


def test_all_postings_are_made_though_a_reader_leaves(desk: Desk) -> None:
    lay(desk, MANY)
    run, out = piped(desk)
    out.read(1)
    out.close()
    assert run.wait(60) == 7
    judge_unanswered(desk, desk.bytes_of(), True)


def test_what_a_killed_run_printed_agrees_with_its_journal(desk: Desk) -> None:
    """KILLS is the number of runs that are killed."""
    kills, printed = int(os.environ.get("KILLS") or ("100" if desk.program.is_proved else "10")), 0
    draw = random.Random("streamed 1")
    lay(desk, EACH)
    begun = time.perf_counter()
    desk.run(["run"])
    span = time.perf_counter() - begun
    for number in range(kills):
        lay(desk, EACH)
        run = desk.start(["run"])
        # at a drawn time, or once a drawn number of records is begun, which doesn't depend on how busy the machine is
        if number % 2:
            time.sleep(draw.uniform(0, span))
        else:
            size = 18 + 65 * (BEFORE + draw.randrange(1, 16 * EACH))
            while run.poll() is None and desk.journal.stat().st_size < size:
                time.sleep(0.0002)
        run.kill()
        ended = desk.ended(run)
        judge_unanswered(desk, ended.after, False)
        judge_prefix(desk, ended)
        printed += ended.status < 0 and bool(ended.text)
    assert printed * 8 >= kills, f"of {kills} killed runs {printed} had printed a line"


@pytest.mark.needs("strace")
def test_no_line_is_written_before_its_record_is_safe(desk: Desk) -> None:
    lay(desk, EACH)
    ended = desk.run(["run"], strace(desk, "-y", "-s", "70000", "-e", "trace=pwrite64,write,fsync"))
    assert ended.status == 0, f"under strace it ends with {ended.status}"
    shown = safe = 0
    # by thread: whether it has written a commit byte that isn't synced, and whether it is syncing one
    written, syncing = dict[str, bool](), dict[str, bool]()
    for line in desk.lines_of("log"):
        thread, call = line.rstrip("\n").split(None, 1)
        if call.startswith("write(1"):
            shown += call.count(",accepted,")
            assert shown <= safe, f"{shown} accepted lines are written, and {safe} commit bytes are safe"
        elif call.startswith("pwrite64(") and re.search(r'"\\1", 1, \d\d+', call):
            written[thread] = True
        elif call.startswith("fsync(") and "unfinished" in call:
            syncing[thread] = written.pop(thread, False)
        elif call.startswith("fsync("):
            safe += written.pop(thread, False)
        elif call.startswith("<... fsync resumed>"):
            safe += syncing.pop(thread, False)
    assert shown == ended.text.count(",accepted,") and shown, f"{shown} accepted lines were seen"
