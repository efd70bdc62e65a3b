"""Tests runs after a sync that failed: what they print must be on the medium, whatever the system kept in memory.

Linux marks pages as clean even if writing them failed. So the sync of the next run succeeds without a write, and what that run
reads could come from such a page. Each case makes a medium whose writes fail at the commit byte of a posting, or at the byte that
closes a checkpoint, and compares what each later run prints with a copy of the medium that is mounted elsewhere.
"""
import os
import re
import subprocess
from pathlib import Path
from typing import Iterator, NamedTuple

import pytest

from life_tools.common.formats import day_in
from life_tools.journal.file import file_of
from life_tools.rules.commands import Command
from tests.support.failing_medium import SYSTEMS, Medium, Mounts, StoppedRun
from tests.support.folders import Folder
from tests.support.program import ROOT, Program

pytestmark = [pytest.mark.root, pytest.mark.needs("strace", "losetup", "unshare", "nsenter", "chattr")]

# The commit byte of the next record is the last byte of a page, so that nothing else of that page changes:
# 17 + 65 * 1134 = 18 * PAGE - 1
RECORDS = 1134
PAGE = 4096
# so many records that a middle is left between the ends that are dropped at the opening
LONG = 100_000
DAY = day_in("2020-01-01")
FIRST = 2001
LASTS, PASSES, KILLED, HEARD = COURSES = (
    "the failure lasts", "the failure passes", "killed before the sync", "killed, and another program hears of it")
LATER = (["state", str(FIRST)], ["state"], ["state", str(FIRST)], ["run"], ["state", str(FIRST)], ["run"], ["state"], ["run"])


class Answer(NamedTuple):
    """The arguments of a later run, its status, its output, and the medium after it."""

    words: list[str]
    status: int
    out: str
    medium: Path


def read_from_disk(folder: Path, *words: str) -> None:
    """Does what the launcher and the installed `life` do before they run the program with these arguments."""
    part = 'called=life; . "$0/messages.sh"; . "$0/book.sh"; read_from_disk "$@"'
    subprocess.run(["sh", "-c", part, str(ROOT / "tools" / "launcher"), *words], cwd=folder, check=True)


def issues(count: int, premium: int = 2000) -> list[Command]:
    return [Command("issue", number, DAY, plan="whole", age=30, years=0, amount=100000, premium=premium)
            for number in range(1, count + 1)]


def premiums(count: int) -> list[Command]:
    return [Command("premium", number, DAY, amount=2000) for number in range(1, count + 1)]


def issue(number: int) -> str:
    return f"1,issue,{number},2020-01-01,whole,30,0,1000.00,20.00\n"


@pytest.fixture
def medium(tmp_path: Path, request: pytest.FixtureRequest) -> Iterator[Medium]:
    with Mounts(tmp_path) as mounts:
        yield Medium(mounts, request.param)


def on_each() -> pytest.MarkDecorator:
    return pytest.mark.parametrize("medium", SYSTEMS, ids=[system.name for system in SYSTEMS], indirect=True)


def stopped(program: Program, medium: Medium, folder: Path, words: list[str], script: str, n: int) -> StoppedRun:
    (folder / "script").write_text(script)
    (folder / "calls").unlink(missing_ok=True)
    return StoppedRun([*program.words, *words], medium.files, folder / "calls", folder / "script", n)


def fail_at_the_commit_byte(program: Program, medium: Medium, folder: Path, course: str) -> None:
    """Makes the medium fail after a posting's commit byte is written and before it is synced. The system reports a failure
    only once: if another program syncs the file first, no later run learns of the failure."""
    run = stopped(program, medium, folder, ["run"], issue(FIRST), 2)
    medium.fail()
    if course == KILLED:
        run.kill()
        assert not medium.write_back(), "the medium didn't fail"
    elif course == HEARD:
        run.kill()
        with pytest.raises(OSError), open(medium.files / "journal.life", "rb") as file:
            os.fsync(file.fileno())
    else:
        status, out = run.go_on()
        assert (status, out.splitlines()[0]) == (8, f"1,issue,{FIRST},fault")
    if course != LASTS:
        medium.heal()


def answers(medium: Medium, book: Folder) -> list[Answer]:
    found = []
    for n, words in enumerate(LATER):
        read_from_disk(medium.files, *words)
        ran = book.life(*words, given=issue(FIRST + 1 + n) if words == ["run"] else "")
        found.append(Answer(words, ran.status, ran.out, medium.copy()))
    return found


def is_on_medium(answer: Answer, there: Folder) -> bool:
    """Returns whether the journal on the medium agrees with what a run printed; a run that reports a failed disk says nothing
    about it."""
    if answer.words == ["run"]:
        accepted = re.findall(r"^1,issue,(\d+),accepted,", answer.out, re.M)
        return all(re.search(rf"^policy,{number},", there.life("state", number).out, re.M) for number in accepted)
    return answer.status == 8 or there.life(*answer.words).out == answer.out


@on_each()
@pytest.mark.parametrize("course", COURSES)
def test_later_runs_answer_what_the_medium_has(medium: Medium, course: str, program: Program, tmp_path: Path) -> None:
    book = Folder(medium.files, program)
    book.write("journal.life", file_of(issues(RECORDS)))
    assert book.life("state").status == 0 and medium.write_back()
    fail_at_the_commit_byte(program, medium, tmp_path, course)
    later = answers(medium, book)
    medium.unmount()
    for place, answer in enumerate(later):
        with medium.files_on(answer.medium) as files:
            there = Folder(files, program)
            if place == 0:
                assert there.life("state", str(FIRST)).out == f"unknown,{FIRST}\n", "the medium didn't fail"
            last = answer.out.splitlines()[-1:]
            assert is_on_medium(answer, there), f"run {place + 1} after it, {answer.words}, isn't so on the medium: {last}"
    if course == PASSES:
        assert [answer.status for answer in later[1:]] == [0] * (len(later) - 1), "no later run goes on"


@on_each()
@pytest.mark.parametrize("writes", [1, 2, 3])
def test_a_checkpoint_isnt_overwritten_while_it_counts(medium: Medium, writes: int, program: Program, tmp_path: Path) -> None:
    """The byte that closes a checkpoint didn't reach the medium. The next `checkpoint` ends after each of its writes in turn,
    and all pages except the first reach the medium. `state` must then print what it prints from the journal alone."""
    book = Folder(medium.files, program)
    book.write("journal.life", file_of(issues(400)))
    assert book.life("checkpoint").status == 0
    book.write("journal.life", file_of([*issues(400), *premiums(400)]))
    assert medium.write_back()
    run = stopped(program, medium, tmp_path, ["checkpoint"], "", 1)
    medium.fail()
    assert run.go_on() == (8, "diskfault\n")
    medium.heal()
    read_from_disk(medium.files, "checkpoint")
    stopped(program, medium, tmp_path, ["checkpoint"], "", writes).kill()
    medium.write_back_from("checkpoint.life", PAGE)
    copy = medium.copy()
    medium.unmount()
    with medium.files_on(copy) as files:
        there = Folder(files, program)
        by_checkpoint = there.life("state")
        (files / "checkpoint.life").unlink()
        assert by_checkpoint == there.life("state")


@pytest.mark.slow
@pytest.mark.parametrize("medium", SYSTEMS[:1], ids=[SYSTEMS[0].name], indirect=True)
def test_the_middle_of_a_file_overwritten_in_place_is_read_from_the_medium(medium: Medium, program: Program) -> None:
    """A journal is copied over another one in place, but nothing of it reaches the medium. The next run prints what is on the
    medium."""
    book = Folder(medium.files, program)
    before, after = file_of(issues(LONG)), file_of(issues(LONG, premium=2500))
    book.write("journal.life", before)
    assert medium.write_back()
    medium.fail()
    with open(book.journal, "r+b") as file:
        file.write(after)
    assert not medium.write_back(), "the medium didn't fail"
    medium.heal()
    read_from_disk(medium.files, "state")
    found = book.life("state")
    copy = medium.copy()
    medium.unmount()
    with medium.files_on(copy) as files:
        assert (files / "journal.life").read_bytes() == before, "the medium didn't fail"
    policies = [line for line in found.out.splitlines() if line.startswith("policy,")]
    assert (found.status, len(policies)) == (0, LONG)
    assert [line for line in policies if ",1000.00,20.00," not in line][:3] == []
