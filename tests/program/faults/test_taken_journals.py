"""Takes the journal of a run away while strace delays a call: removes it, renames it, replaces it by another file, or cuts it.

From then on no line may be answered `accepted`, and the status is 8. What was accepted before is in the file that was taken away;
a file that took its place isn't changed. If the journal's name is a symbolic link, this holds for the file to which it leads, and
the folder of that file is synced.
"""
import os
import re
import subprocess
import time
from collections.abc import Callable
from concurrent.futures import ThreadPoolExecutor
from pathlib import Path

import pytest

from life_tools.journal.file import RECORD_SIZE, file_of, read_journal
from tests.program.faults.judge import commands_in, demand_file, follow
from tests.program.faults.scenes import ONE_CLERK, book_before
from tests.program.runs import JOURNAL, Desk, Ended, case, strace
from tests.support.program import Program

pytestmark = [pytest.mark.alone, pytest.mark.timeout(1500), pytest.mark.needs("strace")]
AT_ONCE = 4
# The calls on the journal that are delayed: the first sync and the check of the file's name after it; for the second posting the
# check before it, both syncs and the check after the second one; and the last sync of all and the check after it. The opening
# makes one sync and checks the name four times; a posting makes two syncs, and checks the name before its first write and after
# its last sync.
DELAYED = [("fsync", 1), ("statx", 3), ("statx", 7), ("fsync", 4), ("fsync", 5), ("statx", 8), ("fsync", 9), ("statx", 12)]
OTHER = file_of(book_before().commands[:3])


def replace(desk: Desk) -> None:
    os.rename(desk.write("new.life", OTHER), desk.journal)


DEEDS: dict[str, Callable[[Desk], object]] = {
    "remove": lambda desk: desk.journal.unlink(),
    "rename": lambda desk: os.rename(desk.journal, desk.path / "old.life"),
    "replace": replace,
    "cut": lambda desk: os.truncate(desk.journal, desk.journal.stat().st_size - RECORD_SIZE),
}


def delayed(desk: Desk, kind: str, k: int) -> subprocess.Popen[bytes]:
    """Starts a run of which one call is delayed, and waits until the file hasn't changed for a while. A preview is slow."""
    microseconds, still = (3_000_000, 0.6) if desk.program.is_proved else (6_000_000, 1.0)
    run = desk.start(["run"], strace(desk, "-P", desk.journal, "-P", JOURNAL, "-e", f"trace={kind}", "-e",
                                     f"inject={kind}:delay_enter={microseconds}:when={k}"))
    last, since = None, time.monotonic()
    while run.poll() is None and time.monotonic() - since < still:
        try:
            found = os.stat(desk.journal)
            now = (found.st_size, found.st_mtime_ns, (desk.path / "log").stat().st_size)
        except FileNotFoundError:
            now = None
        if now != last:
            last, since = now, time.monotonic()
        time.sleep(0.01)
    assert run.poll() is None, "the program had ended before"
    return run


def judge(desk: Desk, ended: Ended, kept: bytes, was_cut: bool) -> None:
    """Asserts that nothing is accepted after the first fault and that what was accepted is kept."""
    assert ended.status == 8, f"status {ended.status}, wanted 8; printed {ended.text[:200]!r}"
    if ended.text == "diskfault\n":
        return
    run = follow(desk, ended.text)
    assert run.faults > 0, f"no line is answered fault: {ended.text[:200]!r}"
    assert ",accepted," not in ended.text[ended.text.index(",fault"):], f"accepted after a fault: {ended.text[:200]!r}"
    if was_cut:
        # a file that is cut after a commit byte of 1 is refused from there on
        found = read_journal(kept).commands
        assert found == run.book.commands[:len(found)], "a record of the cut file is another"
    else:
        demand_file(kept, run.book.commands, run.in_doubt)


def try_one(program: Program, folder: Path, deed: str, kind: str, k: int) -> None:
    desk = Desk(program, folder)
    desk.lay(file_of(book_before().commands), ONE_CLERK)
    with case(f"{deed} while {kind} {k} is delayed"):
        run = delayed(desk, kind, k)
        with open(desk.journal, "rb") as taken:
            DEEDS[deed](desk)
            ended = desk.ended(run)
            kept = taken.read()
        judge(desk, ended, kept, deed == "cut")
        assert deed != "replace" or ended.after == OTHER, "the file in its place was touched"


@pytest.mark.needs_proof
@pytest.mark.parametrize("deed", DEEDS)
def test_a_journal_is_taken_away(deed: str, program: Program, quick: Path) -> None:
    with ThreadPoolExecutor(AT_ONCE) as pool:
        list(pool.map(lambda call: try_one(program, quick / f"{call[0]}-{call[1]}", deed, *call), DELAYED))


@pytest.mark.parametrize("deed, kind, k", [("cut", "fsync", 4), ("rename", "fsync", 5)])
def test_a_journal_is_taken_away_at_one_call(deed: str, kind: str, k: int, program: Program, quick: Path) -> None:
    try_one(program, quick / "one", deed, kind, k)


def test_a_symbolic_link_is_followed(program: Program, quick: Path) -> None:
    """If the journal is a symbolic link into another folder, that folder is synced and the file there is the journal."""
    desk = Desk(program, quick / "link")
    desk.lay(b"", ONE_CLERK)
    (desk.path / "far").mkdir()
    far = desk.path / "far" / "kept.life"
    desk.journal.symlink_to(Path("far", "kept.life"))
    ended = desk.run(["run"], strace(desk, "-y", "-e", "trace=fsync"))
    synced = set(re.findall(r"fsync\(\d+<([^>]*)>", "\n".join(desk.lines_of("log"))))
    assert ended.status == 0, f"over a symbolic link: status {ended.status}: {ended.text[:200]!r}"
    assert synced == {str(far.parent), str(far)}, f"over a symbolic link: synced {sorted(synced)}"
    assert len(commands_in(far.read_bytes(), "the far file")) == 4, "the far file isn't the journal"
    desk.write("script.csv", "1,premium,101,2020-12-01,400.00\n")
    run = delayed(desk, "fsync", 2)
    far.unlink()
    ended = desk.ended(run)
    assert ended.status == 8 and ",fault\n" in ended.text, f"the far file was removed: {ended.status}, {ended.text[:200]!r}"
