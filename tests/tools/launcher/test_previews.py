"""Tests previews: one is built once, runs on copies, and is never taken for the proved program; a preview that is stopped
leaves nothing half done. Also tests what the launcher says on a terminal while a long script runs."""
import os
import re
import shutil
import subprocess
import time
from pathlib import Path
from typing import Callable

import pytest

from tests.support.folders import EXAMPLES, Folder
from tests.support.launchers import Begun, in_use, is_stopped, issue, on_terminal, processes_in, stopped
from tests.support.program import PREVIEW
from tests.support.tools import Ended
from tests.tools.launcher.conftest import Called, ran

# these tests depend on the clock: a preview is stopped while it runs
pytestmark = [pytest.mark.needs("rt"), pytest.mark.slow, pytest.mark.alone, pytest.mark.timeout(1500)]

FIRST, FIRST_TEXT, SECOND, SECOND_TEXT = (
    (EXAMPLES / name).read_text(encoding="utf-8")
    for name in ("first-issues.csv", "first-issues.transcript", "second-day.csv", "second-day.transcript"))
BUILDS, WAITS = "building a preview, which", "another launcher is building a preview; this one waits"


@pytest.fixture(scope="module")
def launcher(unproved_clone: Path, tmp_path_factory: pytest.TempPathFactory) -> Path:
    """The launcher of a clone in which nothing is proved, and which builds its own preview."""
    clone = tmp_path_factory.mktemp("previews") / "clone"
    shutil.copytree(unproved_clone, clone, symlinks=True)
    return clone / "life"


@pytest.fixture(scope="module")
def built(launcher: Path, tmp_path_factory: pytest.TempPathFactory) -> list[Ended]:
    """Starts two previews at the same time before one is built, and returns how they ended."""
    folders = [tmp_path_factory.mktemp("first") for _ in range(2)]
    begun = [Begun(["sh", launcher, "try", "state"], folder) for folder in folders]
    return [each.ended() for each in begun]


class Previews:
    """Runs previews in a folder, by a launcher whose preview is built."""

    def __init__(self, launcher: Path, folder: Folder) -> None:
        self.launcher, self.folder = launcher, folder
        self.rooms = launcher.parent / "out" / "preview" / "rooms"

    def words(self, *words: str) -> list[str]:
        return ["sh", str(self.launcher), "try", *words]

    def run(self, *words: str, given: str = "") -> Ended:
        return ran(self.words(*words), self.folder.path, given)

    def count(self) -> int:
        return int(self.run("state").out.splitlines()[-1].removeprefix("count,"))


@pytest.fixture
def previews(launcher: Path, built: list[Ended], folder: Folder) -> Previews:
    assert [done.status for done in built] == [0, 0], built
    return Previews(launcher, folder)


def test_a_preview_is_built_once(built: list[Ended]) -> None:
    said = "".join(done.err for done in built)
    assert [done.status for done in built] == [0, 0] and said.count(BUILDS) == 1 and said.count(WAITS) == 1, built


def test_a_preview_runs_on_a_journal_of_its_own(previews: Previews) -> None:
    done = previews.run("run", given=FIRST)
    assert (done.status, done.out) == (0, FIRST_TEXT), done
    assert len(done.err.splitlines()) == 2 and all("a preview" in line for line in done.err.splitlines()), done
    assert previews.count() == 4 and previews.run("checkpoint").out == "checkpoint,4\n"
    assert os.listdir(previews.folder.path) == [] and list(previews.rooms.rglob("preview.checkpoint"))
    done = previews.run("value", "2021-02-29")
    assert (done.status, done.out) == (2, "usage\n"), done
    # a preview isn't in the place where the proved program is looked for
    assert not list(previews.launcher.parent.rglob("life_cli/out"))
    done = ran(["sh", previews.launcher, "state"], previews.folder.path)
    assert (done.status, done.out) == (69, "") and "sh life try state" in done.err, done


def test_a_link_on_the_path_and_a_basis(previews: Previews, tmp_path: Path) -> None:
    (tmp_path / "bin").mkdir()
    (tmp_path / "bin" / "life").symlink_to(previews.launcher)
    previews.folder.take("basis.csv", "q.xml", "g.xml")
    previews.run("run", given=FIRST)
    done = ran(["life", "try", "value", "2021-01-01"], previews.folder.path, env={"PATH": f"{tmp_path}/bin:{os.environ['PATH']}"})
    assert done.status == 0 and "\nrow,7001,inforce,1,127.22,127.23\n" in done.out, done


def test_two_previews_of_a_folder(previews: Previews) -> None:
    """One preview waits for the other one. A preview that reads the other's output, more than a pipe holds, doesn't wait for
    its journal."""
    begun = [Begun(previews.words("run"), previews.folder.path, f"run{n}", given=subprocess.PIPE) for n in (8, 9)]
    for n, each in zip((8, 9), begun):
        each.type("".join(issue(100 * n + place) for place in range(4)))
    assert [each.ended().status for each in begun] == [0, 0] and previews.count() == 8
    piped = '{ sh "$0" try generate 5 2000 8 && echo no line; } | timeout 300 sh "$0" try run'
    assert ran(["sh", "-c", piped, previews.launcher], previews.folder.path).status == 3
    assert not previews.folder.journal.exists()


def test_a_preview_beside_a_real_journal(previews: Previews) -> None:
    """The preview begins with a copy, and with a new copy if the journal has changed; its checkpoint is replaced with its
    journal."""
    folder = previews.folder
    folder.post(FIRST)
    before = folder.journal.read_bytes()
    assert previews.run("run", given=SECOND).out == SECOND_TEXT and folder.journal.read_bytes() == before
    folder.post(SECOND)
    assert previews.count() == 5
    previews.run("run", given=(EXAMPLES / "short-premium.csv").read_text(encoding="utf-8"))
    previews.run("checkpoint")
    folder.life("checkpoint")
    kept = (folder.path / "checkpoint.life").read_bytes()
    folder.post((EXAMPLES / "whole-life.csv").read_text(encoding="utf-8"))
    assert previews.run("state").out == folder.life("state").out
    assert (folder.path / "checkpoint.life").read_bytes() == kept


def test_a_preview_is_stopped_while_it_reads_its_script(previews: Previews) -> None:
    reads, writes = os.pipe()
    os.write(writes, b"1,trim\n")
    done = stopped(previews.words("run"), previews.folder.path, lambda _: list(previews.rooms.rglob("input.*")), given=reads)
    assert is_stopped(done, "the script wasn't read to its end", previews.launcher.parent), done
    os.close(writes)
    os.close(reads)
    assert not list(previews.rooms.rglob("input.*")) and not previews.folder.journal.exists()


def test_a_preview_is_stopped_while_it_posts(previews: Previews) -> None:
    script = previews.folder.write("long.csv", previews.run("generate", "6", "2000", "8").out)
    with open(script, "rb") as given:
        done = stopped(previews.words("run"), previews.folder.path, lambda _: has_grown(previews.rooms), given=given.fileno())
    assert is_stopped(done, "that was a preview", previews.launcher.parent), done
    assert previews.count() > 0 and not previews.folder.journal.exists()


def has_grown(rooms: Path) -> bool:
    return any(journal.stat().st_size > 4096 for journal in rooms.rglob("desk/journal.life"))


def test_previews_are_stopped_on_a_terminal(previews: Previews) -> None:
    script = previews.folder.write("long.csv", previews.run("generate", "6", "2000", "8").out)
    cases: list[tuple[Path | None, Callable[[], object], str]] = [
        (None, lambda: list(previews.rooms.rglob("input.*")), "the script wasn't read to its end"),
        (script, lambda: has_grown(previews.rooms), "that was a preview")]
    for given, moment, says in cases:
        status, said = on_terminal(previews.words("run"), previews.folder.path, given, stop_when=moment)
        assert status == 130 and f"life: stopped; {says}" in said, said
        assert processes_in(previews.launcher.parent) == []


def test_a_checkpoint_that_is_in_use(folder: Folder, life: Called) -> None:
    folder.post(FIRST)
    folder.write("checkpoint.life", "")
    with in_use(folder.path / "checkpoint.life") as user:
        for word in ("state", "checkpoint"):
            status, said = on_terminal([*life.words, word], folder.path)
            assert status == 8 and said.startswith("diskfault") and user in said, said


def test_the_growth_of_a_journal_is_shown(folder: Folder, life: Called) -> None:
    """The terminal shows how the journal grows: until the text begins, which is soon; or, if the text goes to a file, until
    the run ends. If the run is stopped, the launcher says what was kept."""
    lines = 3000 if folder.program.path != PREVIEW else 1000
    script = folder.write("long.csv", folder.life("generate", "1", str(lines), "8").out)
    lines = len(script.read_text().splitlines())
    told = r"life: there is no journal\.life in [^\r\n]*, so a new book is begun\r\n"
    grows = r"(\r\x1b\[Klife: \d+ postings, \d+ in the last second)"
    begun = time.monotonic()
    status, said = on_terminal([*life.words, "run"], folder.path, script)
    took = time.monotonic() - begun
    assert status == 0 and re.match(rf"{told}{grows}*\r\x1b\[K\d,issue,\d+,accepted,1\r\n", said), said[:300]
    assert said.count(",accepted,") == lines, said[-300:]
    folder.journal.unlink()
    status, said = on_terminal([*life.words, "run"], folder.path, script, folder.path / "text")
    # if the disk is so fast that the run ends within the first second, no growth is shown
    assert status == 0 and re.fullmatch(rf"{told}{grows}{'+' if took > 3 else '*'}\r\x1b\[K", said), said
    assert len(folder.read("text").splitlines()) == lines + 2
    folder.journal.unlink()
    until = time.monotonic() + took / 3
    # on a busy machine the first posting may come later than that: once a second record is written, the first is accepted
    status, said = on_terminal(
        [*life.words, "run"], folder.path, script, stop_when=lambda: time.monotonic() > until and folder.journal.exists()
        and folder.journal.stat().st_size >= 18 + 65 * 2)
    assert status == 130 and "life: stopped; what was accepted stands" in said, said
    assert folder.count() > 0
