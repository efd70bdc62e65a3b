"""Checks what `life` does before it runs the program: it syncs the book's files and then drops the system's cached copies of
them, so that the program reads from the disk, whatever became of an earlier sync."""
import re
import subprocess
from pathlib import Path

import pytest

from tests.support.program import ROOT

pytestmark = pytest.mark.needs("strace")

LAUNCHER = ROOT / "tools" / "launcher"
PART = 'called=life; . "$0/messages.sh"; . "$0/book.sh"; read_from_disk "$@"'
DROPPED = "fadvise64 0, 0, POSIX_FADV_DONTNEED"


def calls_of(folder: Path, *words: str, inject: str = "") -> tuple[list[str], str]:
    """Returns the calls on the book's files, each with the arguments after the descriptor, and the launcher's messages on
    standard error."""
    log = folder / "calls"
    files = [word for name in ("journal.life", "checkpoint.life") for word in ("-P", str(folder / name), "-P", name)]
    asked = ["-e", "trace=fsync,fadvise64"] + (["-e", f"inject={inject}"] if inject else [])
    ran = subprocess.run(["strace", "-f", "-qq", "-o", str(log), *files, *asked, "sh", "-c", PART, str(LAUNCHER), *words],
                         cwd=folder, capture_output=True, text=True, check=True)
    found = re.findall(r"^\d+ +(\w+)\(\d+(?:, )?(.*)\) += ", log.read_text(), re.M)
    said = [line for line in ran.stderr.splitlines() if line.startswith("life: ")]
    return [f"{name} {args}".strip() for name, args in found], "\n".join(said)


@pytest.mark.parametrize("word", ["run", "load", "state", "checkpoint", "value", "project"])
def test_both_files_are_synced_and_then_dropped(word: str, tmp_path: Path) -> None:
    for name in ("journal.life", "checkpoint.life"):
        (tmp_path / name).write_bytes(bytes(5000))
    assert calls_of(tmp_path, word) == (["fsync", DROPPED] * 2, "")


@pytest.mark.parametrize("words", [["generate", "1", "2", "3"], ["help"], []], ids=["generate", "help", "none"])
def test_words_that_open_no_book_touch_none(words: list[str], tmp_path: Path) -> None:
    (tmp_path / "journal.life").write_bytes(bytes(5000))
    assert calls_of(tmp_path, *words) == ([], "")


def test_a_failed_sync_is_reported_and_all_is_dropped(tmp_path: Path) -> None:
    (tmp_path / "journal.life").write_bytes(bytes(5000))
    calls, said = calls_of(tmp_path, "run", inject="fsync:error=EIO:when=1")
    assert calls == ["fsync", DROPPED]
    assert "the disk failed in a sync of journal.life: what is read now is what the disk has" in said


def test_it_comes_before_the_book_is_verified_and_the_program_run() -> None:
    """The clone's launcher and the installed `life` both run the program by this function."""
    body = (LAUNCHER / "program.sh").read_text().split("run_program() {")[1]
    places = [body.index(call) for call in ('read_from_disk "$@"', 'demand_whole "$accepted"', 'exec "$program"')]
    assert places == sorted(places)
