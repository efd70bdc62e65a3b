"""Compares what the program prints, byte by byte, and its exit status with the files of tests/cases.

The texts come from outside the program: worked out by hand from docs/reference/script.md, docs/howto/clerk.md and
docs/explanation/reserves.md, or computed in fractions.

Each line of words.txt is a case: a status, the one line that is printed, and the arguments, which are separated by spaces; '' is
the empty argument. The cases run in a folder without a basis, with a script that asks for a value, and create no journal.

Each folder of tests/cases has runs that are made in one folder, one after another: `words` has a line for each, with its status,
its arguments and the script that it is given (`<NAME`); `transcript` has everything that they print. After an empty line in both
files, the journal is removed and the next runs begin anew. `files` names files of the repository that are copied next to the
folder's own files, each with its name there if that is another one.
"""
import shlex
import shutil
from pathlib import Path

import pytest

from tests.program.office import prints
from tests.support.folders import Folder
from tests.support.program import ROOT

CASES = ROOT / "tests" / "cases"
WORDS = [line.split(" ", 2) for line in (CASES / "words.txt").read_text(encoding="utf-8").splitlines()]
FOLDERS = sorted(folder.name for folder in CASES.iterdir() if folder.is_dir())
# after bad arguments, a bad script, a bad basis or unreadable input no journal is created; a basis is read only if one is needed
WITHOUT_A_JOURNAL = (2, 3, 4, 6)


@pytest.mark.parametrize("status, line, words", [[*case, ""][:3] for case in WORDS], ids=[" ".join(case[1:]) for case in WORDS])
def test_arguments(status: str, line: str, words: str, folder: Folder) -> None:
    assert prints(folder, *shlex.split(words), given="1,value,2021-01-01,now,1\n") == (int(status), line + "\n")
    assert not folder.journal.exists()


def lay_out(case: Path, folder: Folder) -> None:
    for file in case.iterdir():
        if file.name not in ("words", "transcript", "files"):
            shutil.copy(file, folder.path)
    named = (case / "files").read_text(encoding="utf-8").split("\n") if (case / "files").exists() else []
    for source, *other in filter(None, (line.split() for line in named)):
        shutil.copy(ROOT / source, folder.path / (other[0] if other else ""))


def run_one(folder: Folder, status: int, asked: str) -> str:
    """Runs one case, and returns what it prints. Only a `run` or `load` that ends with status 0 may change a journal, and a
    refused command creates none."""
    words, _, script = asked.partition("<")
    before = folder.journal.read_bytes() if folder.journal.exists() else None
    ran = folder.life(*words.split(), given=folder.read(script) if script else b"")
    assert ran.status == status, (asked, ran)
    mode = words.split()[0]
    if before is None:
        assert folder.journal.exists() != (status in WITHOUT_A_JOURNAL or mode == "generate"), asked
    elif not (status == 0 and mode in ("run", "load")):
        assert folder.journal.read_bytes() == before, asked
    return ran.out


@pytest.mark.parametrize("name", FOLDERS)
def test_runs_of_a_folder(name: str, folder: Folder) -> None:
    lay_out(CASES / name, folder)
    printed = ""
    for line in (CASES / name / "words").read_text(encoding="utf-8").splitlines():
        if line:
            status, _, asked = line.partition(" ")
            printed += run_one(folder, int(status), asked)
        else:
            printed += "\n"
            for book in ("journal.life", "checkpoint.life"):
                (folder.path / book).unlink(missing_ok=True)
            lay_out(CASES / name, folder)
    assert printed == (CASES / name / "transcript").read_text(encoding="utf-8")
