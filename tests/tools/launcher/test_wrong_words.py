"""Tests wrong arguments of the launcher, which do nothing; and that no command of the program is run if nothing is proved."""
import os
import shutil
import subprocess
from pathlib import Path

import pytest

from tests.support.folders import EXAMPLES, Folder
from tests.support.launchers import Begun, await_that
from tests.tools.launcher.conftest import ran

WRONG = ("", "stat", "prove it", "try", "try stat", "try try run", "test /nowhere", "install a b", "install --hel", "help me",
         "pack all", "doc all", "--wait", "--wait 5", "--wait x run", "--wait 5 stat", "--wait 5 try run", "--wait -1 run",
         "--wait 1234567 run")
WORDS = ("run", "state", "state 7001", "checkpoint", "value 2021-01-01", "project 2021-01-01 2", "generate 1 1 1", "load 1 1 1 1",
         "--wait 5 run")
# the commands of Debian that the launcher needs, without the kit
COMMANDS = ("sh awk cat cut date dirname find flock grep head id mkdir mktemp nproc readlink rm sed sha256sum sort stat touch "
            "tr wc").split()


@pytest.mark.parametrize("words", WRONG)
def test_wrong_words_build_nothing(unproved_clone: Path, words: str) -> None:
    done = ran(["sh", unproved_clone / "life", *words.split()], unproved_clone)
    assert (done.status, done.out) == (2, "usage\n") and done.err.startswith("life: "), done
    assert not (unproved_clone / "out").exists()


@pytest.mark.parametrize("words, says", [
    *((words, f"sh life try {words.removeprefix('--wait 5 ').split()[0]} runs it unproved, sh life prove proves it")
      for words in WORDS), ("install ../nowhere", "sh life prove"), ("pack", "sh life prove")])
def test_without_a_proof_nothing_is_run(unproved_clone: Path, words: str, says: str) -> None:
    before = sorted(os.listdir(unproved_clone))
    done = ran(["sh", unproved_clone / "life", *words.split()], unproved_clone)
    assert (done.status, done.out) == (69, "") and says in done.err and len(done.err.splitlines()) == 1, done
    assert sorted(os.listdir(unproved_clone)) == before and not (unproved_clone.parent / "nowhere").exists()


@pytest.mark.parametrize("words", ["prove", "try state", "test"])
def test_without_the_kit(unproved_clone: Path, words: str, tmp_path: Path) -> None:
    plain = tmp_path / "plain"
    plain.mkdir()
    for each in COMMANDS:
        (plain / each).symlink_to(shutil.which(each) or "")
    done = ran(["sh", unproved_clone / "life", *words.split()], unproved_clone, env={"PATH": str(plain)})
    assert (done.status, done.out) == (70, "") and "the kit's command rt isn't on the path" in done.err, done


def test_without_a_folder_for_previews(clone: Path) -> None:
    shutil.rmtree(clone / "out")
    (clone / "out").write_text("")
    done = ran(["sh", clone / "life", "try", "run"], clone)
    assert (done.status, done.out) == (70, "") and "out/preview can't be made" in done.err, done


def test_a_proved_program_isnt_proved_again(proved_clone: Path) -> None:
    done = ran(["sh", proved_clone / "life", "prove"], proved_clone)
    assert done.status == 0 and "the program is proved and built" in done.err, done


def test_a_source_is_changed_while_the_program_runs(clone: Path, folder: Folder) -> None:
    """The run that had begun ends as if nothing had happened; a later run isn't started."""
    words = ["sh", str(clone / "life")]
    begun = Begun([*words, "run"], folder.path, given=subprocess.PIPE)
    await_that(lambda: begun.says("a new book is begun"))
    with open(clone / "crates" / "policy_types" / "src" / "lib.rt", "a", encoding="utf-8") as source:
        source.write("// changed\n")
    begun.type((EXAMPLES / "first-issues.csv").read_text(encoding="utf-8"))
    done = begun.ended()
    assert (done.status, done.out) == (0, (EXAMPLES / "first-issues.transcript").read_text(encoding="utf-8")), done
    assert ran([*words, "state"], folder.path).status == 69
