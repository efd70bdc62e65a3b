"""Tests that an installation is complete or isn't made, and runs without the clone."""
import os
import subprocess
from pathlib import Path

import pytest

from tests.support.folders import EXAMPLES, Folder
from tests.support.launchers import Begun, await_that, is_stopped, stopped
from tests.support.program import Program
from tests.support.tools import Ended
from tests.tools.launcher.conftest import ran

COMPLETES = '. "$0" && COMP_WORDS=(life-wait 5 che) COMP_CWORD=2 && _life && echo "${COMPREPLY[@]}"'
INSTALLED = ["life", "life-program", "life-tools", "life-wait"]


@pytest.fixture
def bin_(clone: Path, tmp_path: Path) -> Path:
    done = ran(["sh", clone / "life", "install", tmp_path / "home" / "bin"], tmp_path)
    assert done.status == 0, done
    return tmp_path / "home" / "bin"


def refused(done: Ended, says: str) -> bool:
    return (done.status, done.out) == (70, "") and len(done.err.splitlines()) == 1 and says in done.err


def test_what_is_installed(clone: Path, program: Program, tmp_path: Path) -> None:
    done = ran(["sh", clone / "life", "install", tmp_path / "home" / "bin"], tmp_path)
    total = subprocess.run(["sha256sum", program.path], stdout=subprocess.PIPE, text=True, check=True).stdout.split()[0]
    assert done.status == 0 and f"\nsum: {total}\n" in done.out and "revision: " in done.out and "\nkit: " in done.out, done
    assert (tmp_path / "home" / "bin" / "life-program").read_bytes() == program.path.read_bytes()
    assert sorted(os.listdir(tmp_path / "home" / "bin")) == INSTALLED
    assert (tmp_path / "home" / "share" / "man" / "man1" / "life.1").is_file()
    completion = tmp_path / "home" / "share" / "bash-completion" / "completions" / "life"
    assert ran(["bash", "-c", COMPLETES, completion], tmp_path).out == "checkpoint\n"


def test_it_runs_without_the_clone_and_is_replaced_meanwhile(clone: Path, bin_: Path, folder: Folder) -> None:
    begun = Begun([bin_ / "life", "run"], folder.path, given=subprocess.PIPE)
    await_that(lambda: begun.says("a new book is begun"))
    assert ran(["sh", clone / "life", "install", bin_], folder.path).status == 0
    clone.rename(clone.parent / "away")
    begun.type((EXAMPLES / "first-issues.csv").read_text(encoding="utf-8"))
    done = begun.ended()
    assert (done.status, done.out) == (0, (EXAMPLES / "first-issues.transcript").read_text(encoding="utf-8")), done
    for words in (["life", "state"], ["life-wait", "5", "state"]):
        done = ran([bin_ / words[0], *words[1:]], folder.path)
        assert done.status == 0 and done.out.endswith("\ncount,4\n"), done
    done = ran([bin_ / "life-tools", "version"], folder.path)
    assert done.status == 0 and "has this sum\n" in done.out, done
    done = ran([bin_ / "life-tools", "read", "journal.life"], folder.path)
    assert (done.status, done.out.splitlines()[-1]) == (0, "count,4"), done


def test_what_isnt_whole_isnt_run(bin_: Path, folder: Folder) -> None:
    assert ran([bin_ / "life-wait", "x", "state"], folder.path).out == "usage\n"
    before = folder.files()
    done = ran([bin_ / "life", "state"], folder.path)
    assert (done.status, done.out) == (66, "") and f"there is no journal.life in {folder.path}, so nothing was run" in done.err
    assert folder.files() == before
    with open(bin_ / "life-program", "ab") as file:
        file.write(b"more")
    done = ran([bin_ / "life-tools", "version"], folder.path)
    assert done.status == 1 and "\nwrong: " in done.out, done
    (bin_ / "life-program").unlink()
    done = ran([bin_ / "life", "state"], folder.path)
    assert (done.status, done.out) == (69, ""), done


def test_no_space_for_the_program(proved_clone: Path, tmp_path: Path) -> None:
    """A limit on the size of files stands for a full disk; the folder that was there stays as it was."""
    (tmp_path / "small").mkdir()
    limited = 'trap "" XFSZ; ulimit -f 100; exec sh "$0" install "$1"'
    done = ran(["sh", "-c", limited, proved_clone / "life", tmp_path / "small"], tmp_path)
    assert refused(done, "nothing was installed: ") and "large" in done.err, done
    assert os.listdir(tmp_path / "small") == []


@pytest.mark.parametrize("place", ["file/bin", "taken", "clone"])
def test_a_place_that_is_taken(clone: Path, tmp_path: Path, place: str) -> None:
    (tmp_path / "file").write_text("")
    (tmp_path / "taken" / "life").mkdir(parents=True)
    done = ran(["sh", clone / "life", "install", tmp_path / place], tmp_path)
    assert refused(done, "nothing was installed: "), done


def test_without_a_home(proved_clone: Path, tmp_path: Path) -> None:
    assert refused(ran(["env", "-u", "HOME", "sh", proved_clone / "life", "install"], tmp_path), "HOME isn't set")


def test_an_installation_is_stopped(clone: Path, tmp_path: Path) -> None:
    """The installation is stopped before anything is in its place; a slow command stands for a slow disk."""
    slow = tmp_path / "slow"
    slow.mkdir()
    (slow / "sync").write_text(f'#!/bin/sh\n: >"{tmp_path}/begun"\nsleep 2\n')
    (slow / "sync").chmod(0o755)
    done = stopped(["sh", clone / "life", "install", tmp_path / "home" / "bin"], tmp_path,
                   lambda _: (tmp_path / "begun").exists(), {"PATH": f"{slow}:{os.environ['PATH']}"})
    assert is_stopped(done, "nothing was installed", clone) and not (tmp_path / "home").exists(), done
