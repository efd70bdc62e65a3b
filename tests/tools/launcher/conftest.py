"""Fixtures for a clone whose program counts as proved, and for the programs as `life install` installs them."""
import os
import shutil
import subprocess
from dataclasses import dataclass
from pathlib import Path
from typing import Sequence

import pytest

from tests.support.clones import copy_tracked, prove
from tests.support.program import Program
from tests.support.tools import Ended


def ran(words: Sequence[str | Path], folder: Path, given: str = "", env: dict[str, str] | None = None) -> Ended:
    """Runs a command in a folder with this standard input, and returns how it ended."""
    done = subprocess.run([str(word) for word in words], cwd=folder, input=given.encode(), capture_output=True, check=False,
                          env={**os.environ, **(env or {})})
    return Ended(done.returncode, done.stdout.decode("utf-8", "replace"), done.stderr.decode("utf-8", "replace"))


@pytest.fixture(scope="session")
def proved_clone(program: Program, tmp_path_factory: pytest.TempPathFactory) -> Path:
    """A copy of the repository whose program counts as proved."""
    clone = tmp_path_factory.mktemp("clone")
    copy_tracked(clone, "life", ".ci", "tools", "crates", "crates.txt", "CHANGELOG.md")
    prove(clone, program.path)
    return clone


@pytest.fixture
def clone(proved_clone: Path, tmp_path: Path) -> Path:
    """A clone of the test's own, whose program counts as proved."""
    return Path(shutil.copytree(proved_clone, tmp_path / "clone", symlinks=True))


@pytest.fixture(scope="session")
def unproved_clone(proved_clone: Path, tmp_path_factory: pytest.TempPathFactory) -> Path:
    clone = tmp_path_factory.mktemp("unproved") / "clone"
    shutil.copytree(proved_clone, clone, symlinks=True, ignore=shutil.ignore_patterns("out"))
    return clone


@pytest.fixture(scope="session")
def installed(proved_clone: Path, tmp_path_factory: pytest.TempPathFactory) -> Path:
    folder = tmp_path_factory.mktemp("home") / "bin"
    done = ran(["sh", proved_clone / "life", "install", folder], proved_clone)
    assert done.status == 0, done
    return folder


@dataclass(frozen=True)
class Called:
    """One form in which a user calls the program: the first arguments of the command, and how a message names it."""

    words: tuple[str | Path, ...]
    named: str


@pytest.fixture(params=["clone", "installed"])
def life(request: pytest.FixtureRequest, proved_clone: Path, installed: Path) -> Called:
    if request.param == "clone":
        return Called(("sh", proved_clone / "life"), "sh life")
    return Called((installed / "life",), "life")
