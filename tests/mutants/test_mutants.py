"""Changes that are planted on purpose, each of which a named test must notice: they measure the suite.

The tables in this folder have one entry for each change: `file`, `old` (a text that occurs in the file exactly once), `new`, and
`test`, the arguments for pytest. `pytest -m mutants_ci` tries the entries with `ci = true`, and `pytest -m mutants` tries all.
"""
import os
import shlex
import shutil
import subprocess
import sys
import tomllib
from pathlib import Path
from typing import Any, Iterator

import pytest

from tests.support.program import ROOT, Program

TABLES = sorted(Path(__file__).parent.glob("*.toml"))
# the files in which a change is tried: everything except the proved program's sources
COPIED = ("tests", "tools", "examples", "docs", ".ci", "bench", "life", "pyproject.toml", ".flake8", "crates.txt", "README.md",
          "CHANGELOG.md", "CONTRIBUTING.md", "SECURITY.md")
FAILED = 1
# how many entries CI tries, and how many there are at least
CHOSEN, FEWEST = 20, 150


def entries() -> Iterator[Any]:
    for table in TABLES:
        for number, entry in enumerate(tomllib.loads(table.read_text(encoding="utf-8"))["mutant"], 1):
            marks = [pytest.mark.mutants, *([pytest.mark.mutants_ci] if entry.get("ci") else [])]
            yield pytest.param(entry, id=f"{table.stem}-{number}", marks=marks)


def changed_copy(entry: dict[str, str], to: Path) -> None:
    """Copies the repository, with the proved program's sources only if they, or what is known about them, are changed."""
    needs_sources = entry["file"].startswith(("crates", "HANDLES")) or "tests/repository" in entry["test"]
    for name in filter(lambda name: (ROOT / name).exists(), (*COPIED, *(("crates", "HANDLES") if needs_sources else ()))):
        if (ROOT / name).is_dir():
            shutil.copytree(ROOT / name, to / name, symlinks=True, ignore=shutil.ignore_patterns("__pycache__", "out"))
        else:
            shutil.copy(ROOT / name, to / name)
    file = to / entry["file"]
    file.write_text(file.read_text(encoding="utf-8").replace(entry["old"], entry["new"]), encoding="utf-8")


@pytest.mark.parametrize("table", TABLES, ids=[table.stem for table in TABLES])
def test_each_change_can_be_made(table: Path) -> None:
    """The text to be changed occurs in its file exactly once, and the test exists."""
    for entry in tomllib.loads(table.read_text(encoding="utf-8"))["mutant"]:
        assert (ROOT / entry["file"]).read_text(encoding="utf-8").count(entry["old"]) == 1, entry
        assert entry["old"] != entry["new"] and (ROOT / shlex.split(entry["test"])[0].partition("::")[0]).exists(), entry


def test_ci_tries_some_of_each_subject() -> None:
    """CI tries twenty changes, and at least one of each table: a subject whose tests notice nothing is seen in each run."""
    tables = {table.stem: tomllib.loads(table.read_text(encoding="utf-8"))["mutant"] for table in TABLES}
    chosen = {name: sum(bool(entry.get("ci")) for entry in table) for name, table in tables.items()}
    assert all(chosen.values()) and sum(chosen.values()) == CHOSEN, chosen
    assert sum(map(len, tables.values())) >= FEWEST


@pytest.mark.parametrize("entry", entries())
@pytest.mark.timeout(900)
def test_a_change_is_noticed(entry: dict[str, str], tmp_path: Path, program: Program) -> None:
    changed_copy(entry, tmp_path)
    words = [sys.executable, "-m", "pytest", "-q", "-x", *shlex.split(entry["test"])]
    env = {**os.environ, "LIFE_PROGRAM": str(program.path), "PYTHONDONTWRITEBYTECODE": "1"}
    ran = subprocess.run(words, cwd=tmp_path, env=env, capture_output=True, text=True, check=False)
    assert ran.returncode == FAILED, f"{entry['test']} ends with {ran.returncode} over the change: {ran.stdout[-2000:]}"
