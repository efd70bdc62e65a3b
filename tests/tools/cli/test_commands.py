"""Tests that each command of `life-tools` has a help text, refuses an unknown option, and names a package that is missing."""
import os
import re
import subprocess
import sys
import threading
from pathlib import Path

import pytest

from life_tools.cli.entry import BY_NUMPY, ENTRIES
from tests.support.folders import Folder
from tests.support.missing import lacks
from tests.support.program import ROOT
from tests.support.tools import run_tool

TOOLS = str(ROOT / "tools" / "life-tools")
REFERENCE = (ROOT / "docs" / "reference" / "tools.md").read_text(encoding="utf-8")


@pytest.mark.parametrize("name", ENTRIES)
def test_help(name: str, tmp_path: Path) -> None:
    ended = run_tool([name, "--help"], tmp_path, {"COLUMNS": "80"})
    assert ended.status == 0 and ended.out.startswith(f"usage: life-tools {name} ") and not ended.err
    assert len(ended.out.split("\n\n")) >= 3, "it says nothing but its usage"
    assert re.search(rf"^(?:    |Example: )life-tools {name}\b", ended.out, re.M), "it has no example"
    assert max(map(len, ended.out.split("\n\n", 1)[1].splitlines())) <= 80


@pytest.mark.parametrize("command", ["value", "report", "sample", "split"])
def test_help_of_one_command_of_books(command: str, tmp_path: Path) -> None:
    """The help shows the options of this command, and none that belong only to another one."""
    words = ["books", "split", "--help"] if command == "split" else ["books", "books.csv", command, "--help"]
    ended = run_tool(words, tmp_path, {"COLUMNS": "80"})
    own = {"value": "--totals", "report": "--by", "sample": "--seed", "split": "--classes"}[command]
    others = {"value": "--seed", "report": "--totals", "sample": "--workers", "split": "--seed"}[command]
    assert ended.status == 0 and "Example: life-tools books " in ended.out
    assert re.search(rf"^  {own}\b", ended.out, re.M) and not re.search(rf"^  {others}\b", ended.out, re.M)
    assert max(map(len, ended.out.splitlines())) <= 80


@pytest.mark.parametrize("name", ENTRIES)
def test_an_unknown_option(name: str, tmp_path: Path) -> None:
    ended = run_tool([name, "--nonsense"], tmp_path, {})
    assert ended.status == 2 and ended.err.startswith("usage: life-tools ") and not ended.out


def test_an_unknown_name(tmp_path: Path) -> None:
    ended = run_tool(["nonsense"], tmp_path, {})
    assert ended.status == 2 and "invalid choice" in ended.err and not ended.out


@pytest.mark.parametrize("name", ENTRIES)
def test_the_reference_has_it(name: str) -> None:
    assert re.search(rf"^### {name}$", REFERENCE, re.M)


@pytest.mark.parametrize("name", ["position-on", "movement", "statement", "report"])
def test_without_numpy(name: str, tmp_path: Path) -> None:
    """A module of this name that can't be imported takes its place."""
    assert name in BY_NUMPY
    (tmp_path / "numpy.py").write_text("raise ImportError\n", encoding="utf-8")
    env = {**os.environ, "PYTHONPATH": str(tmp_path), "LIFE_TOOLS_ANEW": "1"}
    ran = subprocess.run([sys.executable, TOOLS, name, "2020-01-01", "journal.life"], cwd=tmp_path, env=env, capture_output=True,
                         text=True, check=False)
    assert ran.returncode == 2 and not ran.stdout
    assert f"life-tools {name}: Python's numpy is missing: apt-get install python3-numpy" in ran.stderr


def test_a_python_without_packages_begins_debians(folder: Folder) -> None:
    if not Path("/usr/bin/python3").exists():
        lacks("there is no /usr/bin/python3")
    folder.write("journal.life", b"\x01LIFEJRNL\x00\x01\x00\x40\x00\x00\x00\x00\x00")
    ran = subprocess.run([sys.executable, "-S", TOOLS, "position-on", "2020-01-01", "journal.life"], cwd=folder.path,
                         capture_output=True, text=True, check=False)
    assert (ran.returncode, ran.stdout, ran.stderr) == (0, "0\n", "")


def demand_one_thread() -> None:
    assert len(os.listdir("/proc/self/task")) == 1


def test_no_tool_is_forked_beside_a_thread(tmp_path: Path) -> None:
    """The tool might wait for that thread for ever."""
    end = threading.Event()
    beside = threading.Thread(target=end.wait)
    beside.start()
    try:
        assert run_tool(["--help"], tmp_path, {}, first=demand_one_thread).status == 0
    finally:
        end.set()
        beside.join()
