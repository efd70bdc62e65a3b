"""Fixtures for the program under test and for folders of books, and checks that the machine has what a test needs."""
import hashlib
import os
from pathlib import Path
from typing import Iterator

import pytest
from hypothesis import settings

from tests.support.folders import Folder
from tests.support.missing import in_ci, lacks, need
from tests.support.program import ROOT, Program, program_under_test

# On CI, drawn cases are the same in each run. No test fails because the machine is slow.
settings.register_profile("suite", deadline=None, database=None, derandomize=in_ci(), print_blob=True)
settings.load_profile("suite")

BROWSER = ("chromedriver", "chromium", "python:selenium")
# file systems that keep nothing on a disk
IN_MEMORY = ("tmpfs", "ramfs")


def pytest_addoption(parser: pytest.Parser) -> None:
    parser.addoption("--slow", action="store_true", help="run the tests that take more than a minute, too")


def pytest_report_header() -> str:
    found = program_under_test()
    if found is None:
        return "program under test: none"
    return f"program under test: {found.path} ({'proved' if found.is_proved else 'not the proved one'})"


def pytest_collection_modifyitems(config: pytest.Config, items: list[pytest.Item]) -> None:
    """Runs the tests of planted changes (mutants) only if they are asked for by their mark."""
    if "mutants" in config.option.markexpr:
        return
    asked = [item for item in items if not item.get_closest_marker("mutants")]
    if len(asked) < len(items):
        config.hook.pytest_deselected(items=[item for item in items if item.get_closest_marker("mutants")])
        items[:] = asked


def file_system(path: Path) -> str:
    with open("/proc/mounts", encoding="utf-8") as file:
        mounts = [line.split()[1:3] for line in file]
    holds = [(len(place), kind) for place, kind in mounts if path == Path(place) or Path(place) in path.parents]
    return max(holds)[1]


def demand_program(is_proved: bool) -> Program:
    found = program_under_test()
    if found is None:
        pytest.fail("there is no program: sh life prove makes the proved one, sh life try state a preview", pytrace=False)
    if is_proved and not found.is_proved:
        lacks(f"{found.path} isn't the proved program")
    return found


def pytest_runtest_setup(item: pytest.Item) -> None:
    marked = {mark.name: mark for mark in item.iter_markers()}
    if "slow" in marked and not in_ci() and not item.config.getoption("--slow"):
        pytest.skip("it takes more than a minute: --slow runs it")
    if "root" in marked and os.geteuid() != 0:
        lacks("it has to be run by root")
    if "needs_proof" in marked:
        demand_program(is_proved=True)
    for mark in item.iter_markers("needs"):
        for thing in mark.args:
            need(thing)
    for thing in BROWSER if "browser" in marked else ():
        need(thing)


@pytest.fixture(scope="session")
def root() -> Path:
    return ROOT


@pytest.fixture(scope="session")
def program() -> Program:
    return demand_program(is_proved=False)


@pytest.fixture(scope="session", autouse=True)
def own_program() -> Iterator[None]:
    """Makes the tools take the program under test for the program that they belong to, as installed tools do; so a preview is
    judged as the proved program is. The tests of what is said about any other program use another program."""
    found = program_under_test()
    if found is None:
        yield
        return
    own = hashlib.sha256(found.path.read_bytes()).hexdigest()
    with pytest.MonkeyPatch.context() as patch:
        patch.setattr("life_tools.common.program.noted_sum", lambda: own)
        yield


@pytest.fixture
def folder(tmp_path: Path, program: Program, request: pytest.FixtureRequest) -> Folder:
    if request.node.get_closest_marker("real_disk") and file_system(tmp_path) in IN_MEMORY:
        lacks(f"{tmp_path} lies in memory: name a folder on a disk by --basetemp")
    return Folder(tmp_path, program)


@pytest.fixture
def table_q(folder: Folder) -> Folder:
    """A folder without a journal, whose basis is table Q without interest."""
    folder.take("q.xml")
    folder.write("basis.csv", "1900-01-01,q.xml,0\n")
    return folder


@pytest.fixture
def examples_basis(folder: Folder) -> Folder:
    """A folder without a journal, with the basis and the tables of the examples."""
    folder.take("basis.csv", "q.xml", "g.xml")
    return folder


@pytest.fixture
def small_office(examples_basis: Folder) -> Folder:
    """The small office of the examples, of 27 commands, and what its run printed as `transcript`."""
    examples_basis.take("small-office.csv")
    examples_basis.write("transcript", examples_basis.post(examples_basis.read("small-office.csv")))
    return examples_basis
