"""Tests code that is read and not proved: in a build without proofs, each of these bodies is changed, and a test that
docs/proof/trusted.md names must refuse the change with the right complaint; unchanged, the same test must pass. One build
serves all changes."""
import os
import re
import subprocess
import sys
from pathlib import Path

import pytest

from tests.program.archives import let_all_read
from tests.proof.adapters import CHANGES, change
from tests.support.program import ROOT, Program

pytestmark = [pytest.mark.needs("rt", "strace"), pytest.mark.alone, pytest.mark.slow, pytest.mark.timeout(1200)]

CALLS = "tests/program/test_calls.py::test_a_first_run"
DEVICES = "tests/program/test_devices.py::test_the_devices_give_and_take_what_the_program_reads_and_prints"
CLOSED = "tests/program/test_devices.py::test_no_file_takes_the_place_of_a_closed_stream"
ARCHIVE = "tests/program/test_archive.py"
TAKEN = "tests/program/faults/test_taken_journals.py::test_a_journal_is_taken_away"
ONE_CALL = "tests/program/faults/test_failing_calls.py::test_one_call_of_one_lane_fails"
BELL = "tests/program/faults/test_as_soon.py::test_a_line_is_read_as_soon_as_its_record_is_safe[8]"
# a change, the test that must refuse it, and what that test says
BY_TESTS = [
    ("place", CALLS, r"made \['write journal 1 00'"), ("behind", CALLS, r"wanted \['fsync journal', 'write journal 1 "),
    ("folder", CALLS, r"wanted \['open folder', 'fsync folder'"), ("lock", CALLS, r"wanted \['lock journal "),
    ("read", DEVICES, ""), ("longer", DEVICES, "returncode=8, stdout=b'diskfault"),
    ("cut", DEVICES, "the journal doesn't hold what was written"), ("shelf", DEVICES, ""),
    ("status", "tests/program/test_run.py::test_a_bad_record", r"assert \(0, 'badjourn"),
    ("descriptors", f"{CLOSED}[output-foreign-program]", ""), ("archive", ARCHIVE, ""),
    ("length", f"{TAKEN}_at_one_call[cut-fsync-4]", "cut while fsync 4 is delayed: status 0, wanted 8"),
    ("name", f"{TAKEN}_at_one_call[rename-fsync-5]", "rename while fsync 5 is delayed: status 0, wanted 8"),
    ("link", "tests/program/faults/test_taken_journals.py::test_a_symbolic_link_is_followed", "over a symbolic link: synced"),
    ("write", f"{ONE_CALL}[pwrite64-4-EIO]", "call 4 fails with EIO: the file afterwards: badjournal,badrecord,0"),
    ("sync", f"{ONE_CALL}[fsync-5-EIO]", "call 5 fails with EIO: 0 lines are answered fault"),
    ("again", f"{ONE_CALL}[statx-1-EINTR]", "call 1 fails with EINTR: clerk diskfault"),
    ("bell", BELL, "the run doesn't return"),
]


@pytest.fixture(scope="module")
def asked(tmp_path_factory: pytest.TempPathFactory) -> Path:
    """The folder in which a change is asked for; users other than its owner read it, too."""
    made = tmp_path_factory.mktemp("asked")
    let_all_read(made)
    return made


@pytest.fixture(scope="module")
def changed(asked: Path, tmp_path_factory: pytest.TempPathFactory) -> Path:
    copy = tmp_path_factory.mktemp("copy")
    listed = subprocess.run(["git", "ls-files", "-z"], cwd=ROOT, capture_output=True, check=True).stdout
    subprocess.run(["xargs", "-0", "cp", "--parents", "-p", "-t", copy], cwd=ROOT, input=listed, check=True)
    change(copy, asked)
    made = subprocess.run(["sh", copy / "life", "try", "generate", "1", "1", "1"], cwd=copy, capture_output=True, text=True,
                          stdin=subprocess.DEVNULL, check=False)
    assert made.returncode == 0, made.stderr[-2000:]
    return copy / "out" / "preview" / "life_preview"


def by_test(program: Path, test: str) -> subprocess.CompletedProcess[str]:
    env = {**os.environ, "LIFE_PROGRAM": str(program), "COLUMNS": "200"}
    words = [sys.executable, "-m", "pytest", "-q", "-n", "0", "--slow", test]
    return subprocess.run(words, cwd=ROOT, env=env, capture_output=True, text=True, check=False)


def test_each_change_is_tried() -> None:
    found = {name for bodies in CHANGES.values() for new in bodies.values() for name in re.findall(r"\?(\w+)", new)}
    assert {name for name, *_ in BY_TESTS} == found | {"bell"}


@pytest.mark.parametrize("test", dict.fromkeys(test for _, test, _ in BY_TESTS))
def test_unchanged_the_test_passes(test: str, changed: Path, program: Program) -> None:
    # the changed program never rings the bell for lane 8
    ran = by_test(program.path if test == BELL else changed, test)
    assert ran.returncode == 0, ran.stdout[-2000:]


@pytest.mark.parametrize("name, test, says", BY_TESTS, ids=[case[0] for case in BY_TESTS])
def test_a_changed_adapter_is_refused_by_a_test(name: str, test: str, says: str, asked: Path, changed: Path) -> None:
    (asked / name).touch()
    try:
        ran = by_test(changed, test)
    finally:
        (asked / name).unlink()
    if re.search(r"^1 skipped", ran.stdout, re.M):
        pytest.skip(f"{test} is skipped")
    assert ran.returncode == 1 and re.search(says, ran.stdout), ran.stdout[-2000:]
