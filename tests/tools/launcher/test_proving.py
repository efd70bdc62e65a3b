"""Tests `sh life prove`, `sh life test` and CI with a stand-in for the kit: what is current after them, what their counts say,
and what a signal leaves."""
import os
import shutil
from pathlib import Path

import pytest

from tests.support.clones import note_proof
from tests.support.launchers import is_stopped, stopped
from tests.support.tools import Ended
from tests.tools.launcher.conftest import ran

# the stand-in for `rt` does what STAND_IN says; it proves nothing
KIT = """#!/bin/sh
case $STAND_IN-$1 in
    stopped-all | slow-try) sleep 60 & echo $! >"$NOTED"; wait ;;
    unproved-all) echo "== policy_types"; echo "policy_types: failed (1)"; exit 1 ;;
    tests-try) echo "tests: 2"; echo "test one ... ok"; case $PWD in
        */base_tests) echo "test two ... FAILED"; echo "test result: FAILED. 1 passed; 1 failed; 0 ignored;"; exit 1 ;;
        */lane_tests) echo "it doesn't compile"; exit 1 ;;
        *) echo "test result: ok. 2 passed; 0 failed; 0 ignored;" ;;
        esac ;;
    tests-ci) echo "== policy_types"; echo "3 passed, 0 failed" ;;
    refused-ci) echo "policy_types: a goal has no answer"; echo "2 passed, 1 failed"; exit 1 ;;
    *-all) echo "== policy_types"; echo "== life_cli"; echo "== summary"; echo "policy_types: ok"; sleep 2 ;;
    unbuilt-run) echo "rt: the library policy_types did not build"; exit 1 ;;
    edited-run) echo "// " >>src/main.rt; cp ../../program out/life_cli; echo "rt: running out/life_cli;" ;;
    built-run) cp ../../program out/life_cli; echo "rt: running out/life_cli;"; exit 2 ;;
esac
"""
# a suite of four tests: one passes, one is skipped, one fails, and one is slow
SUITE = """import os
import pytest

def test_the_wind():
    assert os.environ["LIFE_PROGRAM"].endswith(os.environ["JUDGED"])

def test_the_calm():
    pytest.skip("there is no wind")

def test_the_rain():
    assert False, "it rains"

@pytest.mark.slow
def test_the_tide():
    pass
"""
OPTIONS = """def pytest_addoption(parser):
    parser.addoption("--slow", action="store_true")

def pytest_runtest_setup(item):
    import pytest
    if "slow" in item.keywords and not item.config.getoption("--slow"):
        pytest.skip("it is slow")
"""


# the launcher starts another pytest
pytestmark = pytest.mark.timeout(600)


@pytest.fixture
def work(clone: Path) -> Path:
    """A clone with the stand-in for the kit, a stand-in for a preview, and a source that was changed since the proof."""
    (clone / "kit").mkdir()
    (clone / "kit" / "rt").write_text(KIT)
    (clone / "kit" / "rt").chmod(0o755)
    (clone / "out" / "preview").mkdir()
    for copy in (clone / "program", clone / "out" / "preview" / "life_preview"):
        shutil.copy(clone / "crates" / "life_cli" / "out" / "life_cli", copy)
    os.utime(clone / "out" / "preview" / "life_preview", (0, 0))
    with open(clone / "crates" / "life_cli" / "src" / "main.rt", "a", encoding="utf-8") as source:
        source.write("// changed\n")
    return clone


def env(clone: Path, stand_in: str, judged: str = "life_preview") -> dict[str, str]:
    return {"PATH": f"{clone}/kit:{os.environ['PATH']}", "STAND_IN": stand_in, "NOTED": f"{clone}/noted", "JUDGED": judged}


def is_current(clone: Path) -> bool:
    done = ran(["sh", clone / "life", "generate", "1", "1", "1"], clone)
    return (done.status, done.out == "") == (0, False)


@pytest.mark.parametrize("stand_in, status, says, current", [
    ("built", 0, "checked life_cli, 2 of", True), ("built", 0, "is proved and built, after", True),
    ("unproved", 70, "policy_types: failed", False), ("unbuilt", 70, "not proved and built", False),
    ("edited", 70, "not proved and built", False)])
def test_what_is_current_after_a_proof(work: Path, stand_in: str, status: int, says: str, current: bool) -> None:
    assert not is_current(work)
    done = ran(["sh", work / "life", "prove"], work, env=env(work, stand_in))
    assert done.status == status and says in done.err and is_current(work) == current, done


def test_a_proof_is_stopped(work: Path) -> None:
    done = stopped(["sh", work / "life", "prove"], work, lambda _: (work / "noted").exists(), env(work, "stopped"))
    assert is_stopped(done, "what is proved is kept, and sh life prove goes on from there", work), done
    assert not is_current(work)


def test_a_preview_is_stopped_while_it_is_built(work: Path) -> None:
    done = stopped(["sh", work / "life", "try", "run"], work, lambda _: (work / "noted").exists(), env(work, "slow"))
    assert is_stopped(done, "no preview was built", work), done
    assert not list((work / "out" / "preview").glob("build.*"))


@pytest.fixture
def suite(work: Path) -> Path:
    """The clone with a suite of its own, and a preview that is newer than each source."""
    (work / "tests").mkdir()
    (work / "tests" / "conftest.py").write_text(OPTIONS)
    (work / "tests" / "test_weather.py").write_text(SUITE)
    markers = 'markers = ["slow", "alone", "browser", "mutants_ci"]'
    (work / "pyproject.toml").write_text(f'[tool.pytest.ini_options]\naddopts = "-ra"\n{markers}\n')
    os.utime(work / "out" / "preview" / "life_preview")
    return work


def sh_life_test(clone: Path, *words: str, judged: str = "life_preview") -> Ended:
    return ran(["sh", clone / "life", "test", *words], clone, env={**env(clone, "tests", judged), "CI": ""})


def crates_of_tests(clone: Path) -> int:
    return sum(line.partition(":")[0].endswith("_tests") for line in (clone / "crates.txt").read_text().splitlines())


@pytest.mark.needs("python:xdist")
def test_the_counts_are_of_crates_and_of_the_suite(suite: Path) -> None:
    """The crates have two passing tests each, except one with a single passing test of two and one that doesn't compile; the
    suite has its own tests. A skip is counted separately."""
    done = sh_life_test(suite)
    passed = crates_of_tests(suite) * 2 - 2
    assert done.status == 1 and done.out.splitlines()[-1] == f"{passed} passed, 3 failed, 2 skipped, nothing proved", done.out
    for says in ("office_tests: 2 passed, after", "base_tests: 1 passed, 1 FAILED", "two ... FAILED", "it doesn't compile",
                 "there is no wind", "it rains"):
        assert says in done.out, done.out


@pytest.mark.needs("python:xdist")
def test_all_tests_are_tried_over_the_proved_program(suite: Path) -> None:
    passed = crates_of_tests(suite) * 2 - 1
    done = sh_life_test(suite, "--all")
    assert done.out.splitlines()[-1] == f"{passed} passed, 3 failed, 1 skipped, nothing proved", done.out
    note_proof(suite)
    done = sh_life_test(suite, "--all", judged="life_cli")
    assert done.out.splitlines()[-1] == f"{passed} passed, 3 failed, 1 skipped, nothing proved", done.out


def test_a_part_of_the_suite(suite: Path) -> None:
    done = sh_life_test(suite, "tests/test_weather.py", "-k", "wind")
    assert done.status == 0 and "1 passed, 3 deselected" in done.out, done


def test_tests_are_stopped(suite: Path) -> None:
    (suite / "tests" / "test_weather.py").write_text(
        'def test_the_wind():\n    import os, time\n    open(os.environ["NOTED"], "w").close()\n    time.sleep(60)\n')
    done = stopped(["sh", suite / "life", "test"], suite, lambda _: (suite / "noted").exists(), env(suite, "tests"))
    assert is_stopped(done, "the tests weren't run to their end", suite), done


# tests that fail in their first run and pass in the next one
FLAKY = """import os
import pytest

def fails_at_first(name):
    path = os.environ["NOTED"] + name
    is_first = not os.path.exists(path)
    open(path, "a").close()
    assert not is_first

@pytest.mark.alone
def test_by_the_clock():
    fails_at_first("clock")

def test_beside_others():
    fails_at_first("others")

def test_that_is_broken():
    assert False
"""


def ci(clone: Path, stand_in: str) -> Ended:
    """Runs CI in a clone in which nothing has to be installed, as another program runs it: without a terminal or standard
    input."""
    (clone / ".ci" / "setup.sh").write_text("")
    (clone / "HANDLES").write_text("")
    judged = {"CI": "true", "RT_JOBS": "2", "LIFE_PROGRAM": f"{clone}/crates/life_cli/out/life_cli"}
    return ran(["bash", clone / ".ci" / "run"], clone, env={**env(clone, stand_in, "life_cli"), **judged})


@pytest.mark.needs("python:xdist")
def test_ci_sums_the_gate_and_the_suite(suite: Path) -> None:
    done = ci(suite, "tests")
    assert done.status == 1 and done.out.splitlines()[-2:] == ["1 skipped", "5 passed, 1 failed"], done
    assert "failed: tests.test_weather::test_the_rain" in done.out and not (suite / "out" / "gate").exists()
    (suite / "tests" / "test_weather.py").write_text(SUITE.replace('assert False, "it rains"', "pass"))
    done = ci(suite, "tests")
    assert done.status == 0 and done.out.splitlines()[-2:] == ["1 skipped", "6 passed, 0 failed"], done
    assert (suite / "out" / "gate").read_text().endswith("\n1 skipped\n6 passed, 0 failed\n") and is_current(suite)


def test_ci_shows_what_the_gate_refuses_and_runs_no_test(suite: Path) -> None:
    done = ci(suite, "refused")
    assert done.status == 1 and "policy_types: a goal has no answer\n2 passed, 1 failed\n" in done.out
    assert done.out.splitlines()[-2:] == ["0 skipped", "2 passed, 1 failed"]
    assert not is_current(suite)


@pytest.mark.needs("python:xdist")
def test_what_failed_is_run_once_more_and_named(suite: Path) -> None:
    (suite / "tests" / "test_weather.py").write_text(FLAKY)
    done = ci(suite, "tests")
    assert done.status == 1 and done.out.splitlines()[-1] == "5 passed, 1 failed", done
    for name, how in (("by_the_clock", "passed"), ("beside_others", "passed"), ("that_is_broken", "failed")):
        assert f"run again by itself, since it failed: tests.test_weather::test_{name} {how}\n" in done.out
    assert "failed: tests.test_weather::test_that_is_broken\n" in done.out


@pytest.mark.needs("python:xdist")
def test_a_suite_that_cant_begin_is_a_failure(suite: Path) -> None:
    (suite / "tests" / "conftest.py").write_text("no Python\n")
    done = ci(suite, "tests")
    assert done.status == 1 and int(done.out.splitlines()[-1].split()[2]) > 0, done
