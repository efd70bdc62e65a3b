"""Runs the suite and counts: first the tests that may run side by side; then, one after another, those that depend on the clock;
and, if asked for, some of the planted changes that the suite must notice.

usage: /usr/bin/python3 .ci/suite.py JOBS COUNTS [--mutants] [PYTEST'S ARGUMENTS..]

JOBS tests run at the same time. COUNTS is a file into which one line is written: the numbers of tests that passed, failed and
were skipped. The status is 1 if a test failed.

A test can fail because other work delays it, such as a test that waits for a browser. So each test that fails is run once more,
by itself. The second run counts, and a line reports it.
"""
from __future__ import annotations

import subprocess
import sys
import tempfile
import xml.etree.ElementTree
from dataclasses import dataclass, field
from pathlib import Path
from typing import Sequence

ROOT = Path(__file__).resolve().parents[1]
# pytest's status if no test belongs to the part
NO_TEST = 5


@dataclass
class Counts:
    """The names of the tests that passed, failed and were skipped."""

    passed: list[str] = field(default_factory=list)
    failed: list[str] = field(default_factory=list)
    skipped: list[str] = field(default_factory=list)

    def add(self, other: Counts) -> None:
        self.passed += other.passed
        self.failed += other.failed
        self.skipped += other.skipped


def counted(report: Path) -> Counts:
    """Reads pytest's report in the form of JUnit; a test may appear twice, once for its body and once for its end."""
    counts = Counts()
    for case in xml.etree.ElementTree.parse(report).iter("testcase"):
        name = f"{case.get('classname')}::{case.get('name')}"
        kinds = {each.tag for each in case}
        part = counts.failed if kinds & {"failure", "error"} else counts.skipped if "skipped" in kinds else counts.passed
        if name not in part:
            part.append(name)
    counts.passed = [name for name in counts.passed if name not in counts.failed]
    return counts


def tried(part: str, jobs: int, folder: Path, words: Sequence[str]) -> Counts:
    """Runs the tests of a part, which is given as a marker expression. A run that ends without a report counts as a failure."""
    report = folder / "report.xml"
    report.unlink(missing_ok=True)
    command = [sys.executable, "-m", "pytest", "-c", "pyproject.toml", "-q", "-n", str(jobs), "-m", part, f"--junitxml={report}",
               "-o", f"cache_dir={folder}/cache", *words]
    status = subprocess.run(command, cwd=ROOT, stdin=subprocess.DEVNULL, check=False).returncode
    if status == NO_TEST:
        return Counts()
    counts = counted(report) if report.exists() else Counts()
    if status and not counts.failed:
        counts.failed.append(f"pytest -m '{part}' ended with status {status}")
    return counts


def tried_twice(part: str, jobs: int, folder: Path, words: Sequence[str]) -> Counts:
    """Runs the tests as `tried` does, and runs those that failed once more, one after another."""
    counts = tried(part, jobs, folder, words)
    if counts.failed:
        again = tried(part, 0, folder, ["--last-failed", "--last-failed-no-failures", "none", *words])
        for name in (*again.passed, *again.failed):
            print(f"run again by itself, since it failed: {name} {'passed' if name in again.passed else 'failed'}")
        counts.failed = [name for name in counts.failed if name not in again.passed]
        counts.passed += again.passed
    return counts


def main(jobs: str, counts_file: str, *words: str) -> int:
    others = [word for word in words if word != "--mutants"]
    counts = Counts()
    with tempfile.TemporaryDirectory() as made:
        parts = [("not alone", int(jobs)), ("alone", 0)] + ([("mutants_ci", int(jobs))] if "--mutants" in words else [])
        for part, at_once in parts:
            counts.add(tried_twice(part, at_once, Path(made), [*others, "tests"]))
            sys.stdout.flush()
    for name in counts.failed:
        print(f"failed: {name}")
    Path(counts_file).write_text(f"{len(counts.passed)} {len(counts.failed)} {len(counts.skipped)}\n", encoding="utf-8")
    return 1 if counts.failed else 0


if __name__ == "__main__":
    sys.exit(main(*sys.argv[1:]))
