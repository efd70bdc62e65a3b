"""Runs the program with one failing system call: strace makes the k-th call of each kind fail, for every k of a run.

An undisturbed run is recorded first: how many calls of each kind each thread makes on each file, and which of them the first
thread makes to open the journal, before there is a second thread or a record is written. strace counts the calls of each thread
separately, so the k-th call may fail in two threads; the record of the disturbed run shows how many failed.
"""
import re
from collections import Counter, defaultdict
from collections.abc import Iterator
from concurrent.futures import ThreadPoolExecutor
from dataclasses import dataclass
from pathlib import Path

import pytest

from life_tools.journal.file import file_of
from tests.program.faults.judge import (commands_in, demand_faults, demand_file, judge_early_end, judge_prefix, judge_transcript,
                                        judge_unanswered)
from tests.program.faults.scenes import SCENES, Scene, book_before, checkpoint_before
from tests.program.runs import JOURNAL, KEPT, Desk, Ended, case, strace
from tests.support.program import Program

pytestmark = [pytest.mark.alone, pytest.mark.timeout(1500), pytest.mark.needs("strace")]
AT_ONCE = 2
KINDS = ["openat", "flock", "statx", "newfstatat", "pread64", "read", "pwrite64", "write", "fsync", "fdatasync"]
READ, WRITTEN = ["EIO", "EINTR"], ["EIO", "ENOSPC", "EDQUOT", "EINTR"]
ERRORS = {"openat": WRITTEN, "pwrite64": WRITTEN, "write": WRITTEN, "fsync": WRITTEN, "fdatasync": WRITTEN}
# the program opens the folder three times, so that no file takes the number of a closed stream; it can do without
HELD = 3


@dataclass(frozen=True)
class Target:
    """The k-th call of a kind on a file, in each thread, or all such calls from the k-th on."""

    kind: str
    file: str
    k: int
    on: bool = False

    def __str__(self) -> str:
        return f"{self.kind} of {self.file}, call {self.k}{' and all after it' if self.on else ''}"

    def errors(self) -> list[str]:
        # a call that is made again as long as it is interrupted would never end; so EINTR isn't injected into all calls from the
        # k-th on
        return [error for error in ERRORS.get(self.kind, READ) if not (self.on and error in ("EINTR", "EDQUOT"))]


def names_in(desk: Desk) -> dict[str, list[str]]:
    """Returns the files that are watched, each with the names under which strace may see it."""
    names = {name: [name, str(desk.path / name)] for name in ("basis.csv", "q.xml", "g.xml", JOURNAL, KEPT, "script.csv", "out")}
    return {**names, "folder": [".", str(desk.path)]}


def file_of_call(desk: Desk, args: str) -> str | None:
    """Returns the watched file that a call is on, by the name or the path in its arguments."""
    path = re.match(r'AT_FDCWD<[^>]*>, "([^"]*)"', args) or re.match(r"\d+<([^>]*)>", args)
    return next((file for file, names in names_in(desk).items() if path and path[1] in names), None)


class Trial:
    """A scene in which every call fails once, and what was recorded of its undisturbed run."""

    def __init__(self, program: Program, folder: Path, scene: Scene) -> None:
        self.program, self.folder, self.scene = program, folder, scene
        desk = self.desk("recorded")
        self.undisturbed = desk.run(scene.words)
        self.lay(desk)
        # how many calls of each kind and file each thread makes, and how many of them open the journal
        self.found: dict[tuple[str, str], Counter[str]] = defaultdict(Counter)
        self.opening: Counter[tuple[str, str]] = Counter()
        self.record(desk)

    def desk(self, name: str) -> Desk:
        desk = Desk(self.program, self.folder / name)
        self.lay(desk)
        return desk

    def lay(self, desk: Desk) -> None:
        before = file_of(book_before().commands) if self.scene.has_journal else b""
        desk.lay(before, self.scene.script, checkpoint_before(self.scene.kept))

    def record(self, desk: Desk) -> None:
        desk.run(self.scene.words, strace(desk, "-y", "-e", f"trace={','.join([*KINDS, 'clone3', 'clone'])}"))
        first = ""
        for call in filter(None, (re.match(r"(\d+) +(\w+)\((.*)", line) for line in desk.lines_of("log"))):
            first = first or call[1]
            is_record = call[2] == "pwrite64" and re.search(r", 65, \d+", call[3]) is not None
            if not self.opening and (call[2].startswith("clone") or is_record):
                self.opening.update({key: counts[first] for key, counts in self.found.items()})
                # before a record is written at the end of the file, the program checks that the file is still there
                self.opening["statx", JOURNAL] -= is_record
            file = file_of_call(desk, call[3])
            if file:
                self.found[call[2], file][call[1]] += 1

    def targets(self) -> Iterator[Target]:
        """Yields every k for each kind and file; for writes and syncs also all calls from the k-th on."""
        for (kind, file), counts in self.found.items():
            for k in range(1, max(counts.values()) + 1):
                yield Target(kind, file, k)
                if kind in ("pwrite64", "fsync"):
                    yield Target(kind, file, k, True)

    def try_one(self, name: str, target: Target, error: str) -> None:
        desk = self.desk(name)
        when = f"{target.k}+" if target.on else f"{target.k}"
        paths = [word for name in names_in(desk)[target.file] for word in ("-P", name)]
        inject = f"inject={target.kind}:error={error}:when={when}"
        ended = desk.run(self.scene.words, strace(desk, *paths, "-e", f"trace={target.kind}", "-e", inject))
        log = desk.lines_of("log")
        with case(f"{self.scene.name}: {target} fails with {error}"):
            failed = any("(INJECTED)" in line for line in log)
            # how many writes the output takes depends on whether the lanes or the writer were faster
            assert failed or target.file == "out", "no call was made to fail"
            assert not ended.complaints, f"on standard error: {ended.complaints[:300]}"
            self.judge(desk, target, error if failed else "", ended)
            desk.judge_reopening()

    def judge(self, desk: Desk, target: Target, error: str, ended: Ended) -> None:
        is_held = target.kind == "openat" and target.file == "folder" and target.k <= HELD
        # Each call is made again if a signal interrupts it. The program has no signal handler, so its calls are interrupted only
        # in such a trial.
        if is_held or error in ("", "EINTR"):
            self.judge_undisturbed(desk, ended)
        elif target.file == "out":
            self.judge_cut(desk, ended)
        elif target.file not in (JOURNAL, KEPT, "folder"):
            judge_early_end(desk, ended, 6)
        elif self.scene.posts and target.file == JOURNAL and target.k > self.opening[target.kind, JOURNAL]:
            # the call may belong to a posting: it comes after those that open the journal
            demand_faults(judge_transcript(desk, ended), desk.lines_of("log"))
        else:
            judge_early_end(desk, ended, 8)

    def judge_undisturbed(self, desk: Desk, ended: Ended) -> None:
        if self.scene.posts:
            faults = judge_transcript(desk, ended).faults
            assert faults == 0, f"{faults} lines are answered fault"
        else:
            is_same = (ended.status, ended.text) == (0, self.undisturbed.text)
            assert is_same, f"status {ended.status}, printed {ended.text[:200]!r}"

    def judge_cut(self, desk: Desk, ended: Ended) -> None:
        """The output failed: the status is 7, a prefix of the text is printed, and what was posted is kept."""
        assert ended.status == 7, f"status {ended.status}, wanted 7"
        if self.scene.posts:
            judge_unanswered(desk, ended.after, True)
            judge_prefix(desk, ended)
        else:
            assert ended.text == "", f"printed {ended.text[:200]!r}, though the one write failed"
            demand_file(ended.after, commands_in(desk.before, "the file before"))


@pytest.mark.needs_proof
@pytest.mark.parametrize("scene", SCENES, ids=[scene.name for scene in SCENES])
def test_each_call_of_a_run_fails(scene: Scene, program: Program, quick: Path) -> None:
    trial = Trial(program, quick, scene)
    assert [it for it in scene.makes if it not in trial.found] == []
    tried = [(str(number), *each) for number, each in enumerate(
        (target, error) for target in trial.targets() for error in target.errors())]
    with ThreadPoolExecutor(AT_ONCE) as pool:
        list(pool.map(lambda it: trial.try_one(*it), tried))


@pytest.mark.parametrize("kind, k, error", [("pwrite64", 4, "EIO"), ("fsync", 5, "EIO"), ("statx", 1, "EINTR")])
def test_one_call_of_one_lane_fails(kind: str, k: int, error: str, program: Program, quick: Path) -> None:
    Trial(program, quick, SCENES[0]).try_one("one", Target(kind, JOURNAL, k), error)
