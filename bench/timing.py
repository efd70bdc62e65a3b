"""Times what the figures are taken from, and makes the folders and journals over which they are taken.

Whole commands are timed by hyperfine, and their memory is measured by GNU time. A part of a run is timed by watching it.
What is timed has real-time priority if the machine allows it, and the watching process has a higher one. With a high weight
alone, a thread that wakes while its processor is busy waits for the next tick of 4 ms, so that a figure also shows other work.
"""
from __future__ import annotations

import functools
import json
import os
import shlex
import shutil
import signal
import statistics
import subprocess
import sys
import tempfile
import time
from collections.abc import Callable, Iterable, Iterator, Mapping, Sequence
from pathlib import Path
from typing import Any, NamedTuple, TypeVar

from life_tools.common.arrays import Array, np
from life_tools.journal.file import FIRST_GATE, RECORD_SIZE
from life_tools.journal.records import ISSUE, PREMIUM
from life_tools.rules.tables import PLAN_CODES
from tests.support.big_journals import DAY, records, write_records

ROOT = Path(__file__).resolve().parent.parent
# a process that was started at a real-time priority of its own times at that priority, if other work has the lowest one
TIMED = max(os.sched_getparam(0).sched_priority, 1)
# where postings are made, and where nothing waits for a disk
DISK = os.path.realpath(os.environ.get("FOLDER", "."))
MEMORY = "/dev/shm" if os.path.isdir("/dev/shm") else DISK
ROUNDS = int(os.environ.get("ROUNDS", "5"))
MILLION, LONGEST = 1_000_000, 16 * 1024 * 1024
LAST_NUMBER = 4294967295
FIRST_DAY = 10957

Value = TypeVar("Value")
# what is measured, the figure, and what it is compared with
Row = tuple[str, str, str]
Figure = Callable[[], Iterator[Row]]
FIGURES: dict[str, Figure] = {}


def figure(make: Figure) -> Figure:
    """Makes a figure known by the name of its function."""
    FIGURES[make.__name__] = make
    return make


class Run(NamedTuple):
    """The median seconds by the clock, the mean seconds of the processors, and the median of the most memory in MiB."""

    clock: float
    used: float
    peak: float

    def __str__(self) -> str:
        return f"{self.clock:.2f} s, {self.peak:.0f} MiB"


@functools.cache
def life() -> str:
    """Returns the program that is measured: LIFE_PROGRAM, or the proved one, which is proved and built first."""
    if "LIFE_PROGRAM" not in os.environ:
        subprocess.run(["sh", ROOT / "life", "prove"], check=True)
    return os.path.realpath(os.environ.get("LIFE_PROGRAM", ROOT / "crates" / "life_cli" / "out" / "life_cli"))


def watch() -> None:
    """Gives this process a higher priority than the processes that it times."""
    # if it is ended from outside, it removes its folders, too
    signal.signal(signal.SIGTERM, lambda *_: sys.exit(143))
    try:
        os.sched_setscheduler(0, os.SCHED_FIFO, os.sched_param(TIMED + 1))
    except PermissionError:
        print("without real-time priority: the figures also show the machine's other work", file=sys.stderr)


def below_watcher() -> None:
    if os.sched_getscheduler(0) == os.SCHED_FIFO:
        os.sched_setscheduler(0, os.SCHED_FIFO, os.sched_param(TIMED))


def median(values: Iterable[float]) -> float:
    return float(statistics.median(values))


def in_turn(rounds: int, ways: Mapping[Any, Callable[[], float]]) -> dict[Any, float]:
    """Returns the median of each way in this number of rounds; every other round goes from the last way to the first."""
    found: dict[Any, list[float]] = {name: [] for name in ways}
    for number in range(rounds):
        for name in list(ways)[::1 if number % 2 == 0 else -1]:
            found[name].append(ways[name]())
    return {name: median(values) for name, values in found.items()}


# --- journals ---

def drawn(count: int) -> Array:
    """Returns issues with consecutive numbers, in the ranges in which `life generate` draws."""
    draw = np.random.default_rng(1)
    plan, units = draw.integers(1, 5, count), draw.integers(1, 1001, count)
    return records(count, kind=ISSUE, plan=plan, age=draw.integers(20, 80, count), number=np.arange(1, count + 1),
                   years=np.where(plan == PLAN_CODES["whole"], 0, draw.integers(2, 22, count)),
                   day=FIRST_DAY + draw.integers(0, 3650, count), amount=units * 100000, premium=units * 2000)


def paid(policies: int) -> Array:
    """Returns issues, and then the premiums of three years."""
    numbers = np.arange(1, policies + 1)
    issues = records(policies, kind=ISSUE, plan=PLAN_CODES["endowment"], age=30, years=20, number=numbers, day=DAY,
                     amount=100000 + numbers, premium=40000)
    return np.concatenate([issues, *(records(policies, kind=PREMIUM, number=numbers, day=day, amount=40000)
                                     for day in (DAY, DAY + 366, DAY + 366 + 365))])


def issue_lines(lanes: Sequence[int], numbers: Iterable[int], rest: str = "endowment,30,20,1000.00,40.00") -> list[str]:
    """Returns lines that issue policies of these numbers, dealt to the lanes in turn."""
    return [f"{lanes[n % len(lanes)]},issue,{number},2020-01-01,{rest}" for n, number in enumerate(numbers)]


class Folder:
    """A new folder with table G, a basis at 4 percent, and a journal of these records."""

    def __init__(self, parent: str, some: Array | None = None) -> None:
        self.path, self.marks = Path(tempfile.mkdtemp(prefix="figures.", dir=parent)), 0
        self.journal = self.path / "journal.life"
        shutil.copy(ROOT / "examples" / "g.xml", self.path)
        self.write("basis.csv", ["1900-01-01,g.xml,400"])
        if some is not None:
            write_records(self.journal, some)
        os.sync()

    def write(self, name: str, lines: Iterable[str]) -> None:
        (self.path / name).write_text("".join(f"{line}\n" for line in lines), encoding="ascii")

    def __enter__(self) -> Folder:
        return self

    def __exit__(self, *_: object) -> None:
        shutil.rmtree(self.path)

    def plain(self, name: str) -> str:
        """Builds a plain program of bench/, in Rust or C, for comparison with `life`."""
        source = next((ROOT / "bench").glob(f"{name}.*"))
        words = ["rustc", "-O", "--edition", "2024"] if source.suffix == ".rs" else ["cc", "-O2"]
        subprocess.run([*words, "-o", self.path / name, source], check=True)
        return str(self.path / name)

    def count(self) -> int:
        """Returns the number of records in the journal."""
        return (self.journal.stat().st_size - FIRST_GATE - 1) // RECORD_SIZE if self.journal.exists() else 0

    def whole(self, commands: Mapping[str, Sequence[str]], given: str = os.devnull, prepare: str = "true", runs: int = ROUNDS,
              statuses: Sequence[int] = (0,)) -> dict[str, Run]:
        """Times whole commands here, which read this file; `prepare` is run before each."""
        words = ["hyperfine", "--shell=none", "--style=none", "--ignore-failure", "--runs", str(runs), "--export-json", "times",
                 "--prepare", prepare]
        for place, command in enumerate(commands.values()):
            words.append(shlex.join(["/usr/bin/time", "-q", "-a", "-o", f"memory{place}", "-f", "%M", "sh", "-c",
                                     f'exec "$@" <{given}', "sh", *command]))
        subprocess.run(words, cwd=self.path, check=True, stdout=subprocess.DEVNULL, preexec_fn=below_watcher)
        found = {}
        for place, (name, result) in enumerate(zip(commands, json.loads((self.path / "times").read_text())["results"])):
            if not set(result["exit_codes"]) <= set(statuses):
                sys.exit(f"wrong: status {result['exit_codes']} of {' '.join(commands[name])}")
            memory = self.path / f"memory{place}"
            peak = median(map(int, memory.read_text().split())) / 1024
            found[name] = Run(result["median"], result["user"] + result["system"], peak)
            memory.unlink()
        return found

    def start(self, words: Sequence[str], given: str = os.devnull, **streams: Any) -> subprocess.Popen[bytes]:
        with open(self.path / given, "rb") as file:
            return subprocess.Popen(words, stdin=file, cwd=self.path, preexec_fn=below_watcher, bufsize=0, **streams)

    def watched(self, lines: list[str], marks: Iterable[int] = ()) -> tuple[list[tuple[float, int]], list[float]]:
        """Runs a script. Returns when the journal had which number of records, and when it had the issue of each mark."""
        self.write("script.csv", lines)
        seen, grown, found = self.count(), list[tuple[float, int]](), dict[int, float]()
        run = self.start([life(), "run"], "script.csv", stdout=subprocess.DEVNULL)
        is_over = False
        while not is_over:
            # after its end it is looked at once more
            is_over = run.poll() is not None
            count, now = self.count(), time.perf_counter()
            if count > seen:
                with open(self.journal, "rb") as file:
                    file.seek(FIRST_GATE + RECORD_SIZE * seen)
                    new = file.read(RECORD_SIZE * (count - seen))
                for mark in marks:
                    if mark.to_bytes(4, "big") in new:
                        found.setdefault(mark, now)
                grown.append((now, count))
                seen = count
            time.sleep(0.0002)
        need_right(run)
        return grown, [found[mark] for mark in marks]

    def between_marks(self, lines: list[str], others: Sequence[str] = ()) -> float:
        """Returns the seconds in which lane 1 runs these lines, measured between two postings of it; other lanes run others."""
        self.marks += 2
        marks = [LAST_NUMBER - self.marks, LAST_NUMBER - self.marks + 1]
        first, last = issue_lines([1], marks)
        _, (begun, ended) = self.watched([first, *lines, last, *others], marks)
        return ended - begun

    def from_last_read_to_first_write(self, *words: str) -> float:
        """Returns the seconds in which a command neither reads nor writes: a valuation with its text, or a projection."""
        run = self.start([life(), *words], stdout=subprocess.DEVNULL)
        read, wrote, last_read = 0, 0, time.perf_counter()
        while run.poll() is None and not wrote:
            try:
                counts = dict(line.split(": ") for line in Path(f"/proc/{run.pid}/io").read_text(encoding="ascii").splitlines())
                now, wrote = int(counts["rchar"]), int(counts["wchar"])
            except (OSError, ValueError, KeyError):
                break
            if now != read:
                read, last_read = now, time.perf_counter()
            time.sleep(0.0001)
        seconds = time.perf_counter() - last_read
        need_right(run)
        return seconds


def need_right(run: subprocess.Popen[bytes]) -> None:
    if run.wait() != 0:
        sys.exit(f"wrong: status {run.returncode} of {run.args!r}")
