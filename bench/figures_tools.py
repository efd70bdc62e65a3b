"""Figures of the tools with large books, of the window, and of lists of books."""
import importlib
import os
import shutil
import sys
import threading
import time
from collections.abc import Iterator
from contextlib import suppress
from pathlib import Path
from typing import Any

from life_tools.common.arrays import Array, np
from life_tools.journal.day_columns import anniversaries
from life_tools.journal.records import ISSUE, PREMIUM
from life_tools.rules.tables import PLAN_CODES
from tests.support.big_journals import DAY, alike, records, write_records
from tests.support.clusters import Cluster
from tests.support.program import Program
from tests.support.windows import Window, installed
from timing import DISK, MEMORY, MILLION, ROOT, Folder, Row, drawn, figure, issue_lines, life, paid

psutil: Any = importlib.import_module("psutil")

TOOL = [sys.executable, "-B", str(ROOT / "tools" / "life-tools")]
# the tools over a full book, and the commands of the program with which the time of each is compared
FULL = {
    "check": ("check line.csv --today 2023-01-15", ("state",)),
    "position-on": ("position-on 2023-01-01 journal.life", ("state",)),
    "why": ("why 77 2023-01-01", ("value", "state")),
    "report": ("report 2023-01-01 --csv report.csv", ("value", "state")),
    "due": ("due 2023-01-01", ("state",)),
    "read --verify": ("read --verify journal.life", ("state",)),
    "read-checkpoint": ("read-checkpoint kept journal.life", ("state",)),
    "export csv": ("export csv journal.life", ("value",)),
}
# pages of the window for which the program computes something anew, and pages that need no more than what was computed
ON = "2023-01-01"
NEW = (f"/1/policy?number=77777&on={ON}", f"/1/report?on={ON}&measure=mean", f"/1/day?day={ON}",
       "/1/audit", "/1/stands", "/1/movement?on1=2021-01-01&p1={half}&on2=2022-01-01&p2={most}",
       "/1/statement?on1=2021-01-01&p1={half}&on2=2022-01-01&p2={most}", "/1/flags", f"/1/sample?on={ON}&count=50")
OTHERS = ("/1/", "/1/find", "/1/find?sort=amount&order=down", "/1/find?number=999&page=3", "/1/find?page=2500&sort=issued",
          "/1/find?plan=endowment&sort=age&order=down&page=2000", *NEW[:5], f"/1/day/list?day={ON}&what=premium", "/1/month")


@figure
def due() -> Iterator[Row]:
    with Folder(MEMORY, drawn(MILLION)) as folder:
        run = folder.whole({"due": [*TOOL, "due", "2010-01-01"]})["due"]
    yield f"`due` over {MILLION:,} policies", str(run), ""


@figure
def rest() -> Iterator[Row]:
    """Measures the rest of a run of eight lanes that was killed half-way: the journal has the first half of the rows."""
    numbers = np.arange(1, 300_001)
    with Folder(MEMORY, alike(numbers[:len(numbers) // 2])) as folder:
        folder.write("script.csv", issue_lines(range(1, 9), numbers, "endowment,0,3,1000.00,400.00"))
        run = folder.whole({"rest": [*TOOL, "rest", "script.csv", "journal.life", "0"]})["rest"]
    yield f"`rest` of {len(numbers):,} rows of eight lanes, half of them answered", str(run), ""


@figure
def export() -> Iterator[Row]:
    with Folder(MEMORY, paid(MILLION // 4)) as folder:
        folder.start(["sh", "-c", 'exec "$0" value 2023-01-01 >value.csv', life()]).wait()
        with_values = ["--valuation", "value.csv", "journal.life", "made"]
        found = folder.whole({"csv": [*TOOL, "export", "csv", "journal.life"],
                              **{form: [*TOOL, "export", form, *with_values] for form in ("sqlite", "pandas")}},
                             prepare="rm -rf made")
    yield (f"`export sqlite` of {MILLION:,} commands and a valuation of their policies", str(found["sqlite"]),
           f"`csv` {found['csv']}; `pandas` {found['pandas']}")


@figure
def full() -> Iterator[Row]:
    """Measures tools over a book of issues and premiums of three years with one command left."""
    with Folder(MEMORY, paid(MILLION)[:-1]) as folder:
        folder.start([life(), "checkpoint"]).wait()
        os.rename(folder.path / "checkpoint.life", folder.path / "kept")
        folder.write("line.csv", ["1,premium,77,2023-01-15,400.00"])
        asked = {"state": [life(), "state"], "value": [life(), "value", ON]}
        found = folder.whole(asked | {name: [*TOOL, *words.split()] for name, (words, _) in FULL.items()})
    for name, (_, others) in FULL.items():
        seconds = sum(found[each].clock for each in others)
        yield (f"`{name}` of {4 * MILLION - 1:,} commands", str(found[name]),
               f"`{'` and `'.join(others)}` {seconds:.2f} s: {found[name].clock / seconds:.1f} times")


# --- the window ---

class Memory(threading.Thread):
    """The most memory that a process and its children have had together, in MiB; what they share is counted once."""

    def __init__(self, process: int) -> None:
        super().__init__(daemon=True)
        self.process, self.most = psutil.Process(process), 0.0

    def run(self) -> None:
        while True:
            with suppress(psutil.Error):
                family = [self.process, *self.process.children(recursive=True)]
                self.most = max(self.most, sum(each.memory_full_info().pss for each in family) / 2**20)
            time.sleep(0.05)


@figure
def window() -> Iterator[Row]:
    for commands in (MILLION, 4 * MILLION):
        places = {"half": commands // 2, "most": commands * 3 // 4}
        # the window's own files are beside the book
        with Folder(MEMORY) as top, Folder(str(top.path), paid(commands // 4)) as folder:
            tools = installed(top.path / "bin", Program(Path(life()), is_proved=True))
            begun = time.perf_counter()
            with Window(tools, folder.path) as opened:
                memory = Memory(opened.process.pid)
                memory.start()

                def seconds(path: str) -> float:
                    asked = time.perf_counter()
                    opened.page(path.format(**places))
                    return time.perf_counter() - asked

                seconds("/1/")
                first = time.perf_counter() - begun
                new = {path: seconds(path) for path in NEW}
                again = {path: min(seconds(path) for _ in range(3)) for path in OTHERS}
        yield f"`browse`, its first page, of {commands:,} commands", f"{first:.1f} s", ""
        for path, took in new.items():
            yield f"its page `{path}`, computed anew", f"{took:.2f} s", ""
        yield "its other pages", f"at most {max(again.values()):.2f} s", f"`{max(again, key=lambda path: again[path])}`"
        yield "its memory, with the program's", f"{memory.most:.0f} MiB", ""


# --- lists of books ---

@figure
def books() -> Iterator[Row]:
    """Compares `books` by four processes with the longest share if single runs are divided among four, and its workers on a
    cluster with as many processes."""
    value = ("value", "2024-12-31")
    with Folder(DISK) as folder:
        folder.start([sys.executable, str(ROOT / "examples" / "many_books.py"), ".", "8", str(MILLION)]).wait()
        names = [book.name for book in folder.path.glob("book*/")]
        inside = {name: ["sh", "-c", f'cd {name} && exec "$@"', "sh", life(), *value] for name in names}
        shares = [0.0] * 4
        for run in sorted(folder.whole(inside).values(), reverse=True):
            shares[shares.index(min(shares))] += run.clock
        cluster = Cluster(folder.path)
        try:
            asked = {"four": ("--processes", "4"), "two": ("--processes", "2"), "workers": ("--scheduler", cluster.address)}
            found = folder.whole({name: [*TOOL, "books", "books.csv", *value, "--totals", *words]
                                  for name, words in asked.items()})
        finally:
            cluster.end()
    yield (f"`books`, eight of {MILLION:,} policies, four processes", f"{found['four'].clock:.1f} s",
           f"{found['four'].clock / max(shares):.2f} times a quarter of single runs")
    yield "`books` by two workers of a cluster", f"{found['workers'].clock:.1f} s", f"two processes {found['two'].clock:.1f} s"


def years_of(place: int, policies: int, commands: int) -> Array:
    """Returns the issue of each of these whole life policies, and then a premium on each anniversary, by policy year."""
    draw, numbers = np.random.default_rng(place), np.arange(policies) + place * policies + 1
    issued = DAY - 9262 + draw.integers(0, 3650, policies)
    return np.concatenate([
        records(policies, kind=ISSUE, plan=PLAN_CODES["whole"], age=draw.integers(20, 60, policies), number=numbers, day=issued,
                amount=10_000_000, premium=40_000),
        *(records(policies, kind=PREMIUM, number=numbers, day=anniversaries(issued, year), amount=40_000)
          for year in range(commands - 1))])


def write_book(folder: Folder, place: int, policies: int, commands: int = 16) -> str:
    """Writes a book into a folder of its own, and returns its row of the list. One book has a basis of another name."""
    name, basis = f"book{place + 1}", "other.csv" if place == 1 else "basis.csv"
    (folder.path / name).mkdir()
    write_records(folder.path / name / "journal.life", years_of(place, policies, commands))
    folder.write(f"{name}/{basis}", [f"1900-01-01,g.xml,{350 if place == 1 else 400}"])
    shutil.copy(folder.path / "g.xml", folder.path / name)
    return f"{name},{name},{basis}"


@figure
def split() -> Iterator[Row]:
    for policies in (MILLION // 16, MILLION // 4):
        with Folder(DISK) as folder:
            write_book(folder, 0, policies)
            quarter = policies // 4
            rules = [f"numbers={quarter * place + 1}-{quarter * (place + 1)}" for place in range(3)]
            run = folder.whole({"split": [*TOOL, "books", "split", "book1/journal.life", *rules, "others",
                                          *(f"part{place}" for place in range(4))]}, runs=1)["split"]
        yield f"`books split` of {16 * policies:,} commands in four", f"{run.clock:.0f} s", ""


@figure
def company() -> Iterator[Row]:
    """Measures a month-end of full books: positions, a total, rows that are kept, and a report on these rows."""
    steps = ("position-on 2024-12-31 >at.csv", "value 2024-12-31 --at at.csv --totals",
             "value 2024-12-31 --at at.csv --parts rows", "report 2024-12-31 --at at.csv --rows rows --csv report")
    count, policies = 40, MILLION // 4
    with Folder(DISK) as folder:
        folder.write("books.csv", [write_book(folder, place, policies) for place in range(count)])
        os.sync()
        words = " && ".join(f'"$@" books.csv {step}' for step in steps)
        run = folder.whole({"month-end": ["sh", "-c", words, "sh", *TOOL, "books"]}, runs=1)["month-end"]
    yield (f"a month-end of {count} books of {policies:,} policies", f"{run.clock / 60:.1f} min",
           f"{run.used / 60:.0f} processor minutes")
