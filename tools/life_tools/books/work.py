"""Does work on many books: a task for each, done on this machine or on a cluster, and tried once more if it fails."""
from __future__ import annotations

import os
import time
import zlib
from concurrent.futures import BrokenExecutor, Future, ProcessPoolExecutor, ThreadPoolExecutor, as_completed
from dataclasses import dataclass, field, replace
from typing import Callable

from life_tools.books.cluster import Cluster, Make
from life_tools.books.lists import ListedBook
from life_tools.books.runs import JOURNAL, OWN, Outcome, Parts, Task, demand_journal, failure, run_once, sum_of
from life_tools.valuations.class_bases import Bases
from life_tools.journal.copied_folder import basis_files
from life_tools.common.formats import Wrong, bytes_of, demand, remark
from life_tools.common.locks import holder_of
from life_tools.common.program import demand_as_installed, life_command, program_file
from life_tools.common.progress import Progress
from life_tools.journal.record_columns import columns_at, prefix_sum
from life_tools.audit.samples import Sample
from life_tools.journal.wholeness import doubt_of

# the program's own status for a book that is in use
DISK_FAULT = 8
SECONDS_BETWEEN = 0.2


@dataclass(frozen=True)
class Asked:
    """The words, the positions by name, the number of processes, the scheduler, whether files are sent, and the parts."""

    words: tuple[str, ...]
    positions: dict[str, int]
    processes: int
    scheduler: str | None = None
    are_sent: bool = False
    parts: Parts | None = None
    are_rows_kept: bool = False
    # how many seconds to wait for a book that is in use
    wait: int = 0
    # for commands of these tools: the opening positions by name, and by name the files of rows printed already, with checksums
    firsts: dict[str, int] = field(default_factory=dict)
    rows_in: dict[str, tuple[str, str]] = field(default_factory=dict)
    # the bases of classes, and each book's part of a sample by name
    bases: tuple[Bases, ...] = ()
    drawn: dict[str, Sample] = field(default_factory=dict)

    @property
    def is_own(self) -> bool:
        return self.words[0] in OWN


def size_of(book: ListedBook) -> int:
    try:
        return os.path.getsize(book.journal)
    except OSError:
        return 0


def largest_first(books: list[ListedBook]) -> list[ListedBook]:
    return sorted(books, key=size_of, reverse=True)


def task_here(asked: Asked, book: ListedBook) -> Task:
    """Returns a task for this machine in the book's folder, or on a copy if the command takes no position."""
    at = asked.positions.get(book.name)
    is_copied = at is not None and asked.words[0] != "value" and not asked.is_own
    task = Task(book.name, book.folder, book.basis, asked.words, tuple(life_command()), at, is_copied=is_copied,
                parts=asked.parts, are_rows_kept=asked.are_rows_kept)
    return of_book(asked, task)


def of_book(asked: Asked, task: Task) -> Task:
    """Returns a task with what the commands of these tools need for its book."""
    return replace(task, first=asked.firsts.get(task.name), rows_in=asked.rows_in.get(task.name), bases=asked.bases,
                   drawn=asked.drawn.get(task.name))


def task_elsewhere(asked: Asked, book: ListedBook, program: str, program_sum: str) -> Task:
    """Returns a task for any machine, on a copy at a position."""
    at = asked.positions.get(book.name)
    task = of_book(asked, Task(book.name, book.folder, book.basis, asked.words, (program,), at, True, program_sum,
                               parts=asked.parts))
    if not asked.are_sent:
        return task
    files = {JOURNAL: columns_at(book.journal, task.at).front()}
    files.update((name, bytes_of(os.path.join(book.folder, name))) for name in names_of_basis(asked, book))
    return replace(task, sums=tuple((name, sum_of(data)) for name, data in files.items()),
                   files=tuple((name, zlib.compress(data, 1)) for name, data in files.items()))


def names_of_basis(asked: Asked, book: ListedBook) -> list[str]:
    """Returns the names of the basis files and their tables if the command needs them."""
    if asked.words[0] not in ("value", "project", *OWN):
        return []
    names = [name for each in asked.bases for name in each.names] or [book.basis]
    return list(dict.fromkeys(each for name in names for each in basis_files(book.folder, name)))


def held(asked: Asked, book: ListedBook) -> Outcome | None:
    """Waits for a book that is in use, and returns the outcome if it still is after the permitted seconds, or else None.

    This also holds on a cluster, although a copy could be taken of such a book.
    """
    until = time.monotonic() + asked.wait
    while holder := holder_of(book.journal):
        if time.monotonic() >= until:
            return Outcome(book.name, DISK_FAULT, f"diskfault: {book.journal} is in use by {holder}")
        time.sleep(SECONDS_BETWEEN)
    return None


def made_here(asked: Asked, book: ListedBook) -> Outcome:
    return held(asked, book) or run_once(task_here(asked, book))


def made_elsewhere(asked: Asked, book: ListedBook, program: str, program_sum: str) -> Task | Outcome:
    found = held(asked, book)
    if found:
        return found
    try:
        demand_journal(book.folder)
        task = task_elsewhere(asked, book, program, program_sum)
        return replace(task, doubt=doubt_of(book.journal)) if asked.are_sent else task
    except Wrong as wrong:
        return failure(book.name, wrong)


def seen_alike(asked: Asked, book: ListedBook, outcome: Outcome) -> Outcome:
    """Returns the outcome of a copy if it was a copy of what this machine sees, and otherwise a failure that says it was not."""
    position = outcome.position
    if outcome.status or position is None or not outcome.sums:
        return outcome
    told = dict(outcome.sums)
    try:
        seen = {JOURNAL: prefix_sum(book.journal, position)}
        seen.update((name, sum_of(bytes_of(os.path.join(book.folder, name)))) for name in names_of_basis(asked, book))
        for name, wanted in seen.items():
            demand(told.get(name) == wanted, f"its worker sees another {name} than the one asked for")
    except (Wrong, OSError, ValueError) as wrong:
        return failure(book.name, wrong)
    return outcome


class Told:
    """Reports each book that failed, and how many are done."""

    def __init__(self, books: int) -> None:
        self.progress, self.done = Progress("books", books), 0

    def tell(self, outcome: Outcome) -> None:
        self.progress.end()
        if outcome.status:
            remark(f"{outcome.name}: status {outcome.status}: {outcome.line}")
        elif outcome.doubt:
            remark(f"{outcome.name}: {outcome.doubt}")
        self.done += 1
        self.progress.at(self.done)


def result_of(future: Future[Outcome], book: ListedBook) -> Outcome:
    try:
        return future.result()
    except BrokenExecutor as broken:
        return failure(book.name, Wrong(f"its process ended: {broken}"))


def run_here(asked: Asked, books: list[ListedBook]) -> list[Outcome]:
    """Runs the books on this machine.

    A run of the program is a process already; what these tools make themselves gets a process for each book.
    """
    told, outcomes = Told(len(books)), []
    with (ProcessPoolExecutor if asked.is_own else ThreadPoolExecutor)(asked.processes) as pool:
        begun = {pool.submit(made_here, asked, book): book for book in largest_first(books)}
        for future in as_completed(begun):
            outcomes.append(result_of(future, begun[future]))
            told.tell(outcomes[-1])
    told.progress.end()
    return outcomes


def run_elsewhere(asked: Asked, books: list[ListedBook], cluster: Cluster) -> list[Outcome]:
    program = program_file()
    program_sum = sum_of(bytes_of(program))

    def maker(book: ListedBook) -> Make:
        return lambda: made_elsewhere(asked, book, program, program_sum)
    told, by_name = Told(len(books)), {book.name: book for book in books}
    outcomes = cluster.run([maker(book) for book in largest_first(books)],
                           lambda outcome: seen_alike(asked, by_name[outcome.name], outcome), told.tell)
    told.progress.end()
    return outcomes


def twice(asked: Asked, books: list[ListedBook], run: Callable[[Asked, list[ListedBook]], list[Outcome]]) -> list[Outcome]:
    """Returns the outcome for each book, in the order of the list; a book that failed is tried once more."""
    first = {outcome.name: outcome for outcome in run(asked, books)}
    again = [book for book in books if first[book.name].status]
    if again:
        remark(f"tried once more: {', '.join(book.name for book in again)}")
        first.update((outcome.name, replace(outcome, tried=2)) for outcome in run(asked, again))
    return [first[book.name] for book in books]


def work(asked: Asked, books: list[ListedBook]) -> list[Outcome]:
    demand_as_installed()
    if asked.scheduler is None:
        return twice(asked, books, run_here)
    cluster = Cluster(asked.scheduler)
    try:
        return twice(asked, books, lambda those, some: run_elsewhere(those, some, cluster))
    finally:
        cluster.close()


def processors() -> int:
    return len(os.sched_getaffinity(0))
