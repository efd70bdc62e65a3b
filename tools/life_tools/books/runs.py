"""Runs the program over one book of many, in its folder or on a copy at a position; workers call this."""
from __future__ import annotations

import hashlib
import os
import shutil
import socket
import subprocess
import tempfile
import threading
import zlib
from concurrent.futures import ThreadPoolExecutor
from dataclasses import dataclass, field, replace
from typing import IO, Any, Iterator

from life_tools.books.totals import Text, text_in
from life_tools.valuations.class_bases import Bases, one_basis
from life_tools.journal.copied_folder import copy_basis
from life_tools.common.files import written_whole
from life_tools.common.formats import Wrong, bytes_of, demand
from life_tools.common.program import program_beside
from life_tools.journal.record_columns import beginnings_at, copy_prefix, prefix_count, prefix_sum, places_in
from life_tools.audit.samples import Sample
from life_tools.journal.file import BadJournal
from life_tools.valuations.rows import VALUATION, valuation_rows
from life_tools.journal.wholeness import doubt_of

JOURNAL = "journal.life"
# the words of commands whose results these tools make from what the program prints
OWN = ("report", "movement", "statement", "due", "flags", "sample", "papers", "letters")
# the status if the program cannot be run at all, and the program's own status for a file that is not a journal
NOT_DONE, BAD_JOURNAL = 2, 5


@dataclass(frozen=True)
class Parts:
    """Where the lines of a book are written: a file of its own in this folder, as CSV or SQLite."""

    folder: str
    form: str


@dataclass(frozen=True)
class Task:
    """The work on one book: the arguments, the program or how to find it, the position, and what a copy must be."""

    name: str
    folder: str
    basis: str
    words: tuple[str, ...]
    life: tuple[str, ...]
    at: int | None = None
    is_copied: bool = False
    # for a worker on another machine: the checksum of the program; and if files are sent, the checksum of each, and the files
    program_sum: str = ""
    sums: tuple[tuple[str, str], ...] = ()
    files: tuple[tuple[str, bytes], ...] = ()
    parts: Parts | None = None
    are_rows_kept: bool = False
    doubt: str = ""
    # the opening position; and for rows that were printed already, the file and its checksum
    first: int | None = None
    rows_in: tuple[str, str] | None = None
    # the bases of classes (for a change, those before and after it), and the book's part of a sample
    bases: tuple[Bases, ...] = ()
    drawn: Sample | None = None

    @property
    def basis_names(self) -> list[str]:
        """Returns the names of the basis files that the folder must have."""
        return list(dict.fromkeys(name for each in self.bases for name in each.names)) or [self.basis]


@dataclass
class Outcome:
    """The outcome of a task: the status and the last line; and if the status is 0, what is to be added up.

    `beginnings` has the first bytes of the policies' numbers: if those of two books differ, no number is in both. They may
    include numbers of later commands. For a copy, `sums` has the checksums of the files by their names.
    """

    name: str
    status: int
    line: str = ""
    text: Text | None = None
    beginnings: frozenset[int] = frozenset()
    sums: tuple[tuple[str, str], ...] = ()
    rows: str = ""
    part: tuple[str, str, str] | None = None
    doubt: str = ""
    tried: int = field(default=1)
    # for a command that the program does not have: what these tools made
    made: Any = None

    @property
    def position(self) -> int | None:
        """Returns the position of what was made, or None if nothing was."""
        found = self.text or self.made
        return found.position if found else None


def sum_of(data: bytes) -> str:
    return hashlib.sha256(data).hexdigest()


# --- the program of a worker ---

def program_of(task: Task) -> list[str]:
    """Returns the program's arguments. On another machine the program is the one with the wanted checksum, wherever it is."""
    if not task.program_sum:
        return list(task.life)
    found = shutil.which("life")
    folders = [*([os.path.dirname(os.path.realpath(found))] if found else []), os.path.expanduser("~/.local/bin")]
    places = [os.environ.get("LIFE_PROGRAM"), *task.life[-1:], *map(program_beside, folders)]
    for place in filter(None, places):
        if os.path.isfile(place) and sum_of(bytes_of(place)) == task.program_sum:
            return [place]
    raise Wrong(f"{socket.gethostname()} has no program of the sum {task.program_sum[:16]}: install the same one there")


# --- the folder ---

def lay_copy(task: Task, folder: str) -> None:
    """Copies what the task needs into a folder: the prefix of the journal, the basis and its tables."""
    if task.files:
        for name, packed in task.files:
            with open(os.path.join(folder, name), "wb") as file:
                file.write(zlib.decompress(packed))
    else:
        demand_journal(task.folder)
        copy_prefix(os.path.join(task.folder, JOURNAL), task.at, os.path.join(folder, JOURNAL))
        for name in task.basis_names:
            copy_basis(task.folder, name, folder)
    for name, wanted in task.sums:
        path = os.path.join(folder, name)
        demand(os.path.exists(path), f"{socket.gethostname()} doesn't see {os.path.join(task.folder, name)}")
        demand(sum_of(bytes_of(path)) == wanted, f"{socket.gethostname()} sees another {name} than the one asked for")


def demand_journal(folder: str) -> None:
    """Raises Wrong if there is no journal, because the program would make one."""
    path = os.path.join(folder, JOURNAL)
    demand(os.path.isfile(path), f"there is no {path}")


# --- the run ---

def words_of(task: Task) -> list[str]:
    at = ["--at", str(task.at)] if task.at is not None and task.words[0] == "value" and not task.is_copied else []
    basis = ["--basis", task.basis] if task.words[0] in ("value", "project") else []
    return [*task.words, *at, *basis]


def printed_by(life: list[str], words: list[str], folder: str, out: IO[bytes]) -> tuple[int, str]:
    """Runs the program and returns the status, and what it wrote to standard error."""
    try:
        ran = subprocess.run([*life, *words], cwd=folder, stdin=subprocess.DEVNULL, stdout=out, stderr=subprocess.PIPE,
                             check=False)
    except OSError as error:
        raise Wrong(f"{life[0]}: {error.strerror}") from error
    return ran.returncode, ran.stderr.decode("utf-8", "replace").strip()


def lines_in(file: IO[bytes]) -> Iterator[str]:
    for line in file:
        yield line.decode("ascii", "replace").rstrip("\n")


def last_line(file: IO[bytes]) -> str:
    file.seek(max(0, file.seek(0, os.SEEK_END) - 4096))
    lines = file.read().decode("ascii", "replace").splitlines()
    return lines[-1] if lines else ""


def named(name: str, file: IO[bytes], out: IO[bytes]) -> None:
    """Writes the lines of a file, each with the book's name before it."""
    front = name.encode() + b","
    file.seek(0)
    is_new = True
    while piece := file.read(1 << 20):
        lines = piece.replace(b"\n", b"\n" + front)
        is_whole = lines.endswith(b"\n" + front)
        out.write((front if is_new else b"") + (lines[:-len(front)] if is_whole else lines))
        is_new = is_whole


def write_part(task: Task, file: IO[bytes]) -> tuple[str, str, str]:
    """Writes the lines to a file in the folder of parts, and returns the host, the path, and the checksum."""
    assert task.parts
    os.makedirs(task.parts.folder, exist_ok=True)
    path = os.path.join(task.parts.folder, f"{task.name}.{'csv' if task.parts.form == 'csv' else 'db'}")
    is_csv = task.parts.form == "csv"
    written_whole(path, lambda part: write_named(task, file, part) if is_csv else write_part_database(task, file, part))
    return socket.gethostname(), path, sum_of(bytes_of(path))


def write_named(task: Task, file: IO[bytes], path: str) -> None:
    with open(path, "wb") as out:
        named(task.name, file, out)


def write_part_database(task: Task, file: IO[bytes], path: str) -> None:
    import sqlite3
    file.seek(0)
    database = sqlite3.connect(path)
    database.execute(f"create table valuation (book text, {', '.join(VALUATION)})")
    rows = ((task.name, *row) for row in valuation_rows(task.name, lines_in(file)))
    database.executemany(f"insert into valuation values ({','.join('?' * (len(VALUATION) + 1))})", rows)
    database.commit()
    database.close()


@dataclass(frozen=True)
class Look:
    """What was seen of a folder while the program ran: the count, the beginnings of the numbers, and the checksums of a copy's
    files.

    `doubt` is what must be reported because the book may not be whole. If commands are known to be gone, an error is raised
    instead.
    """

    count: int
    beginnings: frozenset[int]
    sums: tuple[tuple[str, str], ...]
    doubt: str


def look_at(task: Task, folder: str) -> Look:
    path = os.path.join(folder, JOURNAL)
    count = prefix_count(path) if task.is_copied else places_in(path)
    if count is None:
        return Look(0, frozenset(), (), "")
    doubt = task.doubt if task.files else doubt_of(os.path.join(task.folder, JOURNAL))
    sums = tuple(sums_of(folder, count)) if task.is_copied and not task.sums else ()
    return Look(count, beginnings_at(path, count), sums, doubt)


def sums_of(folder: str, count: int) -> Iterator[tuple[str, str]]:
    for name in sorted(os.listdir(folder)):
        path = os.path.join(folder, name)
        yield name, prefix_sum(path, count) if name == JOURNAL else sum_of(bytes_of(path))


# One look at a time, in parallel to the runs of the program. Each run has a thread of its own for its look: the thread of a pool
# of this module would be missing from a process that is forked later, which would wait for its look for ever.
ONE_LOOK = threading.Lock()


def look_alone(task: Task, folder: str) -> Look:
    with ONE_LOOK:
        return look_at(task, folder)


def own_in(task: Task, folder: str) -> Outcome:
    """Makes what these tools compute of a book."""
    from life_tools.books.sheets import Wanted, made_of
    program = program_of(task)
    life = program[0] if len(program) == 1 else None
    bases = task.bases or (one_basis(task.basis),)
    made = made_of(Wanted(task.name, folder, bases, life, task.first, task.at, task.words, task.rows_in, task.drawn))
    look = look_at(task, folder)
    begun = beginnings_at(os.path.join(folder, JOURNAL), made.position)
    return Outcome(task.name, 0, beginnings=begun, sums=look.sums, doubt=look.doubt, made=made)


def run_in(task: Task, folder: str, file: IO[bytes]) -> Outcome:
    if task.words[0] in OWN:
        return own_in(task, folder)
    program = program_of(task)
    with ThreadPoolExecutor(1) as pool:
        looking = pool.submit(look_alone, task, folder)
        status, said = printed_by(program, words_of(task), folder, file)
    if status != 0:
        return Outcome(task.name, status, last_line(file) or said.rpartition("\n")[2])
    text, look = text_in(task.words[0], file), looking.result()
    begun = look.beginnings if look.count >= text.position else beginnings_at(os.path.join(folder, JOURNAL), text.position)
    outcome = Outcome(task.name, 0, text=text, beginnings=begun, sums=look.sums, doubt=look.doubt)
    if task.parts:
        outcome.part = write_part(task, file)
    if task.are_rows_kept:
        outcome.rows = file.name
    return outcome


def failure(name: str, why: Exception) -> Outcome:
    if isinstance(why, BadJournal):
        return Outcome(name, BAD_JOURNAL, why.line)
    status = why.status if isinstance(why, Wrong) else NOT_DONE
    return Outcome(name, status, str(why).replace("\n", " "))


def run_on(task: Task, folder: str, room: str | None) -> Outcome:
    """Runs a task in a folder; the file with its lines is kept if the task asks for that."""
    with tempfile.NamedTemporaryFile(prefix="life-book-", dir=room, delete=False) as file:
        try:
            outcome = run_in(task, folder, file)
        except BaseException:
            os.remove(file.name)
            raise
    if not outcome.rows:
        os.remove(file.name)
    return outcome


def run_once(task: Task, room: str | None = None) -> Outcome:
    """Runs a task; if the program cannot be run, the outcome has a status of its own. Copies are made in the folder `room`."""
    desk = ""
    try:
        if not task.is_copied:
            demand_journal(task.folder)
            return run_on(task, task.folder, room)
        with tempfile.TemporaryDirectory(prefix="life-books-", dir=room) as desk:
            lay_copy(task, desk)
            return run_on(task, desk, room)
    except (Wrong, OSError, ValueError, zlib.error) as wrong:
        outcome = failure(task.name, wrong)
        # the path of the copy means nothing to the reader
        return replace(outcome, line=outcome.line.replace(desk, task.folder)) if desk else outcome
