"""Divides a book: finds the journals that its parts must become, and has the program make them in memory.

The program runs each part's lines in their order, as scripts of at most the permitted size, and all parts in parallel. A part is
right if its journal has exactly the old book's records of its policies. Together, the states must equal the old one line by line,
the valuations row by row, and the balances in sum.
"""
from __future__ import annotations

import os
import subprocess
import time
from concurrent.futures import Future, ThreadPoolExecutor
from dataclasses import dataclass, fields
from typing import IO, Iterator, Sequence

from life_tools.common.arrays import Array, np
from life_tools.books.totals import Text, text_in, total_of
from life_tools.journal.columns import Columns
from life_tools.journal.copied_folder import JOURNAL, copy_basis, written
from life_tools.common.formats import MOST_SCRIPT_BYTES, Wrong, demand
from life_tools.journal.records import UPGRADE, Records, raw_records
from life_tools.journal.file import FIRST_GATE, RECORD_SIZE
from life_tools.common.progress import Progress
from life_tools.journal.record_texts import HELD, lines_of

PREFIX = "life-split-"
SECONDS_BETWEEN = 0.1
# scripts, transcripts and output need memory as well as the journals
TIMES_THE_JOURNAL = 6
OLD = "old"


class Unlike(Wrong):
    """The new books together do not show what the old one shows."""

    status = 1


@dataclass(frozen=True)
class Division:
    """A book's bytes and columns, the place of each policy's new book, the number of new books, and the day of the valuations."""

    data: bytes
    book: Columns
    places: Array
    parts: int
    folder: str
    basis: str
    on: str

    def chosen(self, part: int) -> Array:
        """Returns which records a part has: those of its policies, and the upgrade."""
        found: Array = np.append(self.places, -1)[self.book.place] == part
        found |= self.book.records.kind == UPGRADE
        return found

    def journal(self, part: int) -> bytes:
        """Returns the journal that a part must become."""
        raw = raw_records(self.data, self.book.count)
        return b"".join((self.data[:FIRST_GATE], raw[self.chosen(part)].tobytes(), bytes(1)))

    @property
    def more_commands(self) -> int:
        """Returns how many more commands the new books have together than the old one: each new book repeats the upgrade."""
        return self.parts - 1 if self.book.upgrade else 0


# --- the scripts and the runs ---

def template(kind: str) -> str:
    """Returns the template of a script's line; its columns are those of a record, of which the position is left out."""
    return "%.0s" + ",".join(["1", kind, *["%s"] * (len(HELD[kind]) - 1)]) + "\n"


def scripts_of(records: Records) -> Iterator[bytes]:
    """Yields the records as scripts, each of at most the size that a script may have."""
    held: list[bytes] = []
    size = 0
    for block in (each.encode("ascii") for each in lines_of(records, template)):
        if held and size + len(block) > MOST_SCRIPT_BYTES:
            yield b"".join(held)
            held, size = [], 0
        held.append(block)
        size += len(block)
    yield b"".join(held)


def laid_scripts(division: Division, part: int, folder: str) -> list[str]:
    """Writes a part's scripts into its folder, and returns their paths."""
    os.mkdir(folder)
    copy_basis(division.folder, division.basis, folder)
    chosen, records = np.flatnonzero(division.chosen(part)), division.book.records
    columns = (getattr(records, column.name)[chosen] for column in fields(Records))
    paths = []
    for number, script in enumerate(scripts_of(Records(*columns)), 1):
        paths.append(os.path.join(folder, f"script-{number}"))
        written(paths[-1], script)
    return paths


def asked(life: Sequence[str], folder: str, words: Sequence[str], printed: str, script: str = os.devnull) -> None:
    """Runs the program with its output in a file of the folder, and raises Wrong unless it ends with status 0."""
    with open(script, "rb") as given, open(os.path.join(folder, printed), "wb") as out:
        try:
            ran = subprocess.run([*life, *words], cwd=folder, stdin=given, stdout=out, stderr=subprocess.PIPE)
        except OSError as error:
            raise Wrong(f"{life[0]}: {error.strerror}") from error
    if ran.returncode:
        with open(os.path.join(folder, printed), "rb") as file:
            said = file.read(200).decode("ascii", "replace").partition("\n")[0]
        raise Wrong(f"life {' '.join(words)} ended with status {ran.returncode}" + (f": {said}" if said else ""))


def print_book(life: Sequence[str], folder: str, division: Division) -> None:
    asked(life, folder, ["value", division.on, "--basis", division.basis], "value")
    asked(life, folder, ["state"], "state")


def run_part(life: Sequence[str], folder: str, scripts: Sequence[str], division: Division) -> None:
    for script in scripts:
        asked(life, folder, ["run"], "transcript", script)
        demand_accepted(os.path.join(folder, "transcript"))
        os.remove(script)
    print_book(life, folder, division)


def demand_accepted(transcript: str) -> None:
    with open(transcript, "rb") as file:
        for line in file:
            if b",accepted," not in line and not line.startswith(b"watcher,"):
                raise Unlike(f"a line of the old book was answered {line.decode('ascii', 'replace').strip()}")


def run_old(life: Sequence[str], folder: str, division: Division) -> None:
    os.mkdir(folder)
    copy_basis(division.folder, division.basis, folder)
    written(os.path.join(folder, JOURNAL), division.data)
    print_book(life, folder, division)


def waited(runs: Sequence[Future[None]], desk: str, parts: int, count: int) -> None:
    """Waits for the runs while it shows how many commands are posted, and raises the error of a run that failed."""
    progress = Progress("posted", count)
    paths = [os.path.join(desk, str(part), JOURNAL) for part in range(parts)]
    while not all(run.done() for run in runs):
        failed = [run for run in runs if run.done() and run.exception()]
        if failed:
            break
        progress.at(sum(os.path.getsize(path) // RECORD_SIZE for path in paths if os.path.exists(path)))
        time.sleep(SECONDS_BETWEEN)
    progress.end()
    for run in runs:
        run.cancel()
    for run in runs:
        if not run.cancelled():
            run.result()


def run_parts(division: Division, desk: str, life: Sequence[str], processes: int) -> None:
    """Makes each part, and has the program print the states and valuations of the parts and of the old book."""
    with ThreadPoolExecutor(processes) as pool:
        runs = [pool.submit(run_old, life, os.path.join(desk, OLD), division)]
        for part in range(division.parts):
            folder = os.path.join(desk, str(part))
            runs.append(pool.submit(run_part, life, folder, laid_scripts(division, part, folder), division))
        waited(runs, desk, division.parts, division.book.count)


# --- what they say, beside what the old book says ---

def demand_journals(division: Division, desk: str) -> None:
    for part in range(division.parts):
        with open(os.path.join(desk, str(part), JOURNAL), "rb") as file:
            same = file.read() == division.journal(part)
        if not same:
            raise Unlike(f"the journal of new book {part + 1} hasn't the records of the old one")


def text_of(word: str, file: IO[bytes]) -> Text:
    text = text_in(word, file)
    file.seek(0)
    if word == "value":
        # skip the first line, which has the position and the count
        file.readline()
    return text


def demand_lines(word: str, division: Division, old: IO[bytes], parts: Sequence[IO[bytes]]) -> None:
    """Raises Unlike unless each policy's line of the old book is the next line of its new book, and no further line is left."""
    begins = {"state": b"policy,", "value": b"row,"}[word]
    for place in division.places.tolist():
        line, found = old.readline(), parts[place].readline()
        if line != found or not line.startswith(begins):
            shown = [each.decode("ascii", "replace").strip() for each in (line, found)]
            raise Unlike(f"{word}: the old book has {shown[0]}, and new book {place + 1} has {shown[1]}")
    for place, file in enumerate((old, *parts)):
        if file.readline().startswith(begins):
            raise Unlike(f"{word}: there are more policies in {f'new book {place}' if place else 'the old book'}")


def demand_sums(word: str, division: Division, old: Text, parts: Sequence[Text]) -> None:
    wanted, found = old.lines, total_of([part for part in parts])
    if word == "state":
        wanted = [*wanted[:-1], [wanted[-1][0], str(int(wanted[-1][1]) + division.more_commands)]]
    if found != wanted:
        pairs = [(one, other) for one, other in zip(wanted, found) if one != other]
        raise Unlike(f"{word}: the old book has {','.join(pairs[0][0])}, and the new ones together {','.join(pairs[0][1])}")


def demand_alike(division: Division, desk: str) -> None:
    """Raises Unlike unless the new books together show what the old one shows."""
    demand_journals(division, desk)
    for word in ("state", "value"):
        files = [open(os.path.join(desk, name, word), "rb") for name in (OLD, *map(str, range(division.parts)))]
        try:
            old, *parts = [text_of(word, file) for file in files]
            demand(old.position == division.book.count, f"{word} is of position {old.position}")
            demand_lines(word, division, files[0], files[1:])
            demand_sums(word, division, old, parts)
        finally:
            for file in files:
                file.close()
