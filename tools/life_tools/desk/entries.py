"""The folder `log/`: an entry for each file that was handed in, and a record of each run of the program.

    log/.lock                          locked while a `day` works, and while its run of the program lasts
    log/000012-2026-12-01-monday/      entry 12
        handed-in.csv                  the file as it was handed in
        entry.json                     whose it is, who posted it, when, and what became of each of its rows
        held.csv                       rows that wait for a person, while there are any
        full.csv                       rows that found the book full
        transcript                     what the program answered to this file's rows
        done                           nothing of it is left to do
    log/runs/000007/                   run 7, of up to eight entries
        run.json, script, transcript, remarks

A row of an entry is in exactly one of its lists `accepted`, `refused`, `answered` and `held`, or it is still to be posted.
"""
from __future__ import annotations

import hashlib
import os
import re
from dataclasses import dataclass, field
from typing import Iterator

from life_tools.common.formats import Wrong, bytes_of
from life_tools.desk.records import Record, read_record, shown, sync_folder, write_record, write_safely
from life_tools.scripts.lines import Line, lines_in

LOG, RUNS, LOCK = "log", "runs", ".lock"
HANDED_IN, ENTRY, RUN = "handed-in.csv", "entry.json", "run.json"
HELD_ROWS, FULL_ROWS, TRANSCRIPT, SCRIPT, REMARKS, DONE = "held.csv", "full.csv", "transcript", "script", "remarks", "done"
NAMED = re.compile("([0-9]{6,})-.*")
NUMBERED = re.compile("[0-9]{6,}")
# the states of a row that was held
HELD, RELEASED, DISCARDED = "held", "released", "discarded"
CLAIMING, OPEN, CLOSED = "claiming", "open", "done"
BEGUN, ENDED = "begun", "ended"


@dataclass
class Entry:
    """A file that was handed in; `record` is its `entry.json`."""

    folder: str
    record: Record
    _lines: list[Line] | None = field(default=None)

    @property
    def name(self) -> str:
        return os.path.basename(self.folder)

    @property
    def number(self) -> int:
        return int(self.name.partition("-")[0])

    @property
    def shown(self) -> str:
        """Returns the name of the entry in messages."""
        return os.path.join(LOG, self.name)

    @property
    def file(self) -> str:
        """Returns the name of the file that was handed in, as messages show it: on one line, with control bytes escaped."""
        return shown(self.record["file"]["name"])

    def path(self, name: str) -> str:
        return os.path.join(self.folder, name)

    def save(self) -> None:
        write_record(self.path(ENTRY), self.record)

    @property
    def lines(self) -> list[Line]:
        """Returns the rows of the file as it was when it was claimed; a file that was refused whole has none."""
        if self._lines is None:
            self._lines = [] if self.record["refused_whole"] else lines_in(self.handed_in(), self.file)
        return self._lines

    def handed_in(self) -> bytes:
        """Returns the bytes that were read when the file was claimed, and raises Wrong if they were changed since."""
        file = self.record["file"]
        data = bytes_of(self.path(HANDED_IN))[:file["bytes"]]
        if hashlib.sha256(data).hexdigest() != file["sha256"]:
            raise Wrong(f"{self.path(HANDED_IN)} was changed since it was read: nothing of it is posted before it is as it was")
        return data

    @property
    def fault(self) -> str | None:
        """Returns why its rows cannot be read, or None if they can."""
        try:
            _ = self.lines
        except Wrong as wrong:
            return str(wrong)
        return None

    @property
    def seen_bytes(self) -> int:
        """Returns how many bytes of the claimed file have been taken into this or other entries."""
        file = self.record["file"]
        return int(file.get("taken_up", file["bytes"]))

    @property
    def is_added_to(self) -> bool:
        """Returns whether the claimed file's length differs from what has been taken into entries."""
        path = self.path(HANDED_IN)
        return self.record["state"] != CLAIMING and os.path.exists(path) and os.path.getsize(path) != self.seen_bytes

    @property
    def held(self) -> list[Record]:
        """Returns the rows that wait for a person."""
        return [each for each in self.record["held"] if each["state"] == HELD]

    @property
    def left(self) -> list[Line]:
        """Returns the rows that are still to be posted."""
        record = self.record
        settled = {row for name in ("accepted", "refused", "answered") for row, *_ in record[name]}
        settled.update(each["row"] for each in record["held"])
        return [line for line in self.lines if line.row.number not in settled]

    @property
    def is_release(self) -> bool:
        return self.record.get("from") is not None

    def close(self, at: str) -> None:
        """Writes the record and the files that follow from it; the entry is marked `done` if nothing is left to do."""
        is_done = not self.left and not self.is_added_to and self.record["state"] == OPEN
        if is_done:
            self.record["state"] = CLOSED
            self.record["times"]["ended"] = at
        self.save()
        self.write_marks()

    def write_marks(self) -> None:
        """Writes the files that follow from `entry.json`, the held rows and the mark `done`; files that are right are not
        touched."""
        rows = "".join(f"{each['text']}\n" for each in self.held).encode("utf-8", "surrogateescape")
        put(self.path(HELD_ROWS), rows or None)
        put(self.path(DONE), b"" if self.record["state"] == CLOSED and not rows else None)


def put(path: str, data: bytes | None) -> None:
    """Makes the file have these bytes, or removes it if `data` is None; a file that is already right is not touched."""
    if data is None and os.path.exists(path):
        os.remove(path)
        sync_folder(os.path.dirname(path))
    elif data is not None and not (os.path.exists(path) and bytes_of(path) == data):
        write_safely(path, data)


@dataclass
class Run:
    """A run of the program; `record` is its `run.json`."""

    folder: str
    record: Record

    @property
    def number(self) -> int:
        return int(os.path.basename(self.folder))

    def path(self, name: str) -> str:
        return os.path.join(self.folder, name)

    def save(self) -> None:
        write_record(self.path(RUN), self.record)

    def transcript(self) -> str:
        """Returns what the program has printed so far, or "" if it printed nothing yet."""
        path = self.path(TRANSCRIPT)
        return bytes_of(path).decode("ascii", "replace") if os.path.exists(path) else ""


class Log:
    """The folder `log/` of a book."""

    def __init__(self, folder: str) -> None:
        self.path = os.path.join(folder, LOG)
        self.runs = os.path.join(self.path, RUNS)

    # --- entries ---

    def names(self) -> list[str]:
        """Returns the names of the entries' folders, in the order in which they were claimed."""
        if not os.path.isdir(self.path):
            return []
        with os.scandir(self.path) as found:
            names = [each.name for each in found if NAMED.fullmatch(each.name) and each.is_dir(follow_symlinks=False)]
        return sorted(names, key=lambda name: (int(name.partition("-")[0]), name))

    def entry(self, name: str) -> Entry:
        folder = os.path.join(self.path, name)
        return Entry(folder, read_record(os.path.join(folder, ENTRY)))

    def recorded(self) -> list[str]:
        """Returns the names of the entries that have a record."""
        return [name for name in self.names() if os.path.exists(os.path.join(self.path, name, ENTRY))]

    def entries(self) -> Iterator[Entry]:
        """Yields all entries, including those that were refused or are done."""
        return map(self.entry, self.recorded())

    def undone(self) -> list[Entry]:
        """Returns the entries that still need work, by a person or by the next run."""
        return [self.entry(name) for name in self.recorded() if not os.path.exists(os.path.join(self.path, name, DONE))]

    def named(self, words: str) -> Entry:
        """Returns the entry that a person names by its folder's name or path, or by its number."""
        wanted = os.path.basename(words.rstrip("/"))
        for name in self.names():
            if name == wanted or (wanted.isdecimal() and wanted.isascii() and int(name.partition("-")[0]) == int(wanted)):
                return self.entry(name)
        raise Wrong(f"there is no entry {words} in {self.path}: `life-tools day --status` lists those that wait")

    def new_folder(self, day: str, stem: str) -> str:
        """Makes a new folder for an entry, and makes it safe."""
        names = self.names()
        number = int(names[-1].partition("-")[0]) + 1 if names else 1
        shown = re.sub("[^A-Za-z0-9._-]+", "_", stem)[:40]
        folder = os.path.join(self.path, f"{number:06}-{day}-{shown}")
        os.mkdir(folder)
        sync_folder(self.path)
        return folder

    # --- runs ---

    def run_numbers(self) -> list[int]:
        if not os.path.isdir(self.runs):
            return []
        return sorted(int(name) for name in os.listdir(self.runs) if NUMBERED.fullmatch(name))

    def run(self, number: int) -> Run:
        folder = os.path.join(self.runs, f"{number:06}")
        return Run(folder, read_record(os.path.join(folder, RUN)))

    def newest_run(self) -> Run | None:
        numbers = self.run_numbers()
        return self.run(numbers[-1]) if numbers else None
