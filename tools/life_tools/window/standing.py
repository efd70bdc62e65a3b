"""Finds how a book stands: the last logged runs, the backups near it, and what belongs together."""
from __future__ import annotations

import datetime
import os
import stat
from dataclasses import dataclass

from life_tools.common.formats import Wrong
from life_tools.desk.entries import DONE, ENDED, ENTRY, HANDED_IN, RUN, Entry, Log, Run
from life_tools.journal.copied_folder import JOURNAL
from life_tools.journal.file import EMPTY, FIRST_GATE
from life_tools.reports.provenance import shown
from life_tools.journal.record_columns import prefix_count, prefix_sum

OWN = (JOURNAL, "checkpoint.life")
MOST_RUNS = 5
MOST_BACKUPS = 20
MOST_LOOKED_AT = 2000


@dataclass(frozen=True)
class LoggedRun:
    """A run that `life-tools day` noted: its number and begin, the status, the postings before it, and whether it has ended."""

    name: str
    status: str
    before: str
    is_done: bool


def is_plain(path: str) -> bool:
    """Returns whether a path is a plain file; reading anything else, such as a pipe that nobody writes, might never end."""
    try:
        return stat.S_ISREG(os.lstat(path).st_mode)
    except OSError:
        return False


def folders_in(path: str) -> list[str]:
    try:
        with os.scandir(path) as found:
            return sorted((each.name for each in found if each.is_dir(follow_symlinks=False)), reverse=True)[:MOST_LOOKED_AT]
    except OSError:
        return []


def logged_runs(folder: str) -> tuple[list[LoggedRun], int]:
    """Returns the last runs, and the number of files that still need work by a person or by the next `day`."""
    log = Log(folder)
    numbers = [number for number in log.run_numbers() if is_plain(os.path.join(log.runs, f"{number:06}", RUN))]
    runs = [log.run(number) for number in reversed(numbers[-MOST_RUNS:])]
    undone = sum(not os.path.exists(os.path.join(log.path, name, DONE)) for name in log.names())
    return [logged_run(run) for run in runs], undone


def logged_run(run: Run) -> LoggedRun:
    status = run.record["status"]
    return LoggedRun(f"{run.number}, {run.record['begun'][:16]}", "none" if status is None else str(status),
                     str(run.record["before"]), run.record["state"] == ENDED)


# --- what waits for a person ---

def entries_of(log: Log, names: list[str]) -> list[Entry]:
    """Returns the entries of the log with these names, if their records can be read."""
    found = []
    for name in names:
        try:
            found += [log.entry(name)] if is_plain(os.path.join(log.path, name, ENTRY)) else []
        except Wrong:
            continue
    return found


def waiting_entries(folder: str) -> list[Entry]:
    """Returns the entries that still need work, the last ones first; only these have held rows."""
    log = Log(folder)
    undone = [name for name in log.names() if not os.path.exists(os.path.join(log.path, name, DONE))]
    return entries_of(log, undone[:-MOST_LOOKED_AT - 1:-1])


def last_entries(folder: str) -> list[Entry]:
    log = Log(folder)
    return entries_of(log, log.names()[:-MOST_RUNS - 1:-1])


def held_rows(folder: str) -> list[tuple[str, str]]:
    """Returns the rows that wait for a person, each with its entry."""
    return [(shown(entry.name), shown(str(each["text"]))) for entry in waiting_entries(folder) for each in entry.held]


def refused_rows(folder: str) -> list[tuple[str, str]]:
    """Returns the refused rows of the last entries: the entry, and the row with its answer."""
    found = []
    for entry in last_entries(folder):
        texts = texts_of(entry)
        for row, answer in entry.record["refused"]:
            found.append((shown(entry.name), shown(f"{texts.get(row, f'row {row}')}: {answer}")))
    return found


def texts_of(entry: Entry) -> dict[int, str]:
    """Returns the rows of the file that was handed in, by their numbers, or none if it is not there unchanged."""
    try:
        return {line.row.number: line.row.text for line in entry.lines} if is_plain(entry.path(HANDED_IN)) else {}
    except Wrong:
        return {}


def waiting_in(folder: str) -> tuple[int, int]:
    """Returns how many rows are held, and how many rows of the last entries were refused."""
    return (sum(len(entry.held) for entry in waiting_entries(folder)),
            sum(len(entry.record["refused"]) for entry in last_entries(folder)))


@dataclass(frozen=True)
class Backup:
    """A journal near the book: its path, its time, its count, and whether it is a prefix of this book's journal."""

    path: str
    made: str
    count: int
    is_front: bool


def backups_near(folder: str, journal: str, newest: int) -> list[Backup]:
    """Returns other journals in the book's folder, in the folder above, and in folders of these with `backup` in their names."""
    places = [folder, os.path.dirname(folder)]
    places += [os.path.join(place, name) for place in list(places) for name in folders_in(place) if "backup" in name.lower()]
    found = []
    for place in dict.fromkeys(places):
        found += [it for path in files_in(place) if (it := backup_at(path, journal, newest))]
    return sorted(found, key=lambda it: it.made, reverse=True)[:MOST_BACKUPS]


def files_in(place: str) -> list[str]:
    try:
        with os.scandir(place) as found:
            names = [each.path for each in found if each.is_file(follow_symlinks=False) and each.name not in OWN]
            return names[:MOST_LOOKED_AT]
    except OSError:
        return []


def backup_at(path: str, journal: str, newest: int) -> Backup | None:
    try:
        with open(path, "rb") as file:
            if file.read(FIRST_GATE) != EMPTY[:FIRST_GATE]:
                return None
        made = datetime.datetime.fromtimestamp(os.path.getmtime(path))
        count = prefix_count(path)
        is_front = count is not None and count <= newest and prefix_sum(path, count) == prefix_sum(journal, count)
    except (Wrong, OSError):
        return None
    return Backup(shown(path), f"{made:%Y-%m-%d %H:%M}", count or 0, is_front)
