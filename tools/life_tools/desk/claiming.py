"""Claims files before they are read: a file is renamed from the inbox into its entry's folder, and only that file is read.

If the folder of the entry is on another file system, the file is first renamed in its own folder to a hidden name that no other
`day` takes; then it is copied, made safe, compared, and removed. `entry.json` names the file before it is renamed. So the next
`day` finishes a claim that was interrupted, or undoes it if the file is still in the inbox.

A process that has the claimed file open may still write to it, and the system reports such a process only for the caller's own
files. Therefore a later write is noticed by the file's length, and what was added becomes an entry of its own.
"""
from __future__ import annotations

import errno
import fcntl
import hashlib
import os
import pwd
import shutil
import socket
import stat
import sys
import time
from typing import Iterable, Iterator

from life_tools.common.files import LOOKED_AT, kind_of
from life_tools.common.formats import MOST_SCRIPT_BYTES, Wrong, bytes_of
from life_tools.desk.entries import CLAIMING, DONE, ENTRY, HANDED_IN, LOG, OPEN, Entry, Log
from life_tools.desk.records import Record, at_moment, now, shown, sync_file, sync_folder, write_safely
from life_tools.scripts.lines import read_script, Fault

# a file that was changed less than so many seconds ago may still be written
YOUNG_SECONDS = 2
AT_ONCE = 1 << 20
BOOKS_OWN = ("journal.life", "checkpoint.life", "desk.toml")


class Left(Exception):
    """A file that is not claimed or not read yet; the text says why."""


# --- who calls, and whose the file is ---

def user_name(uid: int) -> str:
    try:
        return pwd.getpwuid(uid).pw_name
    except KeyError:
        return str(uid)


def login() -> str:
    """Returns the login of the session or, if there is none, as in a cron job, the name of the user."""
    try:
        return os.getlogin()
    except OSError:
        return user_name(os.geteuid())


def terminal() -> str | None:
    for stream in (sys.stdin, sys.stderr, sys.stdout):
        try:
            return os.ttyname(stream.fileno())
        except (OSError, ValueError, AttributeError):
            continue
    return None


def caller() -> Record:
    return {"login": login(), "user": user_name(os.geteuid()), "host": socket.gethostname(), "terminal": terminal(),
            "process": os.getpid()}


# --- which files are left where they are ---

def stays(why: str) -> Left:
    return Left(f"is left where it is: {why}")


def is_being_written(path: str) -> bool:
    """Returns whether a process has the file open for writing, as far as the system reports it.

    The system grants a lease for reading only if no process has the file open for writing. The caller must ignore SIGIO.
    """
    handle = os.open(path, os.O_RDONLY | os.O_NOFOLLOW | os.O_NONBLOCK)
    try:
        fcntl.fcntl(handle, fcntl.F_SETLEASE, fcntl.F_RDLCK)
        fcntl.fcntl(handle, fcntl.F_SETLEASE, fcntl.F_UNLCK)
        return False
    except OSError as error:
        return error.errno == errno.EAGAIN
    finally:
        os.close(handle)


def demand_script(path: str, folder: str) -> None:
    """Raises Left for what is not a script: the book's own files, a basis, and everything in `log/`."""
    real, book = os.path.realpath(path), os.path.realpath(folder)
    is_own = os.path.dirname(real) == book and os.path.basename(real) in BOOKS_OWN
    if is_own or os.path.commonpath([real, os.path.join(book, "log")]) == os.path.join(book, "log"):
        raise stays("it belongs to the book")
    with open(path, "rb") as file:
        kind = kind_of(file.read(LOOKED_AT))
    if kind not in (None, "a script"):
        raise stays(f"it is {kind}, not a script")


def demand_ready(path: str, folder: str) -> os.stat_result:
    """Returns the status of a file that may be claimed, and raises Left if it may not be."""
    try:
        found = os.lstat(path)
    except FileNotFoundError:
        raise stays("it is not there") from None
    if not stat.S_ISREG(found.st_mode):
        raise stays("it is not a regular file")
    if abs(time.time() - found.st_mtime) < YOUNG_SECONDS:
        raise stays(f"it was changed less than {YOUNG_SECONDS} seconds ago and may still be written; the next run takes it")
    if found.st_size == 0:
        raise stays("it is empty")
    demand_script(path, folder)
    if is_being_written(path):
        raise stays("a process still has it open for writing; the next run takes it")
    return found


# --- a claim ---

def new_record(path: str, found: os.stat_result) -> Record:
    at = now()
    file = {"name": path, "path": os.path.abspath(path), "owner": user_name(found.st_uid),
            "modified": at_moment(found.st_mtime), "bytes": found.st_size, "sha256": None}
    return {"state": CLAIMING, "file": file, "caller": caller(), "times": {"claimed": at, "checked": None, "ended": None},
            "refused_whole": None, "rows": 0, "accepted": [], "refused": [], "answered": [], "held": [], "runs": [],
            "lost": [], "from": None}


def claimed(path: str, folder: str, log: Log) -> Entry:
    """Claims a file and returns its entry; the file is then no longer in the inbox.

    Raises Left if the file stays in the inbox, or if the next run has to finish its claim.
    """
    try:
        found = demand_ready(path, folder)
        entry = Entry(log.new_folder(now()[:10], os.path.splitext(os.path.basename(path))[0]), new_record(path, found))
        entry.save()
    except OSError as error:
        raise stays(f"{error.strerror}: {error.filename or path}") from error
    try:
        take(entry)
    except OSError as error:
        why = f"{error.strerror}: {error.filename or entry.shown}"
        if is_moved(entry):
            raise Left(f"is taken as {entry.shown}, which could not be read ({why}): the next run goes on with it") from error
        undo(entry)
        raise stays(why) from error
    return entry


def hidden_path(entry: Entry) -> str:
    folder, name = os.path.split(entry.record["file"]["path"])
    return os.path.join(folder, f".{name}.claimed-{entry.name}")


def has_file(entry: Entry) -> bool:
    """Returns whether the file is in the folder of its entry.

    If the disk cannot say so, that is an error and not a missing file.
    """
    return HANDED_IN in os.listdir(entry.folder)


def is_moved(entry: Entry) -> bool:
    return has_file(entry) or os.path.lexists(hidden_path(entry))


def undo(entry: Entry) -> None:
    """Removes an entry whose file was not moved. A folder that holds any other file is not empty, and stays."""
    for name in os.listdir(entry.folder):
        if name == ENTRY or name.endswith(".part"):
            os.remove(entry.path(name))
    os.rmdir(entry.folder)
    sync_folder(os.path.dirname(entry.folder))


def take(entry: Entry) -> None:
    """Renames the file into the folder of the entry, or copies it there from another file system; then opens the entry."""
    source, to = entry.record["file"]["path"], entry.path(HANDED_IN)
    try:
        os.rename(source, to)
        note_file(entry, to)
    except OSError as error:
        if error.errno != errno.EXDEV:
            raise
        # noted first: if the inbox's disk is gone, the next run knows that the file is there
        entry.record["file"]["hidden"] = hidden_path(entry)
        entry.save()
        os.rename(source, hidden_path(entry))
        move_from_hidden(entry)
    sync_folder(entry.folder)
    sync_folder(os.path.dirname(source))
    open_entry(entry)


def note_file(entry: Entry, path: str) -> None:
    """Notes the owner and the time of the claimed file again, because another file may have taken its name before it was
    claimed."""
    found = os.lstat(path)
    entry.record["file"].update(owner=user_name(found.st_uid), modified=at_moment(found.st_mtime))


def move_from_hidden(entry: Entry) -> None:
    """Copies the file under its hidden name, makes the copy safe, compares the two, and removes the hidden file."""
    source = hidden_path(entry)
    note_file(entry, source)
    copy_safely(source, entry)
    os.remove(source)


def copy_safely(source: str, entry: Entry) -> None:
    """Makes the entry's file a copy that is complete or not there at all, even after a power failure."""
    part = entry.path(f".{HANDED_IN}.part")
    shutil.copyfile(source, part)
    sync_file(part)
    if sum_of(part) != sum_of(source):
        raise Left(f"was changed while it was copied: {entry.shown} is finished by the next run")
    os.rename(part, entry.path(HANDED_IN))
    sync_folder(entry.folder)


def sum_of(path: str) -> str:
    found = hashlib.sha256()
    with open(path, "rb") as file:
        while part := file.read(AT_ONCE):
            found.update(part)
    return found.hexdigest()


def open_entry(entry: Entry) -> None:
    """Reads the claimed file for the first time: its checksum, and its rows or the fault for which the whole file is refused.

    If a process still writes the file, it stays unread until the next run.
    """
    path = entry.path(HANDED_IN)
    if is_being_written(path):
        raise Left(f"lies in {entry.shown}, where a process still writes it: the next run reads it")
    if os.stat(path).st_nlink > 1:
        # the file has another name as well; a write through that name must not change what was posted
        copy_safely(path, entry)
    # so that what was posted can be shown even after a power failure
    sync_file(path)
    data = b"" if os.path.getsize(path) > MOST_SCRIPT_BYTES else bytes_of(path)
    record = entry.record
    record["file"].update(bytes=os.path.getsize(path), sha256=hashlib.sha256(data).hexdigest() if data else sum_of(path))
    read = read_script(data) if data else Fault(None, 0, f"at most {MOST_SCRIPT_BYTES} bytes")
    if isinstance(read, Fault):
        record["refused_whole"] = read.answer
        record["why"] = f"wanted: {read.wanted}" + (f"; found: {read.found!r}" if read.row else "")
    else:
        record["rows"] = len(read)
    record["state"] = OPEN
    entry.save()


# --- claims that were interrupted ---

def clear_unbegun(log: Log) -> Iterator[str]:
    """Removes folders without an `entry.json`, for which nothing was claimed yet; yields those that hold a file."""
    for name in log.names():
        folder = os.path.join(log.path, name)
        if os.path.lexists(os.path.join(folder, ENTRY)):
            continue
        if HANDED_IN in os.listdir(folder):
            yield os.path.join(LOG, name)
        elif not os.path.exists(os.path.join(folder, DONE)):
            shutil.rmtree(folder)
            sync_folder(log.path)


def finish_claim(entry: Entry) -> bool:
    """Finishes an interrupted claim and returns True.

    If the file is still in the inbox, or somebody else has taken it from there, the entry is removed and False is returned.
    """
    if entry.record["state"] != CLAIMING:
        return True
    hidden = entry.record["file"].get("hidden")
    if hidden and os.path.lexists(hidden):
        # it is copied again even if there is a whole copy: nothing was read of that yet, and the hidden file goes away
        move_from_hidden(entry)
    elif not has_file(entry):
        if hidden and not os.path.lexists(entry.record["file"]["path"]):
            raise Left(f"was being copied to {entry.shown} from {shown(hidden)}, which isn't there: mount its disk, and call "
                       f"this again; if the file was taken away, remove {entry.shown}")
        undo(entry)
        return False
    open_entry(entry)
    return True


# --- what is written to a file after it was claimed and read ---

def written_later(log: Log) -> Iterator[str]:
    """Yields the names of entries whose file is newer than their record."""
    for name in log.names():
        try:
            times = [os.stat(os.path.join(log.path, name, each)).st_mtime_ns for each in (HANDED_IN, ENTRY)]
        except FileNotFoundError:
            continue
        if times[0] >= times[1]:
            yield name


def requeued(entry: Entry, log: Log, others: Iterable[Entry]) -> Entry:
    """Returns a new entry for what was added to a claimed file after it was read.

    If an earlier call was interrupted after it had made that entry, the same entry is returned.
    """
    path, size = entry.path(HANDED_IN), entry.seen_bytes
    if os.path.getsize(path) < size:
        raise Wrong(f"{entry.shown}/{HANDED_IN} was changed after it was claimed and read: compare it with the SHA-256 in "
                    f"{entry.shown}/{ENTRY}")
    made = next((each for each in others if each.record.get("added_to") == [entry.name, size]), None)
    if made is None:
        record = {**new_record(entry.record["file"]["name"], os.stat(path)), "added_to": [entry.name, size]}
        made = Entry(log.new_folder(now()[:10], f"added-to-{entry.number}"), record)
        made.record["file"]["path"] = made.path("added")
        made.save()
        write_safely(made.path(HANDED_IN), read_from(path, size))
        open_entry(made)
    entry.record["file"]["taken_up"] = size + made.record["file"]["bytes"]
    entry.save()
    return made


def read_from(path: str, start: int) -> bytes:
    with open(path, "rb") as file:
        file.seek(start)
        return file.read()
