"""Copies to a second place what a book has more than its copy there.

    life-tools backup /mnt/second/main             to a folder on another disk
    life-tools backup anna@second:books/main       to another machine, by rsync
    life-tools backup /mnt/second/main --every 60  again each 60 seconds

The copy has the journal's postings in journal.prefix, to which is only ever
added; the basis, its tables, desk.toml, the folder's seals and log/ in files/;
and a seal of all that. `life-tools restore` makes a book of it. For another
machine a copy is kept in .backup of the book's folder too.

Nothing is locked, and runs go on meanwhile. Only postings that are safe on the
disk are copied; one that is under way is left to the next backup. The first
bytes of the journal and of its copy are compared with the seal each time; if
they differ, nothing is copied. The last lines are

    count,POSTINGS IN THE COPY
    added,POSTINGS THAT WERE ADDED NOW

The status is 0 if all that was safe is copied; 1 if the copy is of another
book, or one of both was changed; 2 if it could not be done: the next backup
goes on.
"""
from __future__ import annotations

import argparse
import os
import time
from typing import Iterator

from life_tools.backup.copies import FILES, Copied, Differs, copy_journal, locked
from life_tools.backup.files import book_files, copy_files, log_files, sealed_copies
from life_tools.backup.remote import SSH, is_place, place_in, send_copy
from life_tools.common.formats import Wrong, demand, number_of, remark
from life_tools.journal.copied_folder import JOURNAL
from life_tools.tables.basis import NAME

# the folder beside the book that keeps the copy sent to another machine
KEPT = ".backup"
MOST_SECONDS = 86_400


def arguments(parser: argparse.ArgumentParser) -> None:
    parser.add_argument("to", metavar="TO", help="the copy's folder, or HOST:FOLDER of another machine")
    parser.add_argument("--every", metavar="SECONDS", help="go on until a signal or a difference ends it")
    parser.add_argument("--folder", metavar="FOLDER", default=".", help="where journal.life lies (.)")
    parser.add_argument("--basis", metavar="NAME", action="append", help="a basis file in the folder (basis.csv); each has one")
    parser.add_argument("--ssh", metavar="COMMAND", default=SSH, help=f"what leads to another machine ({SSH})")


def copied(options: argparse.Namespace) -> Copied:
    """Copies once: basis and tables first, then the journal with the seal of both, and then the log, which may know later
    postings."""
    bases = options.basis or ["basis.csv"]
    to = os.path.join(options.folder, KEPT) if is_place(options.to) else options.to
    journal = os.path.join(options.folder, JOURNAL)
    demand(os.path.isfile(journal), f"there is no {journal}")
    demand(os.path.realpath(to) != os.path.realpath(options.folder), f"{to} is the book's own folder")
    files = os.path.join(to, FILES)
    with locked(to):
        copy_files(options.folder, book_files(options.folder, bases), files)
        done = copy_journal(journal, to, sealed_copies(files, bases))
        copy_files(options.folder, log_files(options.folder), files)
        if is_place(options.to):
            send_copy(to, place_in(options.to, options.ssh))
    return done


def tell(done: Copied) -> None:
    print(f"count,{done.count}\nadded,{done.added}", flush=True)
    if done.under_way:
        remark(f"backup: {done.under_way} postings of a run that goes on may not be safe yet; they are left to the next backup")


def rounds(seconds: int) -> Iterator[None]:
    """Yields at once, and then every so many seconds."""
    due = time.monotonic()
    while True:
        yield
        due = max(due + seconds, time.monotonic())
        time.sleep(due - time.monotonic() if due > time.monotonic() else 0)


def go_on(options: argparse.Namespace, seconds: int) -> int:
    """Copies again and again. A failure is tried again; a difference ends the loop."""
    for _ in rounds(seconds):
        try:
            done = copied(options)
            if done.added:
                tell(done)
        except (Wrong, OSError) as error:
            if isinstance(error, Wrong) and error.status == Differs.status:
                raise
            remark(f"backup: {told(error)}; it is tried again in {seconds} seconds")
    return 0


def told(error: Wrong | OSError) -> str:
    return str(error) if isinstance(error, Wrong) else f"{error.filename or 'the copy'}: {error.strerror}"


def run(options: argparse.Namespace) -> int:
    for name in options.basis or []:
        demand(NAME.fullmatch(name), f"{name} is no name of a basis file")
    if options.every is not None:
        seconds = number_of(options.every, 1, MOST_SECONDS)
        if seconds is None:
            raise Wrong(f"--every {options.every}: seconds from 1 to {MOST_SECONDS} are wanted")
        return go_on(options, seconds)
    try:
        tell(copied(options))
    except OSError as error:
        raise Wrong(f"{told(error)}; the copy is as it was sealed before, and the next backup goes on") from error
    return 0
