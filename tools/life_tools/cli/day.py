"""Takes clerks' files from the inbox, posts them, and keeps what came of each.

    life-tools day                          posts inbox/*.csv
    life-tools day --new                    the same, and begins the book
    life-tools day --status                 reports what is unfinished or held
    life-tools day --release 12 --why TEXT  posts the held rows of entry 12
    life-tools day --discard 12 --why TEXT  puts them away for good

Each file is first moved into a folder of log/, its entry, and only that file is
read. A file that was changed less than two seconds ago stays for the next run.
Up to eight files that share no policy are posted as the eight lanes of one run.
What an interrupted `day` left is finished first.

Some rows are held until a person has looked at them: one that equals an
accepted posting, an issue that is not plausible (desk.toml sets what is), a
number that is in use, a day that hasn't come or is far off; and all later rows
of their policies.

The book is verified before each run, and a damaged one is never written to.
Standard output has a row for each file: file,entry,accepted,refused,held,left.
The status is 0 where all rows were accepted; 1 where a row was refused, held or
left, or anything else is reported; 2 where it could not be done; 130 where a
signal stopped it.
"""
from __future__ import annotations

import argparse
import datetime
import glob
import os
from typing import Callable, Iterator

from life_tools.common.formats import Wrong, day_in, demand, number_of, remark
from life_tools.common.packages import stay
from life_tools.common.program import program_asked
from life_tools.desk.claiming import login
from life_tools.desk.day import Asked, Day
from life_tools.desk.entries import LOCK, Log
from life_tools.desk.records import shown, sync_folder
from life_tools.desk.releases import Judgement
from life_tools.desk.restoring import restored
from life_tools.desk.running import Program
from life_tools.desk.settings import settings_of
from life_tools.desk.status import report
from life_tools.desk.stopping import Stopped, Stopping, stopping
from life_tools.desk.waiting import Patience, lock_log
from life_tools.journal.copied_folder import JOURNAL

MOST_SECONDS = 86_400
STOPPED = 130


def arguments(parser: argparse.ArgumentParser) -> None:
    # argparse would print a group of mutually exclusive options on a single line of any width
    parser.usage = "%(prog)s [OPTION ..] [FILE ..]"
    parser.add_argument("files", metavar="FILE", nargs="*", help="the files to post (inbox/*.csv)")
    what = parser.add_mutually_exclusive_group()
    what.add_argument("--new", action="store_true", help="begin a book, where there is none")
    what.add_argument("--status", action="store_true", help="only report what is unfinished or held")
    what.add_argument("--release", metavar="ENTRY", help="post the held rows of an entry, named by its number or folder")
    what.add_argument("--discard", metavar="ENTRY", help="put the held rows of an entry away; they are never posted")
    what.add_argument("--restored", action="store_true", help="after a backup was put in place: post anew what it lacks and the "
                      "log has")
    parser.add_argument("--by", metavar="NAME", help="who releases or discards (the login)")
    parser.add_argument("--why", metavar="TEXT", help="why; it is kept with the rows")
    parser.add_argument("--line", metavar="N", action="append", default=[], help="release or discard only the row of this line "
                        "of the file; may be repeated")
    parser.add_argument("--wait", metavar="SECONDS", default="600", help="how long to wait for a book in use (600)")
    parser.add_argument("--today", metavar="DAY", help="the day by which rows are looked at, YYYY-MM-DD (today)")
    parser.add_argument("--folder", metavar="FOLDER", default=".", help="where journal.life, inbox/ and log/ lie (.)")
    parser.add_argument("--basis", metavar="NAME", default="basis.csv", help="the name of the basis file there (basis.csv)")
    parser.add_argument("--life", metavar="PROGRAM", help="the program to run")


def files_in(options: argparse.Namespace) -> list[str]:
    """Returns the files that are given, or else those that are in the inbox now."""
    if options.files:
        return list(dict.fromkeys(options.files))
    if options.release or options.discard or options.restored:
        return []
    inbox = os.path.normpath(os.path.join(options.folder, "inbox"))
    return sorted(glob.glob(os.path.join(glob.escape(inbox), "*.csv")))


def untaken_in(options: argparse.Namespace) -> Iterator[str]:
    """Yields what to report about the inbox: that it does not exist, or files in it that are not taken because of their names."""
    if options.files or options.release or options.discard or options.restored:
        return
    inbox = os.path.normpath(os.path.join(options.folder, "inbox"))
    if not os.path.isdir(inbox):
        yield f"there is no folder {inbox}, so no file was taken: make it, or mount its disk"
        return
    for name in sorted(os.listdir(inbox)):
        if not name.startswith(".") and not name.endswith(".csv"):
            yield f"{shown(os.path.join(inbox, name))} is left where it is: its name doesn't end in .csv"


def demand_right(options: argparse.Namespace) -> None:
    is_judged = options.release or options.discard
    demand(not options.files or not (options.status or is_judged), "files are posted by `life-tools day FILES` alone")
    is_free = not (options.by or options.why or options.line)
    demand(is_judged or is_free, "--by, --why and --line belong to --release or --discard")


def lines_in(options: argparse.Namespace) -> list[int]:
    lines = [number_of(each, 1, 1 << 24) or 0 for each in options.line]
    demand(all(lines), "--line: the number of a line of the file is wanted")
    return lines


def patience_in(options: argparse.Namespace) -> Patience:
    seconds = number_of(options.wait, 0, MOST_SECONDS)
    if seconds is None:
        raise Wrong(f"--wait {options.wait}: seconds from 0 to {MOST_SECONDS} are wanted")
    return Patience(seconds)


def judge_of(options: argparse.Namespace) -> Callable[[Day], None]:
    """Returns a function that applies a person's judgement of held rows, once everything interrupted is finished."""
    judgement = Judgement(options.by or login(), options.why, tuple(lines_in(options)))

    def judge(day: Day) -> None:
        if options.release:
            day.release(options.release, judgement)
        elif options.discard:
            day.discard(options.discard, judgement)
    return judge


def worked(options: argparse.Namespace, stop: Stopping) -> int:
    log, patience, judge = Log(options.folder), patience_in(options), judge_of(options)
    today, settings = day_in(options.today) if options.today else datetime.date.today(), settings_of(options.folder)
    demand(os.path.isdir(options.folder), f"{options.folder} is not a folder")
    is_book = os.path.lexists(os.path.join(options.folder, JOURNAL)) or os.path.isdir(log.path) or options.new
    demand(is_book, f"there is no journal.life in {os.path.abspath(options.folder)}: `life-tools day --new` begins a book")
    if not os.path.isdir(log.path):
        os.makedirs(log.runs)
        sync_folder(options.folder)
    lock = lock_log(os.path.join(log.path, LOCK), patience)
    try:
        # files that were handed in while this run waited for another `day` are taken as well
        asked = Asked(options.folder, files_in(options), options.new, today, settings)
        day = Day(asked, Program(program_asked(options.life), options.folder, options.basis, lock), patience, stop)
        if options.restored:
            restored(log, os.path.join(options.folder, JOURNAL))
        for untaken in untaken_in(options):
            day.say(untaken)
        return day.work(judge)
    finally:
        os.close(lock)


def run(options: argparse.Namespace) -> int:
    demand_right(options)
    if options.status:
        return report(Log(options.folder), os.path.join(options.folder, JOURNAL))
    stay()
    with stopping() as stop:
        try:
            status = worked(options, stop)
        except Stopped:
            remark("day: stopped by a signal; nothing was posted since the last line above, and the next `day` goes on")
            return STOPPED
        except OSError as error:
            raise Wrong(f"{error.filename or 'log/'}: {error.strerror}; what was claimed stays in log/, and the next `day` goes "
                        "on with it") from error
    return STOPPED if stop.caught else status
