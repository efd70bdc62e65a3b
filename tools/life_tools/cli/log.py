"""Who posted what, when, from which file, and who released it: what `day` kept.

    life-tools log --position 9          the posting of position 9
    life-tools log --policy 7001         all postings of policy 7001
    life-tools log --by anna             what anna handed in, posted or released
    life-tools log --day 2026-12-01      what was posted on that day

Without an option it lists all postings. Each one is a row of CSV on standard
output: position, kind, policy, day, the file and its line, the file's owner,
who posted it, on which machine and when, who released it and why, and the
entry in log/. Names are as the system or the person gave them: whoever posts as
another user is noted as that user.

Each posting is compared with the journal. The status is 1 where the journal
differs, or has a posting that the log doesn't name, such as that of a `life
run` by hand; 2 where there is no log.
"""
from __future__ import annotations

import argparse
import os
import sys

from life_tools.common.cells import write_rows
from life_tools.common.formats import MOST_COMMANDS, MOST_NUMBER, day_in, demand, number_of, remark
from life_tools.desk.entries import Log
from life_tools.desk.postings import HEAD, Wanted, command_at, differences, found_in, positions_wanted
from life_tools.journal.copied_folder import JOURNAL
from life_tools.journal.wholeness import demand_undamaged
from life_tools.rules.commands import words_of

# at most so many postings that the log does not name are listed
MOST_LISTED = 20


def arguments(parser: argparse.ArgumentParser) -> None:
    parser.add_argument("--position", metavar="P", help="the posting of this position")
    parser.add_argument("--policy", metavar="ID", help="the postings of this policy")
    parser.add_argument("--by", metavar="NAME", help="those of which NAME is the owner, the login, or released them")
    parser.add_argument("--day", metavar="DAY", help="those posted on this day, YYYY-MM-DD")
    parser.add_argument("--folder", metavar="FOLDER", default=".", help="where journal.life and log/ lie (.)")


def wanted_in(options: argparse.Namespace) -> Wanted:
    position = number_of(options.position, 1, MOST_COMMANDS) if options.position else None
    policy = number_of(options.policy, 1, MOST_NUMBER) if options.policy else None
    demand(position or not options.position, f"--position {options.position}: a number from 1 to {MOST_COMMANDS} is wanted")
    demand(policy or not options.policy, f"--policy {options.policy}: a number from 1 to {MOST_NUMBER} is wanted")
    return Wanted(position, policy, options.by, str(day_in(options.day)) if options.day else None)


def unnamed(journal: str, count: int, wanted: Wanted, named: set[int]) -> list[int]:
    """Returns the positions of the journal that the log does not name."""
    return [position for position in positions_wanted(journal, count, wanted) if position not in named]


def run(options: argparse.Namespace) -> int:
    wanted, log = wanted_in(options), Log(options.folder)
    demand(os.path.isdir(log.path), f"there is no {log.path}: `life-tools day` makes it")
    journal = os.path.join(options.folder, JOURNAL)
    count = demand_undamaged(journal).count if os.path.exists(journal) else 0
    faults: list[str] = []
    found = found_in(log, wanted, faults)
    write_rows(sys.stdout, [HEAD, *(posting.row() for posting in found)])
    sys.stdout.flush()
    said = [*faults, *differences(journal, count, found)]
    others = unnamed(journal, count, wanted, {posting.position for posting in found})
    for position in others[:MOST_LISTED]:
        why = "that can be read" if faults else "of the log: it was not posted by `life-tools day`"
        said.append(f"position {position}, {','.join(words_of(command_at(journal, position)))}, is in no entry {why}")
    if len(others) > MOST_LISTED:
        said.append(f"{len(others) - MOST_LISTED} more positions are in no entry of the log")
    if not found and not others:
        said.append("no posting of the log is such")
    for line in said:
        remark(line)
    return 1 if said else 0
