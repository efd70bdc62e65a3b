"""How many commands a book has left, and until when: a row as CSV under a header.
`life-tools books headroom LIST` prints it for many books.

    life-tools headroom
    life-tools headroom --today 2024-12-31 --within 365

  commands, left       what it has, and what it still takes of 4,000,000
  in_last_year         the commands of the 365 days up to today, by their own
                       days, or by the counts that `day` and earlier month-ends
                       noted, whichever are more
  full                 the day on which it is full at that pace
  premiums, at_end     what its policies need to their ends: premiums to come,
                       and maturities with their settlements
  full_without_issues  the day on which one of these finds it full, even if
                       nothing is issued any more

The status is 1 if a book is full within so many days (two years without
--within), or has fewer commands left than --least. Claims, alterations and
lapses come on top; a claim takes no more than the maturity that it replaces.
"""
from __future__ import annotations

import argparse
import datetime
import os
from typing import NamedTuple

from life_tools.journal.columns import columns_at
from life_tools.journal.day_columns import number_at
from life_tools.common.formats import MOST_COMMANDS, Wrong, day_in, number_of, remark
from life_tools.books.headroom import AHEAD, HEAD, Recorded, Room, recorded_at, recorded_in_log, room_of
from life_tools.common.locks import holder_of
from life_tools.journal.wholeness import LOG, demand_undamaged, tell

MOST_DAYS = 36525


class Wanted(NamedTuple):
    """The present day, the least number of commands to be left, the days within which no book may be full, and noted
    positions."""

    today: int
    least: int
    within: int
    recorded: tuple[dict[str, Recorded], ...]


def wanted_of(options: argparse.Namespace) -> Wanted:
    today = day_in(options.today) if options.today else datetime.date.today()
    asked = options.least or "0", options.within or str(AHEAD)
    least, within = number_of(asked[0], 0, MOST_COMMANDS), number_of(asked[1], 0, MOST_DAYS)
    if least is None or within is None:
        wanted = f"numbers up to {MOST_COMMANDS} and {MOST_DAYS} are wanted"
        raise Wrong(f"--least {asked[0]}, --within {asked[1]}: {wanted}")
    return Wanted(number_at(today), least, within, tuple(map(recorded_at, options.recorded or ())))


def room_at(path: str, name: str, wanted: Wanted) -> tuple[Room, int]:
    """Returns the capacity of a book, which must not be damaged, and 1 if something about the book was reported."""
    status = tell(demand_undamaged(path))
    holder = holder_of(path)
    if holder:
        remark(f"{path} is in use by {holder}, and may have more commands by now")
    noted = [each[name] for each in wanted.recorded if name in each]
    noted += recorded_in_log(os.path.join(os.path.dirname(path), LOG))
    return room_of(columns_at(path), noted, wanted.today), 1 if holder else status


def told_of(name: str, room: Room, wanted: Wanted) -> int:
    """Reports what is to be reported about a book's capacity. Returns 1, or 0 if nothing is."""
    warnings = list(room.warnings(wanted.today, wanted.least, wanted.within))
    for warning in warnings:
        remark(f"{name}: {warning}")
    return 1 if warnings else 0


def add_arguments(parser: argparse.ArgumentParser) -> None:
    """Adds the arguments that `books headroom` also takes; each is None if it is not given."""
    parser.add_argument("--today", metavar="DAY", help="headroom: the day from which it is counted (that of this machine)")
    parser.add_argument("--least", metavar="N", help="headroom: 1 where fewer commands are left")
    parser.add_argument("--within", metavar="DAYS", help=f"headroom: 1 where a book is full within so many ({AHEAD}); "
                        "books LIST due: also what falls due so many days later")
    parser.add_argument("--recorded", metavar="FILE", action="append",
                        help="headroom: a list of positions of an earlier month-end, with its day in the file's name")


def arguments(parser: argparse.ArgumentParser) -> None:
    parser.add_argument("journal", metavar="JOURNAL", nargs="?", default="journal.life", help="the journal (journal.life)")
    add_arguments(parser)
    parser.add_argument("--name", metavar="NAME", default="", help="the book's name in what --recorded names")


def run(options: argparse.Namespace) -> int:
    wanted = wanted_of(options)
    room, status = room_at(options.journal, options.name, wanted)
    print(f"{HEAD}\n{room.row()}", flush=True)
    return told_of(options.name or options.journal, room, wanted) or status
