"""The position of a day: the last one up to which every accepted command is of
that day or of one before. `life value .. --at POSITION` takes it to value the
book as it stood at the end of the day.

    life-tools position-on 2022-12-31 journal.life

The days of one policy's commands never fall, but those of different policies
may stand in any order. So there may be commands of the day or before it after
this position, which were posted later. The book at the position does not have
them: they are listed on standard error, and the status is 1.

With --last it is the position of the last command of the day or before;
commands of later days that stand before it are listed, with status 1. For a
month-end use the position without --last.
"""
from __future__ import annotations

import argparse

from life_tools.journal.columns import Columns, looked_at, taken
from life_tools.rules.commands import words_of
from life_tools.journal.day_columns import number_at
from life_tools.common.formats import day_in, remark
from life_tools.journal.positions import OnDay, on_day
from life_tools.journal.wholeness import demand_undamaged, tell

MOST_TOLD = 10


def arguments(parser: argparse.ArgumentParser) -> None:
    parser.add_argument("--last", action="store_true", help="the position of the last command of the day or before")
    parser.add_argument("day", metavar="DAY", help="YYYY-MM-DD")
    parser.add_argument("journal", metavar="JOURNAL", help="the file, as journal.life")


def tell_astray(book: Columns, found: OnDay, is_last: bool, day: str) -> None:
    astray = found.astray(is_last)
    remark(found.told(is_last, day))
    for position in astray[:MOST_TOLD]:
        remark(f"  {position},{','.join(words_of(book.records.command(position - 1)))}")
    if len(astray) > MOST_TOLD:
        remark(f"  and {len(astray) - MOST_TOLD} more")


def run(options: argparse.Namespace) -> int:
    day, (judged, blocks) = day_in(options.day), looked_at(options.journal)
    book = taken(judged, options.journal)
    status = tell(demand_undamaged(options.journal, blocks.seen))
    found = on_day(book.records.day, number_at(day), book.upgrade)
    print(found.at(options.last), flush=True)
    if not found.astray(options.last):
        return status
    tell_astray(book, found, options.last, options.day)
    return 1
