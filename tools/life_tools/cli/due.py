"""What is due on a day: a list as CSV with a header row, and the sums on standard
error; or with --script the lines to send.

    life-tools due 2024-03-05
    life-tools due 2024-03-05 --within 30 --script lapse,mature > lapses.csv

  premium    a premium that is due on the day, or within so many days after it
  grace      a premium that was due before, and can still be paid on the day
  lapse      the policy is in arrears, and can be lapsed
  mature     the cover has ended, or ends within so many days
  reinstate  a lapsed policy that can be put in force, for the amount
  settle     what is outstanding of a claim or a maturity

The column `day` is the day on which the premium was due, the cover ends, the
policy lapsed, or the last command on it was posted; `until` is the last day of
grace, or of the right to reinstate. A policy that has a command after the days
asked for is left out, since it takes no line of an earlier day.

The status is 0, or 2 if it could not be done.
"""
from __future__ import annotations

import argparse
import sys
from typing import Iterator

from life_tools.common.arrays import np
from life_tools.journal.columns import looked_at, taken
from life_tools.journal.day_columns import number_at, texts_at
from life_tools.cli.why import position_in
from life_tools.common.formats import Wrong, day_in, demand, money, number_of, remark
from life_tools.journal.record_texts import moneys
from life_tools.journal.wholeness import tell_doubt
from life_tools.reports.due_items import MOST_DAYS, SENT, WHATS, Due, Items
from life_tools.rules.tables import NEVER


def listed(items: Due) -> Iterator[str]:
    yield "what,policy,day,until,amount\n"
    never = items.until == NEVER
    untils = ["" if none else text for none, text in zip(never.tolist(), texts_at(np.where(never, 0, items.until)))]
    for what, number, day, until, amount in zip(items.what.tolist(), items.number.tolist(), texts_at(items.day), untils,
                                                moneys(items.cents)):
        yield f"{WHATS[what]},{number},{day},{until},{amount}\n"


def scripted(items: Due) -> Iterator[str]:
    order = np.lexsort((items.number, items.first))
    what, number, first = (column[order] for column in (items.what, items.number, items.first))
    for kind, policy, day in zip(what.tolist(), number.tolist(), texts_at(first)):
        yield f"1,{WHATS[kind]},{policy},{day}\n"


def tell_sums(items: Due) -> None:
    for what, name in enumerate(WHATS):
        cents = items.cents[items.what == what]
        if len(cents):
            remark(f"{name}: {len(cents)}, {money(int(cents.sum()))}")


def kinds_in(text: str | None) -> list[str]:
    kinds = text.split(",") if text is not None else []
    demand(all(kind in SENT for kind in kinds), f"--script takes {' and '.join(SENT)}, as lapse,mature, and not {text}")
    return kinds


def arguments(parser: argparse.ArgumentParser) -> None:
    parser.add_argument("day", metavar="DAY", help="YYYY-MM-DD")
    parser.add_argument("journal", metavar="JOURNAL", nargs="?", default="journal.life", help="the journal (journal.life)")
    parser.add_argument("--within", metavar="DAYS", default="0", help=f"also what falls due so many days later, 0 to {MOST_DAYS}")
    parser.add_argument("--at", metavar="P", help="of the book as its first P postings left it (all)")
    parser.add_argument("--script", metavar="KINDS", help="the lines to send, sorted by day: lapse, mature, or lapse,mature")


def run(options: argparse.Namespace) -> int:
    day, kinds = day_in(options.day), kinds_in(options.script)
    within = number_of(options.within, 0, MOST_DAYS)
    if within is None:
        raise Wrong(f"--within {options.within}: a number of days from 0 to {MOST_DAYS} is wanted")
    position = position_in(options.at)
    demand(position is None or not kinds, "--at is of a list: lines are sent to the book as it is now")
    judged, blocks = looked_at(options.journal)
    tell_doubt(options.journal, blocks.seen)
    items = Items(taken(judged, options.journal, position).policies, number_at(day), within).find_all()
    if kinds:
        chosen = np.isin(items.what, [WHATS.index(kind) for kind in kinds])
        items = Due(*(column[chosen] for column in items))
    sys.stdout.writelines(scripted(items) if kinds else listed(items))
    sys.stdout.flush()
    tell_sums(items)
    return 0
