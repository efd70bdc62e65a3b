"""The rows of a script that a killed run did not reach, as a script for the next
run.

    life-tools rest day.csv journal.life --printed day.transcript > rest.csv
    life-tools rest day.csv journal.life 8002 > rest.csv

What the run accepted is in the journal, and a lane's rows are answered in
their order. So of each lane the rows up to the last one that the journal shows
were answered, and the rest is to be run. --printed names what the run printed
before it ended: the rows answered there are certain, and their refusals and
valuations are not asked for again. BEFORE says where the run began: the number
of commands accepted before it (the `count` of `life state`), or a copy of the
journal from before; it is not needed if an accepted line was printed.

Rows that were printed `refused,full` are reported, with status 1; with --full
they are in the rest, to be sent to a book that is not full.

If equal rows stand in several lanes, the records are dealt out so that the
killed run together with the rest is one run of the whole script. The status is
1 if no run of the script leaves this journal: another script, another BEFORE,
another printed file, or a disk that failed in the run.
"""
from __future__ import annotations

import argparse
import os
import sys

from life_tools.rules.commands import Command
from life_tools.common.formats import MOST_COMMANDS, Wrong, demand, number_of, printed_text, remark
from life_tools.journal.columns import columns_at
from life_tools.journal.file import gate_of
from life_tools.journal.record_columns import prefix_sum
from life_tools.scripts.cut_transcripts import Printed, read_prefix
from life_tools.scripts.remainder import NoRun, demand_records, history_in, rest_of
from life_tools.scripts.lines import Line, lanes_of, script_at


def arguments(parser: argparse.ArgumentParser) -> None:
    parser.add_argument("script", metavar="SCRIPT", help="the script of the killed run")
    parser.add_argument("journal", metavar="JOURNAL", help="journal.life as it is now")
    parser.add_argument("before", metavar="BEFORE", nargs="?",
                        help="how many commands were accepted before, or a journal from before")
    parser.add_argument("--printed", metavar="FILE", help="what the run printed before it ended")
    parser.add_argument("--full", action="store_true", help="also the rows that are printed as having found the book full")


def count_before(before: str, journal: str) -> int:
    """Returns how many commands were accepted before the run; a journal from before must be a prefix of the present one."""
    if not os.path.exists(before):
        count = number_of(before, 0, MOST_COMMANDS)
        if count is None:
            raise Wrong(f"{before} is no journal, and no number of commands")
        return count
    count = columns_at(before).count
    is_beginning = os.path.getsize(journal) >= gate_of(count) and prefix_sum(before, count) == prefix_sum(journal, count)
    demand(is_beginning, f"{journal} doesn't go on from {before}")
    return count


def beginning(before: str | None, printed: Printed, journal: str) -> int:
    """Returns how many commands were accepted before the run, from BEFORE or from what was printed."""
    if before is not None:
        count = count_before(before, journal)
        demand(printed.begun in (None, count), f"before the run there were {count}, and by what is printed {printed.begun}")
        return count
    if printed.begun is None:
        raise Wrong("no accepted line is printed: BEFORE is needed, the number of commands accepted before the run")
    return printed.begun


def tell(lanes: dict[int, list[Line]], rest: dict[int, list[Line]], records: int, printed: Printed) -> None:
    """Reports how many rows of each lane were answered, which valuations were lost, and which printed rows were not posted."""
    remark(f"accepted in the run: {records}")
    for word, line in printed.unposted:
        remark(f"row {line.row.number} was answered {word}, and isn't in the rest: {line.row.text}")
    for lane, lines in sorted(lanes.items()):
        answered = lines[:len(lines) - len(rest[lane])]
        remark(f"lane {lane}: {len(answered)} of {len(lines)} rows were answered")
        for line in answered:
            if line.kind == "value" and line.row.number not in printed.rows:
                remark(f"  lost: {line.row.text}, row {line.row.number}: life value {line.day} --at POSITION prints it")


def first_of_lanes(lines: list[Line]) -> dict[Command, dict[int, Line]]:
    """Returns for each command the first row in each lane that equals it."""
    found: dict[Command, dict[int, Line]] = {}
    for line in lines:
        if line.command:
            found.setdefault(line.command, {}).setdefault(line.lane, line)
    return found


def tell_equal(answered: list[Line], rest: list[Line]) -> None:
    """Reports rows of the rest that equal an answered row of another lane."""
    firsts = first_of_lanes(answered)
    for line in rest:
        known = firsts.get(line.command, {}) if line.command else {}
        like = min((it.row.number for lane, it in known.items() if lane != line.lane), default=None)
        if like:
            remark(f"row {line.row.number} equals row {like}, which is taken as the one that was accepted")


def tell_full(printed: Printed) -> int:
    """Reports how many rows found the book full. Returns 1, or 0 if none did."""
    if printed.full:
        remark(f"rows that found the book full, and aren't in the rest: {len(printed.full)}; --full has them there")
    return 1 if printed.full else 0


def run(options: argparse.Namespace) -> int:
    lines = script_at(options.script)
    printed = read_prefix(printed_text(options.printed), lines) if options.printed else Printed()
    history = history_in(columns_at(options.journal), beginning(options.before, printed, options.journal), lines)
    try:
        demand_records(printed, history)
        rest = rest_of(lines, history, printed)
    except NoRun as none:
        remark(str(none))
        return 1
    left = {line.row.number for lane in rest.values() for line in lane}
    tell(lanes_of(lines), rest, history.records, printed)
    certain = left | printed.rows
    tell_equal([line for line in lines if line.row.number not in certain],
               [line for line in lines if line.row.number in left])
    if options.full:
        left |= {line.row.number for line in printed.full}
    sys.stdout.writelines(line.row.text + "\n" for line in lines if line.row.number in left)
    return 0 if options.full else tell_full(printed)
