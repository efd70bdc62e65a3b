"""Writes what `day` and `log` print about entries and their rows."""
from __future__ import annotations

import sys
from typing import Iterable

from life_tools.common.cells import write_rows
from life_tools.common.formats import Wrong
from life_tools.desk.entries import DISCARDED, Entry
from life_tools.desk.reckoning import NOT_PRINTED
from life_tools.desk.records import Record, shown
from life_tools.rules.remedies import remedy_of
from life_tools.scripts.lines import Line

HEAD = ["file", "entry", "accepted", "refused", "held", "left"]


def row_of(entry: Entry) -> list[object]:
    """Returns an entry's row: its file, its folder, and how many of its rows are accepted, refused, held and left."""
    record = entry.record
    refused = "whole" if record["refused_whole"] else len(record["refused"])
    return [entry.file, entry.shown, len(record["accepted"]), refused, len(entry.held), len(entry.left)]


def print_entries(entries: Iterable[Entry]) -> None:
    """Prints the rows of entries on standard output with a header row, or nothing if there are no entries."""
    rows = [row_of(entry) for entry in entries]
    if rows:
        write_rows(sys.stdout, [HEAD, *rows])
        sys.stdout.flush()


def refused_text(entry: Entry, line: Line, words: str) -> str:
    start = f"{entry.file}, line {line.row.line}: {shown(line.row.text)}: refused"
    if words == NOT_PRINTED:
        return f"{start}, and the run was interrupted before it printed why: `life-tools check` shows it"
    try:
        what = remedy_of(line.kind, words.split(",")).what
    except Wrong:
        return f"{start}, {words}"
    return f"{start}, {words}: {what}"


def held_text(entry: Entry, held: Record) -> str:
    return f"{entry.file}, line {held['line']}: {shown(held['text'])}: held: {held['why']}"


def settled_text(held: Record) -> str:
    """Returns who released or discarded a held row, and why."""
    what = "discarded" if held["state"] == DISCARDED else "released"
    return f"{what} by {held['by']}" + (f": {held['because']}" if held["because"] else "")
