"""Reports for `day --status` what is unfinished, what is held, and which process is at work; it changes nothing."""
from __future__ import annotations

import os

from life_tools.common.formats import demand, remark
from life_tools.common.locks import holder_of
from life_tools.desk.claiming import written_later
from life_tools.desk.entries import BEGUN, CLAIMING, LOCK, OPEN, Entry, Log
from life_tools.desk.reporting import held_text, print_entries


def lines_of(entry: Entry) -> list[str]:
    """Returns the lines about an entry that is not done."""
    state = entry.record["state"]
    if state == CLAIMING:
        return [f"{entry.shown}: the claim of {entry.file} was interrupted; the next `day` finishes it"]
    if entry.fault:
        return [entry.fault]
    said = [held_text(entry, each) for each in entry.held]
    if said:
        said.append(f"`life-tools day --release {entry.number}` posts the held rows of {entry.file}, --discard puts them away")
    if state == OPEN:
        said.append(f"{entry.shown}: {len(entry.left)} rows of {entry.file} are still to be posted; the next `day` goes on")
    return said


def report(log: Log, journal: str) -> int:
    """Prints the report. Returns 1, or 0 if nothing is unfinished or held."""
    demand(os.path.isdir(log.path), f"there is no {log.path}: `life-tools day` makes it")
    said = []
    for path, what in ((os.path.join(log.path, LOCK), "a `day` is at work"), (journal, "journal.life is in use")):
        holder = holder_of(path)
        if holder:
            said.append(f"{what}: {holder}")
    run = log.newest_run()
    if run and run.record["state"] == BEGUN:
        said.append(f"run {run.number}, begun {run.record['begun']} on a book of {run.record['before']} postings, has not ended "
                    "or was interrupted; the next `day` finds out what was posted, and goes on")
    entries = log.undone()
    said += [line for entry in entries for line in lines_of(entry)]
    said += [f"{entry.file} was written to after it was claimed: the next `day` takes what was added to {entry.shown}"
             for entry in map(log.entry, written_later(log)) if entry.is_added_to]
    print_entries(entry for entry in entries if entry.record["state"] != CLAIMING and not entry.fault)
    for line in said:
        remark(f"day: {line}")
    return 1 if said or entries else 0
