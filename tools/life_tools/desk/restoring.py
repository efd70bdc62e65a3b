"""Prepares a log after its journal was restored from a backup: rows that the journal lacks are to be posted again."""
from __future__ import annotations

import os
import re

from life_tools.common.formats import demand, remark
from life_tools.desk.entries import BEGUN, DONE, OPEN, TRANSCRIPT, Entry, Log, Run, put
from life_tools.desk.postings import Wanted, differences, found_in
from life_tools.desk.records import now, write_safely
from life_tools.journal.wholeness import shape_at


ACCEPTED = re.compile(",accepted,([0-9]{1,7})$", re.MULTILINE)


def reopened(entry: Entry, count: int) -> int:
    """Makes accepted rows after position `count` rows that are still to be posted; returns how many."""
    record = entry.record
    lost = [each for each in record["accepted"] if each[1] > count]
    if lost:
        record["accepted"] = [each for each in record["accepted"] if each[1] <= count]
        record["lost"] += [[row, position, now()] for row, position in lost]
        record["void"] = [*record.get("void", []), *(run["run"] for run in record["runs"] if run["before"] >= count)]
        record["runs"] = [{**run, "after": min(run["after"], count)} for run in record["runs"] if run["before"] < count]
        record["state"] = OPEN
        # the mark is removed first, so that after an interruption the entry is still looked at
        put(entry.path(DONE), None)
        entry.save()
    return len(lost)


def cut(run: Run, count: int) -> None:
    """Removes from a run's transcript the first answer after position `count` and everything that follows it."""
    kept = []
    for line in run.transcript().splitlines(keepends=True):
        found = ACCEPTED.search(line)
        if found and int(found[1]) > count:
            break
        kept.append(line)
    write_safely(run.path(TRANSCRIPT), "".join(kept).encode("ascii", "replace"))


def restored(log: Log, journal: str) -> None:
    """Reopens each entry that has postings the journal lacks.

    Raises Wrong, and changes nothing, if the journal is not a prefix of what the log has.
    """
    demand(os.path.isfile(journal), f"there is no {journal}: put the backup in place first")
    count = shape_at(journal).count
    wrong = next(differences(journal, count, (each for each in found_in(log, Wanted()) if each.position <= count)), None)
    demand(not wrong, f"{journal} is not an earlier state of this book: {wrong}; nothing was done")
    rows = sum(reopened(entry, count) for entry in log.entries())
    for run in map(log.run, reversed(log.run_numbers())):
        if run.record["state"] != BEGUN and run.record["after"] <= count:
            break
        cut(run, count)
        if run.record["state"] != BEGUN:
            run.record["after"] = count
            run.save()
    remark(f"day: the journal was restored to {count} postings; {rows} rows that were posted since are posted anew")
