"""Releases or discards held rows that a person has checked: released rows form an entry of their own; discarded ones are never
posted."""
from __future__ import annotations

import os
from dataclasses import dataclass
from typing import Callable, Iterable

from life_tools.common.formats import Wrong, demand
from life_tools.desk.claiming import caller, login, open_entry
from life_tools.desk.entries import CLAIMING, DISCARDED, HANDED_IN, HELD, RELEASED, Entry, Log
from life_tools.desk.records import Record, now, write_safely
from life_tools.desk.settings import Settings


def chosen_rows(entry: Entry, lines: Iterable[int]) -> list[Record]:
    """Returns the held rows of an entry: all of them, or those on these lines of its file."""
    wanted = set(lines)
    held = entry.held
    unknown = wanted - {each["line"] for each in held}
    demand(not unknown, f"line {', '.join(map(str, sorted(unknown)))} of {entry.file} is not held in {entry.shown}")
    demand(held, f"no row of {entry.shown} is held")
    return [each for each in held if not wanted or each["line"] in wanted]


def demand_allowed(rows: Iterable[Record], name: str, settings: Settings) -> None:
    for each in rows:
        demand(settings.may_release(name, each["reason"]), f"{name} may not release line {each['line']} ({each['reason']}) by "
               "desk.toml: nothing was done")


def demand_oldest(entry: Entry, rows: list[Record], log: Log) -> None:
    """Raises Wrong unless the rows of each policy are released in the order in which they were handed in."""
    policies = {each["policy"] for each in rows}
    for other in log.undone():
        earlier = [each for each in other.held if each["policy"] in policies] if other.number < entry.number else []
        if earlier:
            raise Wrong(f"an earlier row of policy {earlier[0]['policy']} is held in {other.shown}: release or discard that "
                        "first; nothing was done")
    first = {each["policy"]: each["row"] for each in reversed(entry.held) if each not in rows}
    for each in rows:
        if first.get(each["policy"], each["row"]) < each["row"]:
            raise Wrong(f"an earlier row of policy {each['policy']} is held in {entry.shown}, too: release or discard that "
                        "first; nothing was done")


@dataclass(frozen=True)
class Judgement:
    """A person's judgement of held rows: who judged, why, and the lines of the file (empty for all lines)."""

    name: str
    because: str | None
    lines: tuple[int, ...] = ()

    def record(self) -> Record:
        return {"by": self.name, "login": login(), "because": self.because, "at": now()}


def released(entry: Entry, log: Log, judgement: Judgement, settings: Settings) -> Entry:
    """Returns the new entry of rows that a person releases; the entry from which they come records the release."""
    rows = chosen_rows(entry, judgement.lines)
    demand_allowed(rows, judgement.name, settings)
    demand_oldest(entry, rows, log)
    folder = log.new_folder(now()[:10], f"release-of-{entry.number}")
    record = {**entry.record, "state": CLAIMING, "caller": caller(),
              "times": {"claimed": now(), "checked": None, "ended": None}, "accepted": [], "refused": [], "answered": [],
              "held": [], "runs": [], "lost": [], "rows": len(rows),
              "from": {"entry": entry.name, "rows": [each["row"] for each in rows],
                       "lines": [each["line"] for each in rows], **judgement.record()}}
    # no file in the inbox has this name, so an interrupted release is undone
    record["file"] = {**entry.record["file"], "path": os.path.join(folder, "released")}
    made = Entry(folder, record)
    made.save()
    text = "".join(f"{each['text']}\n" for each in rows)
    write_safely(made.path(HANDED_IN), text.encode("utf-8", "surrogateescape"))
    open_entry(made)
    mark_released(made, lambda _: entry)
    return made


def mark_released(entry: Entry, entry_named: Callable[[str], Entry]) -> None:
    """Marks released rows in the entry from which they come, if they are not marked yet."""
    origin = entry.record["from"]
    if origin is None or entry.record["state"] == CLAIMING:
        return
    source = entry_named(origin["entry"])
    rows = [each for each in source.record["held"] if each["row"] in origin["rows"] and each["state"] == HELD]
    for each in rows:
        each.update(state=RELEASED, entry=entry.name, **{key: origin[key] for key in ("by", "login", "because", "at")})
    if rows:
        source.save()
        source.write_marks()


def discarded(entry: Entry, judgement: Judgement, settings: Settings) -> list[Record]:
    """Discards rows: they are never posted, and later rows of their policies are no longer held because of them."""
    rows = chosen_rows(entry, judgement.lines)
    demand_allowed(rows, judgement.name, settings)
    for each in rows:
        each.update(state=DISCARDED, **judgement.record())
    entry.save()
    entry.write_marks()
    return rows
