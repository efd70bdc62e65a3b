"""Does the work of a `day`.

It finishes what was interrupted; claims, checks and posts files; and records and reports the result of each row.
"""
from __future__ import annotations

import datetime
import os
from dataclasses import dataclass
from typing import Callable, Iterable, Sequence

from life_tools.common.formats import MOST_COMMANDS, Wrong, demand, remark
from life_tools.desk.claiming import Left, claimed, clear_unbegun, finish_claim, requeued, written_later
from life_tools.desk.entries import BEGUN, ENDED, FULL_ROWS, OPEN, REMARKS, TRANSCRIPT, Entry, Log, Run
from life_tools.desk.holding import Holder, waiting_in
from life_tools.desk.plausibility import NetPremiums
from life_tools.desk.reckoning import Reckoned, commands_between, reckoned
from life_tools.desk.records import Record, now, shown, write_safely
from life_tools.desk.releases import Judgement, discarded, mark_released, released
from life_tools.desk.reporting import held_text, print_entries, refused_text
from life_tools.desk.running import (REFUSED_STATUSES, Program, chosen, count_of, new_run, refused_rows, rows_of, run_when_free,
                                     script_of)
from life_tools.desk.settings import Settings
from life_tools.desk.stopping import Stopping
from life_tools.desk.waiting import Patience, wait_for_journal
from life_tools.journal.copied_folder import JOURNAL
from life_tools.journal.medium import made_safe
from life_tools.journal.wholeness import DAMAGED, beside, log_count, shape_with

# at most so many rows of a file are shown; all of them are in its folder
MOST_SHOWN = 20
YEAR = 365


@dataclass(frozen=True)
class Asked:
    """What `day` was asked to do."""

    folder: str
    files: Sequence[str]
    is_new: bool
    today: datetime.date
    settings: Settings


class Day:
    """The work on one book, under the lock of its log."""

    def __init__(self, asked: Asked, program: Program, patience: Patience, stop: Stopping) -> None:
        self.asked, self.program, self.patience, self.stop = asked, program, patience, stop
        self.journal = os.path.join(asked.folder, JOURNAL)
        self.log = Log(asked.folder)
        self.nets = NetPremiums(asked.folder, program.basis)
        self.entries: dict[str, Entry] = {}
        # the names of the entries that this `day` worked on
        self.worked: set[str] = set()
        # the names of entries whose fault was reported
        self.faulty: set[str] = set()
        self.is_explained = False
        self.status = 0

    def say(self, text: str) -> None:
        """Prints a line on standard error about something that a person has to know; the status becomes 1."""
        remark(f"day: {text}")
        self.status = 1

    # --- the whole ---

    def work(self, judge: Callable[[Day], None]) -> int:
        """Finishes what was interrupted, applies a person's judgement of held rows, and posts. Returns the status."""
        self.demand_book()
        if not self.is_whole():
            return 1
        self.finish_runs()
        self.finish_entries()
        judge(self)
        for path in self.asked.files:
            self.claim(path)
        self.post()
        self.report()
        return self.status

    def release(self, words: str, judgement: Judgement) -> None:
        entry = released(self.entry(self.log.named(words).name), self.log, judgement, self.asked.settings)
        self.entries[entry.name] = entry
        remark(f"day: {entry.record['rows']} rows of entry {words} are released by {shown(judgement.name)}, as {entry.shown}")

    def discard(self, words: str, judgement: Judgement) -> None:
        rows = discarded(self.entry(self.log.named(words).name), judgement, self.asked.settings)
        remark(f"day: {len(rows)} rows of entry {words} are put away, and are never posted")

    def demand_book(self) -> None:
        """Raises Wrong if the journal may not be used or begun: one is begun only if that was asked for, never in place of
        another."""
        noted, folder = log_count(self.log.path) or 0, os.path.abspath(self.asked.folder)
        if os.path.lexists(self.journal):
            demand(os.path.isfile(self.journal), f"{self.journal} is not a file: nothing was done")
            demand(not self.asked.is_new, f"there is a journal.life in {folder}, and --new begins one: leave --new out")
            is_known = os.path.getsize(self.journal) or self.log.newest_run()
            demand(is_known, f"{self.journal} is empty: restore it from a backup, or remove it and begin a book by --new")
            return
        demand(not noted, f"the log in {folder} is that of a book of {noted} postings, whose journal.life is not there: put it "
               "back, or restore it from a backup")
        demand(self.asked.is_new or self.log.newest_run(), f"there is no journal.life in {folder}: `life-tools day --new` "
               "begins a book")

    def is_whole(self) -> bool:
        """Returns whether the book may be written to, which it may not if commands are known to be gone."""
        if not os.path.exists(self.journal):
            return True
        wait_for_journal(self.journal, self.patience)
        shape = shape_with(self.journal, *beside(self.journal))
        # bytes that an interrupted run left after the end are expected, and what was reported before is not repeated
        self.is_explained = self.is_explained or self.open_run() is not None
        for reason in shape.reasons() if shape.verdict == DAMAGED or not self.is_explained else ():
            self.say(reason)
        self.is_explained = True
        if shape.verdict == DAMAGED:
            self.say(f"{self.journal} is damaged, so nothing is posted: keep it aside, and restore a backup; after that "
                     "`life-tools day --restored` posts anew what the backup lacks")
        return shape.verdict != DAMAGED

    # --- what was interrupted ---

    def open_run(self) -> Run | None:
        run = self.log.newest_run()
        return run if run and run.record["state"] == BEGUN else None

    def finish_runs(self) -> None:
        for run in self.unnoted_runs():
            self.finish_run(run)

    def unnoted_runs(self) -> list[Run]:
        """Returns the interrupted run, if there is one, and each run that an entry with rows left does not know; the oldest is
        first.

        Entries may not know a run if they come from a backup that was made while the run was being noted.
        """
        undone = [entry for entry in self.log.undone() if entry.record["state"] == OPEN and not entry.fault]
        left = {entry.name: {*(run["run"] for run in entry.record["runs"]), *entry.record.get("void", [])}
                for entry in undone if entry.left}
        runs = map(self.log.run, self.log.run_numbers()) if left else filter(None, [self.open_run()])
        return [run for run in runs if run.record["state"] == BEGUN
                or any(run.number not in left.get(lane["entry"], {run.number}) for lane in run.record["lanes"])]

    def finish_run(self, run: Run) -> None:
        files = ", ".join(self.entry(lane["entry"]).file for lane in run.record["lanes"])
        found = self.settle(run, None)
        rows = sum(len(lane["rows"]) for lane in run.record["lanes"])
        said = f"run {run.number} of {files}, begun {run.record['begun']}, was interrupted"
        places = f" as positions {min(found.accepted.values())} to {max(found.accepted.values())}" if found.accepted else ""
        self.say(f"{said}: {len(found.accepted)} of its {rows} rows were posted{places}, {len(found.refused)} were refused")
        self.say(f"the other {len(found.left)} rows are posted now" if found.left else "nothing of it is left to post")

    def finish_entries(self) -> None:
        """Continues the entries that are not done: interrupted claims, releases and rows."""
        for folder in clear_unbegun(self.log):
            self.say(f"{folder} has a file and no entry.json, so nothing of it is posted: put its entry.json back from a copy; "
                     "or hand in a copy of its file, of which rows that were posted are held, and remove the folder")
        for entry in self.log.undone():
            entry = self.entries.get(entry.name, entry)
            try:
                is_kept = finish_claim(entry)
            except Left as left:
                self.say(f"{entry.file} {left}")
                continue
            if is_kept:
                self.entries[entry.name] = entry
                mark_released(entry, self.entry)
                entry.write_marks()
        for name in written_later(self.log):
            self.entry(name)

    def entry(self, name: str) -> Entry:
        if name not in self.entries:
            self.entries[name] = self.log.entry(name)
        return self.entries[name]

    # --- claiming ---

    def claim(self, path: str) -> None:
        try:
            entry = claimed(path, self.asked.folder, self.log)
        except Left as left:
            self.say(f"{shown(path)} {left}")
            return
        self.entries[entry.name] = entry

    # --- posting ---

    def in_order(self) -> list[Entry]:
        return sorted(self.entries.values(), key=lambda entry: entry.number)

    def pending(self) -> list[Entry]:
        """Returns the entries that have rows to post.

        An entry with nothing left is closed. What was added to a file after it was read becomes an entry of its own.
        """
        for entry in self.in_order():
            if entry.is_added_to:
                self.take_added(entry)
        entries = [entry for entry in self.in_order() if entry.record["state"] == OPEN and self.is_readable(entry)]
        for entry in entries:
            if not entry.left:
                self.worked.add(entry.name)
                entry.close(now())
        return [entry for entry in entries if entry.left]

    def take_added(self, entry: Entry) -> None:
        try:
            made = requeued(entry, self.log, self.in_order())
        except Wrong as wrong:
            self.tell_fault(entry, str(wrong))
            return
        self.entries[made.name] = made
        self.say(f"{entry.file} was written to after it was claimed: what was added is {made.shown}")

    def is_readable(self, entry: Entry) -> bool:
        if entry.fault:
            self.tell_fault(entry, entry.fault)
        return not entry.fault

    def tell_fault(self, entry: Entry, fault: str) -> None:
        if entry.name not in self.faulty:
            self.faulty.add(entry.name)
            self.say(fault)

    def post(self) -> None:
        """Posts what there is to post, run after run, until nothing is left or a run ends badly."""
        while pending := self.pending():
            batch = chosen(pending)
            self.worked.update(entry.name for entry in batch)
            self.hold(batch)
            batch = [entry for entry in batch if entry.left]
            if batch and not self.run(batch):
                left = len(self.pending())
                if left:
                    self.say(f"nothing more is posted; {left} files wait in log/, and the next `day` goes on with them")
                return

    def hold(self, batch: Iterable[Entry]) -> None:
        """Holds rows for a person, and closes the entries that have nothing left to post."""
        waiting = waiting_in(self.in_order())
        holder = Holder(self.asked.today, self.asked.settings, self.nets, waiting)
        holder.read(self.journal, count_of(self.journal), batch)
        for entry in batch:
            holder.hold(entry)
            entry.record["times"]["checked"] = now()
            entry.close(now())
        if self.nets.missing and any(line.kind == "issue" for entry in batch for line in entry.left):
            self.say(f"premiums of issues are not compared with net premiums: {self.nets.missing}")

    def run(self, batch: list[Entry]) -> bool:
        """Posts the rows of up to eight entries and returns whether all of them were answered."""
        if not self.is_whole():
            return False
        with self.stop.posting():
            run = new_run(self.log, batch, count_of(self.journal), self.program.asked)
            self.tell_lanes(run, batch)
            status = run_when_free(self.program, run, self.journal, self.patience, self.stop)
            is_refused = status in REFUSED_STATUSES and self.refuse(run)
            found = self.settle(run, status)
        is_ended = not found.left or is_refused
        if not is_ended or (status and not is_refused):
            self.tell_end(run, status, found)
        return is_ended and not self.stop.caught

    def tell_lanes(self, run: Run, batch: Sequence[Entry]) -> None:
        lanes = [f"lane {lane} is {entry.file}" for lane, entry in enumerate(batch, 1)]
        if any(line.lane != lane for lane, entry in enumerate(batch, 1) for line in entry.left):
            remark(f"day: run {run.number}: {'; '.join(lanes)}: the lane field of each row is rewritten so")

    def refuse(self, run: Run) -> bool:
        """Notes the rows for which the program refused the whole script, if its answer names any; the next run posts the
        others."""
        rows, answer = rows_of(run), run.transcript().strip()
        refused = refused_rows(script_of(run), answer)
        for row in refused:
            name, mine = rows[row]
            self.entry(name).record["refused"].append([mine, answer])
        for lane in run.record["lanes"]:
            self.entry(lane["entry"]).save()
        return bool(refused)

    def settle(self, run: Run, status: int | None) -> Reckoned:
        """Finds out what became of each row of a run and notes it in the entries; what is already noted does not change.

        The journal is synced first: the last posting of a killed run may not be on the disk yet, and a posting whose sync failed
        may exist only in memory.
        """
        if os.path.exists(self.journal):
            made_safe(self.journal)
        is_open = run.record["state"] == BEGUN
        before, count = run.record["before"], count_of(self.journal) if is_open else run.record["after"]
        records = commands_between(self.journal, before, count)
        found = reckoned(script_of(run), run.transcript(), records, before)
        rows, at = rows_of(run), now() if is_open else run.record["ended"]
        status = status if is_open else run.record["status"]
        for lane in run.record["lanes"]:
            entry = self.entry(lane["entry"])
            self.worked.add(entry.name)
            if all(each["run"] != run.number for each in entry.record["runs"]):
                mine = {row: own for row, (name, own) in rows.items() if name == entry.name}
                self.note(entry, lane["lane"], run, found, mine, {"after": count, "status": status, "ended": at})
        if is_open:
            run.record.update(state=ENDED, after=count, status=status, ended=at, foreign=found.foreign, stopped=self.stop.caught)
            run.save()
        if found.foreign:
            self.say(f"{found.foreign} postings after position {before} are not of run {run.number}: another run posted them")
        return found

    def note(self, entry: Entry, lane: int, run: Run, found: Reckoned, rows: dict[int, int], end: Record) -> None:
        """Notes in an entry what became of its rows, in a single write."""
        record = entry.record
        for row, own in rows.items():
            if row in found.accepted:
                record["accepted"].append([own, found.accepted[row]])
            elif row in found.refused:
                record["refused"].append([own, found.refused[row]])
            elif row in found.answered:
                record["answered"].append([own, found.answered[row]])
        noted = {name: run.record[name] for name in ("begun", "before", "sha256", "caller")}
        this = {"run": run.number, "lane": lane, **noted, **end}
        runs: list[Record] = [*record["runs"], this]
        text = "".join(lane_text(self.log.run(each["run"]).transcript(), each["lane"]) for each in runs)
        write_safely(entry.path(TRANSCRIPT), text.encode("ascii", "replace"))
        full = {mine for row, mine in rows.items() if found.refused.get(row, "").startswith("full,")}
        if full:
            texts = "".join(f"{line.row.text}\n" for line in entry.lines if line.row.number in full)
            write_safely(entry.path(FULL_ROWS), texts.encode("utf-8", "surrogateescape"))
        record["runs"] = runs
        entry.close(str(end["ended"]))

    def tell_end(self, run: Run, status: int, found: Reckoned) -> None:
        how = f"was ended by signal {-status}" if status < 0 else f"ended with status {status}"
        printed = run.transcript().splitlines()
        with open(run.path(REMARKS), encoding="utf-8", errors="replace") as file:
            said = [*(printed[:1] if not found.accepted else []), *file.read().splitlines()]
        self.say(f"run {run.number} {how}; {len(found.accepted)} rows were posted, {len(found.left)} are left"
                 + "".join(f"; it printed: {shown(line)}" for line in said[:3]))

    # --- what is reported ---

    def report(self) -> None:
        entries = self.in_order()
        worked = [entry for entry in entries if entry.name in self.worked]
        print_entries(worked)
        for entry in worked:
            self.tell_entry(entry)
        for entry in entries:
            if entry not in worked and entry.held:
                since = entry.record["times"]["claimed"][:10]
                self.say(f"{entry.shown}: {len(entry.held)} rows of {entry.file} wait for a person since {since}: "
                         f"`life-tools day --release {entry.number}` posts them, --discard puts them away")
        self.tell_room()

    def tell_entry(self, entry: Entry) -> None:
        if entry.record["refused_whole"]:
            self.say(f"{entry.file} is refused whole, {entry.record['refused_whole']}, so nothing of it is posted ("
                     f"{entry.record['why']}). Correct a copy of {entry.shown}/handed-in.csv, and hand it in")
            return
        lines = {line.row.number: line for line in entry.lines}
        refused = [refused_text(entry, lines[row], words) for row, words in entry.record["refused"]]
        held = [held_text(entry, each) for each in entry.held]
        for texts, what in ((refused, "refused"), (held, "held")):
            for text in texts[:MOST_SHOWN]:
                self.say(text)
            if len(texts) > MOST_SHOWN:
                self.say(f"{entry.file}: {len(texts) - MOST_SHOWN} more rows are {what}: {entry.shown}")
        if held:
            self.say(f"look at the held rows; `life-tools day --release {entry.number}` posts them, --discard puts them away")

    def tell_room(self) -> None:
        """Prints how many commands are left if the book may be full within a year."""
        count = count_of(self.journal)
        if (MOST_COMMANDS - count) > 4 * count:
            return
        from life_tools.books.headroom import recorded_in_log, room_of
        from life_tools.journal.columns import columns_at
        from life_tools.rules.commands import number_at

        today = number_at(self.asked.today)
        try:
            room = room_of(columns_at(self.journal), recorded_in_log(self.log.path), today)
        except Wrong as wrong:
            self.say(str(wrong))
            return
        for warning in room.warnings(today, 0, YEAR):
            self.say(f"{self.journal}: {warning}")


def lane_text(transcript: str, lane: int) -> str:
    """Returns the lines of a transcript that answer one lane, including the rows of its valuations."""
    found, is_mine = [], False
    for line in transcript.splitlines():
        if not line.startswith(("row,", "total,")):
            is_mine = line.startswith(f"{lane},")
        if is_mine:
            found.append(f"{line}\n")
    return "".join(found)
