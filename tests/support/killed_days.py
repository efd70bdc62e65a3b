"""A trial of `life-tools day`: files are handed in, and each `day` over them is killed at some moment or step.

A `day` is a process that is forked off the test, in a process group of its own, together with the program that it starts. It is
killed after a drawn time, or before a drawn system call (a file opened, renamed, synced or removed, a folder made, the program
started), with the program or without it; or only the program is killed; or `day` is sent TERM. A second `day` may run at the same
time, and files may arrive.
"""
import contextlib
import hashlib
import json
import os
import random
import signal
import sys
import time
from collections import Counter
from dataclasses import dataclass, field
from pathlib import Path
from typing import Any, Callable, Sequence

from life_tools.cli import backup, day
from life_tools.cli.entry import main
from tests.support.desks import TODAY, Desk
from tests.support.program import ROOT

# these are imported before any tool is killed, so that the calls which are counted are the tool's own
TOOLS = (backup, day)
# the audit events before which a `day` may be killed
CALLS = ("open", "os.rename", "os.mkdir", "os.remove", "os.rmdir", "subprocess.Popen", "os.listdir", "os.scandir", "fcntl.flock",
         "trial.fsync")
# the most such events of a `day` over one file, and the most seconds that it takes
MOST_CALLS, MOST_SECONDS = 160, 0.8
# the most seconds of any `day`, even on a machine that gives it a fiftieth of a processor
PATIENCE = 240
WAYS = ("time", "time", "call", "call", "call", "tool", "program", "term", "none")


def kill_before(calls: int, kill: Callable[[], None]) -> None:
    """Makes this process call `kill` before its system call of this number, counted from here."""
    left = [calls]

    def hook(event: str, _: object) -> None:
        if event in CALLS:
            left[0] -= 1
            if left[0] == 0:
                kill()

    fsync = os.fsync

    def heard_fsync(handle: int) -> None:
        sys.audit("trial.fsync")
        fsync(handle)

    sys.addaudithook(hook)
    setattr(os, "fsync", heard_fsync)


def start_day(desk: Desk, name: str, way: str, calls: int, words: Sequence[str] = ()) -> int:
    """Starts a `day` in a process group of its own, whose output goes to a file."""
    child = os.fork()
    if child:
        with contextlib.suppress(OSError):
            os.setpgid(child, child)
        return child
    status = 70
    try:
        os.setpgid(0, 0)
        said = os.open(desk.folder.path / name, os.O_WRONLY | os.O_CREAT | os.O_TRUNC, 0o644)
        os.dup2(said, 1)
        os.dup2(said, 2)
        sys.stdout, sys.stderr = (open(number, "w", encoding="utf-8", closefd=False) for number in (1, 2))
        os.chdir(desk.folder.path)
        os.environ["LIFE_PROGRAM"] = str(desk.folder.program.path)
        sys.argv = [str(ROOT / "tools" / "life-tools"), "day"]
        if way == "call":
            kill_before(calls, lambda: os.killpg(0, signal.SIGKILL))
        elif way == "tool":
            kill_before(calls, lambda: os.kill(os.getpid(), signal.SIGKILL))
        status = main(["day", "--today", TODAY, *words])
        sys.stdout.flush()
        sys.stderr.flush()
    finally:
        os._exit(status)


def program_of(group: int) -> int | None:
    """Returns the process id of the program that a `day` has started, while it runs."""
    for pid in os.listdir("/proc"):
        with contextlib.suppress(OSError, ValueError):
            fields = Path("/proc", pid, "stat").read_text().rpartition(")")[2].split()
            if pid.isdecimal() and int(fields[2]) == group and int(pid) != group:
                return int(pid)
    return None


@dataclass
class Trial:
    """A desk, what was handed in, and the number of kills."""

    desk: Desk
    draw: random.Random
    kills: int = 0
    ways: Counter[str] = field(default_factory=Counter)
    # how often each file was handed in, by its checksum
    handed_in: Counter[str] = field(default_factory=Counter)
    files: list[bytes] = field(default_factory=list)
    number: int = 0
    settled: dict[int, int] = field(default_factory=dict)

    # --- what is handed in ---

    def new_rows(self) -> list[str]:
        """Returns rows that the rules accept in this order, and sometimes one that equals another or is refused."""
        draw, rows = self.draw, []
        for _ in range(draw.randint(1, 12)):
            self.number += 1
            rows.append(f"1,issue,{self.number},2024-05-01,whole,40,0,1000.00,40.00")
            if draw.random() < 0.5:
                rows.append(f"1,premium,{self.number},2024-05-01,40.00")
            if draw.random() < 0.5:
                rows.append(f"1,claim,{self.number},2024-05-10")
                self.settled[self.number] = 0
        for number in draw.sample(sorted(self.settled), min(len(self.settled), draw.randint(0, 6))):
            self.settled[number] += 1
            rows.append(f"1,settle,{number},2024-05-20,{self.settled[number]}.00")
        if draw.random() < 0.4:
            rows.append(draw.choice(rows))
        if draw.random() < 0.3:
            rows.append(f"1,lapse,{self.number},2024-05-20")
        return rows

    def new_file(self) -> bytes:
        draw = self.draw
        if self.files and draw.random() < 0.25:
            again = draw.choice(self.files).replace(b"\r\n", b"\n")
            return draw.choice([again, again.replace(b"\n", b"\r\n"), b"\xef\xbb\xbf" + again])
        data = "".join(f"{row}\n" for row in self.new_rows()).encode()
        return data + b"1,lapse,1,2024-02-30\n" if draw.random() < 0.05 else data

    def hand_in(self) -> None:
        """Puts a file into the inbox by a rename, as a careful clerk does. Some files are younger than two seconds."""
        data, name = self.new_file(), f"f{sum(self.handed_in.values()):05}.csv"
        part = self.desk.folder.write(f"inbox/.{name}", data)
        then = time.time() - self.draw.choice([0, 10, 10, 10, 10])
        os.utime(part, (then, then))
        self.handed_in[hashlib.sha256(data).hexdigest()] += 1
        self.files.append(data)
        os.rename(part, self.desk.folder.path / "inbox" / name)

    # --- a `day` that is killed ---

    def kill_one(self) -> None:
        """Hands in files, starts one or two `day`s, and kills each of them in a drawn way."""
        for _ in range(self.draw.choice([0, 1, 1, 2, 3])):
            self.hand_in()
        begun = []
        for nth in range(self.draw.choice([1, 1, 1, 2])):
            way = self.draw.choice(WAYS)
            begun.append((start_day(self.desk, f"said-{nth}", way, self.draw.randint(1, MOST_CALLS), self.words()), way))
            self.ways[way] += 1
        if self.draw.random() < 0.3:
            time.sleep(self.draw.uniform(0, 0.3))
            self.hand_in()
        for child, way in begun:
            self.end(child, way)

    def words(self) -> list[str]:
        """Returns the arguments of a `day`: mostly none, sometimes to release or discard the first rows that are held."""
        held = sorted(path.parent.name for path in self.desk.folder.path.glob("log/*/held.csv"))
        if not held or self.draw.random() < 0.8:
            return []
        return [self.draw.choice(["--release", "--discard"]), held[0], "--by", "anna"]

    def end(self, child: int, way: str) -> None:
        """Kills a `day` in the drawn way, or waits until it has ended, and counts the kill."""
        end = time.monotonic() + self.draw.uniform(0, MOST_SECONDS)
        while way in ("time", "term", "program") and time.monotonic() < end:
            time.sleep(0.002)
        with contextlib.suppress(ProcessLookupError):
            if way == "time":
                os.killpg(child, signal.SIGKILL)
            elif way == "term":
                os.kill(child, signal.SIGTERM)
            elif way == "program":
                program = program_of(child)
                if program:
                    os.kill(program, signal.SIGKILL)
        self.kills += self.waited(child) == -signal.SIGKILL or way in ("term", "program")

    def waited(self, child: int) -> int:
        until = time.monotonic() + PATIENCE
        while time.monotonic() < until:
            found, status = os.waitpid(child, os.WNOHANG)
            if found:
                return os.waitstatus_to_exitcode(status)
            time.sleep(0.002)
        os.killpg(child, signal.SIGKILL)
        os.waitpid(child, 0)
        raise AssertionError(f"a `day` took more than {PATIENCE} s")

    # --- what has to hold ---

    def judge(self) -> None:
        """Runs a `day` that nobody kills, and asserts that each row was posted once, held or refused, that no file is gone,
        and that `log` names each row."""
        self.desk.folder.path.joinpath("inbox").mkdir(exist_ok=True)
        for name in self.desk.inbox:
            os.utime(self.desk.folder.path / "inbox" / name, (time.time() - 10,) * 2)
        ended = self.desk.folder.tools("day", "--today", TODAY)
        assert ended.status in (0, 1) and "Traceback" not in ended.err, ended
        entries = [json.loads(path.read_text()) for path in self.desk.folder.path.glob("log/*/entry.json")]
        self.judge_files(entries)
        for entry in entries:
            judge_rows(entry)
        judge_releases({path.parent.name: json.loads(path.read_text())
                        for path in self.desk.folder.path.glob("log/*/entry.json")})
        self.judge_postings(entries)

    def judge_files(self, entries: list[dict[str, Any]]) -> None:
        """Asserts that each file that was handed in lies in exactly one entry, and that the log has nothing else except
        released rows."""
        found = Counter(entry["file"]["sha256"] for entry in entries if entry["from"] is None)
        lies = Counter(hashlib.sha256(path.read_bytes()).hexdigest()
                       for path in self.desk.folder.path.glob("log/*/handed-in.csv"))
        assert found == self.handed_in, (found - self.handed_in, self.handed_in - found)
        assert lies == Counter(entry["file"]["sha256"] for entry in entries) and self.desk.inbox == []
        assert not [path for path in self.desk.folder.path.glob("log/*") if not (path / "entry.json").exists()
                    and path.name not in ("runs", ".lock")]

    def judge_postings(self, entries: list[dict[str, Any]]) -> None:
        """Asserts that the journal is what the entries say, that no posting is doubled, and that each issue that was handed in
        is posted, or is held for a person: an original is held, too, if its copy was looked at first and is held."""
        records = self.desk.records()
        logged = self.desk.log()
        assert [int(row["position"]) for row in logged] == list(range(1, len(records) + 1))
        released = Counter(held["text"].partition(",")[2].rstrip() for entry in entries for held in entry["held"]
                           if held["state"] == "released")
        doubled = {record: count for record, count in Counter(records).items() if count > 1 + released[record]}
        assert not doubled, doubled
        positions = Counter(position for entry in entries for _, position in entry["accepted"])
        assert positions == Counter(range(1, len(records) + 1))
        issues = {row.partition(",")[2] for data in self.files if b"02-30" not in data
                  for row in data.decode("utf-8-sig").splitlines() if ",issue," in row}
        posted = {record for record in records if record.startswith("issue,")}
        waits = {held["text"].partition(",")[2].rstrip() for entry in entries for held in entry["held"]
                 if held["state"] != "released"}
        assert posted <= issues and issues - posted <= waits, (posted - issues, issues - posted - waits)


def judge_rows(entry: dict[str, Any]) -> None:
    """Asserts that each row of an entry is in one list, once. An entry of a file that was refused as a whole has no rows."""
    rows = [row for name in ("accepted", "refused", "answered") for row, *_ in entry[name]]
    rows += [held["row"] for held in entry["held"]]
    assert sorted(rows) == list(range(1, entry["rows"] + 1)), entry
    assert entry["state"] == "done" and entry["lost"] == []


def judge_releases(entries: dict[str, dict[str, Any]]) -> None:
    """Asserts that a row is released by at most one entry, and that this entry and the entry that held the row agree."""
    of_releases = Counter((entry["from"]["entry"], row) for entry in entries.values() if entry["from"]
                          for row in entry["from"]["rows"])
    of_sources = Counter((name, held["row"]) for name, entry in entries.items() for held in entry["held"]
                         if held["state"] == "released")
    assert of_releases == of_sources and max(of_sources.values(), default=1) == 1, (of_releases, of_sources)
