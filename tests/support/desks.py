"""A clerk's desk in a test: files are handed in, and `life-tools day` is called on them."""
import csv
import io
import json
import os
import signal
import subprocess
import sys
import time
from dataclasses import dataclass
from pathlib import Path
from typing import Any

from tests.support.folders import Folder
from tests.support.program import ROOT
from tests.support.tools import Ended

# the day that `day --today` takes as today
TODAY = "2024-06-03"
# the seconds since a file was written, unless a test says otherwise
OLD = 10


@dataclass
class Desk:
    folder: Folder

    def hand_in(self, name: str, rows: str | bytes, seconds_ago: float = OLD) -> Path:
        """Puts a file into the inbox that seems to have been written some seconds ago."""
        file = self.folder.write(f"inbox/{name}", rows)
        then = time.time() - seconds_ago
        os.utime(file, (then, then))
        return file

    def day(self, *words: str, status: int = 0) -> Ended:
        ended = self.folder.tools("day", "--today", TODAY, *words)
        assert ended.status == status and "Traceback" not in ended.err, ended
        return ended

    def log(self, *words: str, status: int = 0) -> list[dict[str, str]]:
        return list(csv.DictReader(io.StringIO(self.folder.printed("log", *words, status=status))))

    @property
    def inbox(self) -> list[str]:
        return sorted(os.listdir(self.folder.path / "inbox"))

    def entry(self, number: int) -> dict[str, Any]:
        found: dict[str, Any] = json.loads((self.entry_folder(number) / "entry.json").read_text())
        return found

    def entry_folder(self, number: int) -> Path:
        folder, = (self.folder.path / "log").glob(f"{number:06}-*")
        return folder

    def count(self) -> int:
        return int(self.folder.life("state").out.splitlines()[-1].partition(",")[2])

    def records(self) -> list[str]:
        """Returns what was posted, in order: the fields after the lane."""
        rows = csv.reader(io.StringIO(self.folder.printed("read", "journal.life")))
        return [",".join(row[1:]) for row in rows if row and row[0].isdecimal()]


def started(desk: Desk, *words: str, ignored: int | None = None) -> subprocess.Popen[str]:
    """Starts a `day` as a process of its own, and doesn't wait for it. The process heeds all signals except the one that is
    ignored."""
    def heed() -> None:
        for number in (signal.SIGINT, signal.SIGTERM, signal.SIGHUP):
            signal.signal(number, signal.SIG_IGN if number == ignored else signal.SIG_DFL)

    env = {**os.environ, "LIFE_PROGRAM": str(desk.folder.program.path)}
    return subprocess.Popen([sys.executable, str(ROOT / "tools/life-tools"), "day", "--today", TODAY, *words], env=env,
                            cwd=desk.folder.path, stdout=subprocess.PIPE, stderr=subprocess.PIPE, text=True, preexec_fn=heed)
