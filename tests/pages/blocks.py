"""Runs the commands that a page documents in a shell of their own, and compares what they print with the page.

A page is one session. It begins at the top of a copy of the repository that has the program as if it had just been proved, and
also as its preview; its home is an empty folder. Once the session has left the copy, the copy is removed. The page's ```console
blocks are run in order: a line `$ COMMAND` is a command, and the lines below it, up to the next command or the end of the block,
are what it prints, standard output and standard error together. A line `...` stands for any lines, and `...` within a line for
any text of that line. Lines that begin with `life: ` are the launcher's, and aren't compared. Other blocks aren't run.
"""
import os
import re
import select
import shutil
import subprocess
import time
from pathlib import Path
from typing import Any

from tests.support.clones import copy_tracked, prove
from tests.support.program import ROOT

SECONDS = 300
ENDED = "page-command-ended"


class Command:
    """A documented command: its place, its text, and the lines that it must print."""

    def __init__(self, page: str, line: int, text: str) -> None:
        self.place, self.text = f"{page}:{line}", text
        self.wanted: list[str] = []


def commands_in(page: str, text: str) -> list[Command]:
    found, fence = [], None
    for number, line in enumerate(text.split("\n"), 1):
        if line.startswith("```"):
            fence = line[3:].strip() if fence is None else None
        elif fence == "console" and line.startswith("$ "):
            found.append(Command(page, number, line[2:]))
        elif fence == "console" and found:
            found[-1].wanted.append(line)
        elif fence == "console":
            raise ValueError(f"{page}:{number}: a block begins with output")
    if fence is not None:
        raise ValueError(f"{page}: the last block is not ended")
    return found


def pattern_of(lines: list[str]) -> str:
    """Returns the pattern for which the lines of a page stand."""
    parts = []
    for line in lines:
        if line == "...":
            parts.append("(?:.*\n)*")
        else:
            parts.append(".*".join(map(re.escape, line.split("..."))) + "\n")
    return "".join(parts)


def told(lines: list[str]) -> list[str]:
    return [line for line in lines if not line.startswith("life: ")]


def is_as_shown(wanted: list[str], printed: list[str]) -> bool:
    text = "".join(line + "\n" for line in told(printed))
    return re.fullmatch(pattern_of(told(wanted)), text) is not None


class Session:
    def __init__(self, top: str, home: str) -> None:
        self.top = top
        self.shell: Any = subprocess.Popen(["sh"], cwd=top, stdin=subprocess.PIPE, stdout=subprocess.PIPE,
                                           stderr=subprocess.STDOUT,
                                           start_new_session=True, env={**os.environ, "LC_ALL": "C", "HOME": home})
        os.set_blocking(self.shell.stdout.fileno(), False)
        self.send("status=0")

    def send(self, text: str) -> None:
        self.shell.stdin.write((text + "\n").encode())
        self.shell.stdin.flush()

    def run(self, text: str) -> list[str] | None:
        """Returns the lines that a command prints, or None if it doesn't end."""
        # `$?` in a command is the status of the command before it
        self.send(f"(exit $status); {{ {text}\n}} </dev/null; status=$?; printf '\\n{ENDED}\\n'")
        said, until = b"", time.monotonic() + SECONDS
        while not said.endswith(f"\n{ENDED}\n".encode()):
            if time.monotonic() > until or self.shell.poll() is not None:
                return None
            if select.select([self.shell.stdout], [], [], 1)[0]:
                said += os.read(self.shell.stdout.fileno(), 1 << 16)
        text = said[:-len(ENDED) - 2].decode("utf-8", "replace")
        return text[:-1].split("\n") if text.endswith("\n") else text.split("\n") if text else []

    def take_copy_away(self) -> None:
        """Removes the copy once the shell has left it."""
        where = os.path.realpath(f"/proc/{self.shell.pid}/cwd")
        if os.path.isdir(self.top) and os.path.commonpath([where, self.top]) != self.top:
            shutil.rmtree(self.top)

    def end(self) -> None:
        self.shell.stdin.close()
        self.shell.wait()


def run_page(page: str, program: Path, folder: Path) -> tuple[int, list[Any]]:
    """Runs a page's commands; returns their number, and what differs from the page."""
    commands = commands_in(page, (ROOT / page).read_text(encoding="utf-8"))
    if not commands:
        return 0, []
    top, home = folder.resolve() / "clone", folder / "home"
    copy_tracked(top)
    prove(top, program)
    (top / "out" / "preview").mkdir()
    shutil.copy(program, top / "out" / "preview" / "life_preview")
    home.mkdir()
    session = Session(str(top), str(home))
    wrong: list[str] = []
    for command in commands:
        printed = session.run(command.text)
        if printed is None:
            session.shell.kill()
            return len(commands), [*wrong, f"{command.place}: `{command.text}` doesn't end"]
        if not is_as_shown(command.wanted, printed):
            shown = "\n    ".join(printed[:30])
            wrong.append(f"{command.place}: `{command.text}` prints\n    {shown}")
        session.take_copy_away()
    session.end()
    return len(commands), wrong
