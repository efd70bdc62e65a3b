"""Runs other tools of the package in the private folder; what they print and write is shown unchanged."""
from __future__ import annotations

import os
from dataclasses import dataclass
from typing import Sequence

from life_tools.common.formats import Wrong
from life_tools.window.jobs import Job
from life_tools.window.views import View
from life_tools.window.runs import run_to, tool_words


@dataclass
class ToolRun:
    """What a tool left: a private folder with what it wrote, its status, what it printed, and its remarks."""

    path: str
    status: int
    remarks: str

    @property
    def printed(self) -> str:
        with open(os.path.join(self.path, "printed"), encoding="utf-8", errors="replace") as file:
            return file.read()

    def file(self, name: str) -> str:
        """Returns the path of a file that the tool wrote; the name is one of the window's own."""
        return os.path.join(self.path, name)


def tool_run(book: View, words: Sequence[str], title: str, is_wrong_shown: bool = True, of: tuple[int, ...] = ()) -> ToolRun:
    """Runs a tool and returns what it left; `OUT/` in its arguments is a private folder. Raises Working while it runs.

    `of` has values other than the arguments on which the result depends; if they change, the tool runs again.
    """
    found = book.kept(("tool", *words, *of), title, lambda job: ran(book, words, job, is_wrong_shown))
    assert isinstance(found, ToolRun)
    return found


def ran(book: View, words: Sequence[str], job: Job, is_wrong_shown: bool) -> ToolRun:
    folder = book.copy.new_file()
    os.mkdir(folder, 0o700)
    job.at(f"life-tools {words[0]}")
    told = [word.replace("OUT/", folder + os.sep) for word in words]
    status, remarks = run_to(os.path.join(folder, "printed"), [*tool_words(), *told], book.desk, book.copy.scratch)
    if status not in (0, 1) or (status and not is_wrong_shown):
        said = remarks.rpartition("\n")[2].removeprefix(f"life-tools {words[0]}: ").removeprefix("wrong: ")
        raise Wrong(book.copy.without_paths(said) or f"life-tools {words[0]} ended with status {status}")
    return ToolRun(folder, status, book.copy.without_paths(remarks.replace(folder + os.sep, "").replace(book.desk, "copy")))
