"""Tries a script on copies of a folder's journal and basis; the program runs on them while the tool reads the journal."""
from __future__ import annotations

import os
import shutil
import subprocess
from contextlib import ExitStack, contextmanager
from dataclasses import dataclass
from typing import Iterator, Sequence

from life_tools.journal.copied_folder import JOURNAL, begun, private_copy, ended, reading
from life_tools.common.formats import Wrong, opened, remark
from life_tools.journal.blocks import Blocks, prefix_at


@dataclass(frozen=True)
class Trial:
    """The run, the folder's journal, its copy, and the blocks of the journal, or None if there is no journal."""

    ran: subprocess.Popen[bytes]
    path: str
    copy: str
    blocks: Blocks | None

    @property
    def seen(self) -> tuple[int, int] | None:
        """Returns the count and the length of the journal, or None if there is none."""
        return self.blocks.seen if self.blocks else None

    def records(self) -> tuple[bytes, int]:
        """Returns the copy's first bytes and how many records they hold, which were there before the script.

        The program does not change them while it posts.
        """
        count = self.seen[0] if self.seen else 0
        return prefix_at(self.copy, count), count

    def answer(self) -> tuple[int, str]:
        """Waits for the run and returns its status and its transcript."""
        return ended(self.ran)


def begun_with(script: str, desk: str, life: Sequence[str], basis: str) -> subprocess.Popen[bytes]:
    with opened(script) as rows:
        return begun(desk, life, ["run", "--basis", basis], rows)


@contextmanager
def trial_of(script: str, folder: str, basis: str, life: Sequence[str]) -> Iterator[Trial]:
    """Starts a script's run on copies.

    While they are made and the journal's commit bytes are read, no other run can use the journal.
    """
    path = os.path.join(folder, JOURNAL)
    with private_copy(folder, basis) as desk, ExitStack() as held:
        copy = os.path.join(desk, JOURNAL)
        file = held.enter_context(reading(path)) if os.path.lexists(path) else None
        if file:
            copy_file(path, copy)
        else:
            remark(f"there is no {path}: the script is run on an empty journal")
        with begun_with(script, desk, life, basis) as ran:
            blocks = Blocks(file).through() if file else None
            held.close()
            yield Trial(ran, path, copy, blocks)


def copy_file(path: str, to: str) -> None:
    try:
        shutil.copyfile(path, to)
    except OSError as error:
        raise Wrong(f"{to}: {error.strerror}") from error
