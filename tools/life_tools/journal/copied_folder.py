"""Copies the journal and the basis of a folder, so that the program can run anything on the copy."""
from __future__ import annotations

import fcntl
import io
import os
import shutil
import subprocess
from contextlib import contextmanager
from typing import IO, Iterator, Sequence

from life_tools.common.temporary import temporary_folder
from life_tools.common.formats import Wrong, bytes_of, opened, rows_in
from life_tools.tables.basis import NAME

JOURNAL = "journal.life"
# prefix of the names of the folders that hold copies
PREFIX = "life-desk-"


@contextmanager
def reading(path: str) -> Iterator[io.BufferedReader]:
    """Opens a journal's file under a shared lock, so that no run changes it meanwhile."""
    with opened(path) as file:
        try:
            fcntl.flock(file, fcntl.LOCK_SH | fcntl.LOCK_NB)
        except BlockingIOError as error:
            raise Wrong(f"{path} is in use by another run") from error
        yield file


def written(path: str, data: bytes) -> None:
    with open(path, "wb") as file:
        file.write(data)


def basis_files(folder: str, name: str) -> list[str]:
    """Returns the names of a basis file and of each table that its rows name, if these files exist."""
    names = [name]
    if os.path.isfile(os.path.join(folder, name)):
        names += [row.fields[1] for row in rows_in(bytes_of(os.path.join(folder, name))) if len(row.fields) > 1]
    return [each for each in dict.fromkeys(names)
            if NAME.fullmatch(each) and each != JOURNAL and os.path.isfile(os.path.join(folder, each))]


def copy_basis(folder: str, name: str, to: str) -> None:
    for each in basis_files(folder, name):
        shutil.copyfile(os.path.join(folder, each), os.path.join(to, each))


@contextmanager
def private_copy(folder: str, basis: str) -> Iterator[str]:
    """Makes a temporary folder with the folder's basis and with capacity for a copy of its journal."""
    path = os.path.join(folder, JOURNAL)
    with temporary_folder(os.path.getsize(path) if os.path.exists(path) else 0, PREFIX) as desk:
        copy_basis(folder, basis, desk)
        yield desk


def begun(desk: str, life: Sequence[str], words: Sequence[str],
          given: IO[bytes] | int = subprocess.DEVNULL) -> subprocess.Popen[bytes]:
    """Starts a run of the program in a folder and returns the process without waiting for it."""
    try:
        return subprocess.Popen([*life, *words], cwd=desk, stdin=given, stdout=subprocess.PIPE)
    except OSError as error:
        raise Wrong(f"{life[0]}: {error.strerror}") from error


def run_in(desk: str, life: Sequence[str], words: Sequence[str]) -> tuple[int, str]:
    """Runs the program in a folder and returns its status and what it printed."""
    with begun(desk, life, words) as ran:
        return ended(ran)


def ended(ran: subprocess.Popen[bytes]) -> tuple[int, str]:
    printed, _ = ran.communicate()
    return ran.returncode, printed.decode("ascii", "replace")
