"""Writes the files of the tools: each file is complete or not there at all, and none replaces a book's own file.

Until a file is complete, it has a private name in the same folder that no other file has.
"""
from __future__ import annotations

import os
import re
import shutil
import tempfile
from typing import Callable

from life_tools.common.formats import KINDS, Wrong, bytes_of, demand, rows_in

# names that belong to a book; they are never written, whatever file has them
OWN_NAMES = ("journal.life", "checkpoint.life", "basis.csv", "desk.toml")
# number of bytes at the start of a file that are read to find out what it is
LOOKED_AT = 1 << 12
SCRIPT_ROW = re.compile(f'"?[1-8]"?,"?({"|".join((*KINDS.values(), "value", "trim"))})"?(,|\r|\n|$)')
BASIS_ROW = re.compile('"?[0-9]{4}-[0-9]{2}-[0-9]{2}"?,"?[A-Za-z0-9][A-Za-z0-9._-]{0,63}"?,"?[0-9]+"?[ \t]*(\r|\n|$)')


# --- what isn't replaced ---

def kind_of(data: bytes) -> str | None:
    """Returns which kind of file of a book begins with these bytes, or None if it is none of them."""
    if data[1:9] in (b"LIFEJRNL", b"LIFECHKP"):
        return "a journal" if data[1:9] == b"LIFEJRNL" else "a checkpoint"
    if b"<XTbML" in data:
        return "a table"
    text = data.decode("utf-8", "replace").lstrip("\ufeff\r\n")
    if BASIS_ROW.match(text):
        return "a basis"
    return "a script" if SCRIPT_ROW.match(text) else None


def named_in_basis(path: str) -> bool:
    """Returns whether the basis of the file's folder names this file as a table."""
    folder, name = os.path.split(path)
    basis = os.path.join(folder, OWN_NAMES[2])
    return os.path.isfile(basis) and any(name in row.fields[1:2] for row in rows_in(bytes_of(basis)))


def demand_replaceable(path: str) -> None:
    """Raises Wrong if the path is a journal, a checkpoint, a basis, a table or a script, or something that is not a file."""
    demand(os.path.basename(path) not in OWN_NAMES, f"{path} is a book's own file, and nothing else is written there")
    if not os.path.lexists(path):
        return
    demand(os.path.isfile(path), f"{path} is no file, so it isn't replaced")
    with open(path, "rb") as file:
        kind = kind_of(file.read(LOOKED_AT)) or ("a table of the basis" if named_in_basis(path) else None)
    demand(not kind, f"{path} is {kind}, which isn't replaced: name another file, or remove it first")


# --- how it is written ---

def open_mode(of: int) -> int:
    """Returns the mode that the umask allows a new file or folder; temporary ones are made with a private mode."""
    mask = os.umask(0)
    os.umask(mask)
    return of & ~mask


def written_whole(path: str, write: Callable[[str], None]) -> None:
    """Has `write` fill a temporary file and renames it to the path, so that the file is complete or not there at all."""
    part = None
    try:
        demand_replaceable(path)
        folder, name = os.path.split(path)
        handle, part = tempfile.mkstemp(prefix=f".{name[:64]}.", dir=folder or ".")
        os.close(handle)
        write(part)
        os.chmod(part, open_mode(0o666))
        os.replace(part, path)
    except OSError as error:
        raise Wrong(f"{path}: {error.strerror}") from error
    finally:
        if part and os.path.exists(part):
            os.remove(part)


def demand_new(*folders: str) -> None:
    """Raises Wrong unless new folders can be made under these names."""
    for folder in folders:
        demand(not os.path.lexists(folder), f"{folder} is there already")
        demand(os.path.isdir(os.path.dirname(os.path.abspath(folder))), f"{folder}: No such file or directory")
    demand(len({os.path.abspath(folder) for folder in folders}) == len(folders), f"{' and '.join(folders)} are one folder")


def write_folder(folder: str, write: Callable[[str], None]) -> None:
    """Has `write` fill a temporary folder and renames it, so that the new folder is complete or not there at all."""
    demand_new(folder)
    above, name = os.path.split(os.path.abspath(folder))
    part = None
    try:
        part = tempfile.mkdtemp(prefix=f".{name[:64]}.", dir=above)
        write(part)
        os.chmod(part, open_mode(0o777))
        os.rename(part, folder)
    except OSError as error:
        raise Wrong(f"{folder}: {error.strerror}") from error
    finally:
        if part:
            shutil.rmtree(part, ignore_errors=True)


def write_text(path: str, text: str) -> None:
    with open(path, "w", encoding="utf-8") as file:
        file.write(text)
