"""Writes and reads the desk's records: JSON files and folders that are complete or not there at all, even after a power
failure."""
from __future__ import annotations

import datetime
import json
import os
from typing import Any

from life_tools.common.formats import Wrong, bytes_of
from life_tools.common.streams import visible

Record = dict[str, Any]
FORMAT = 1


def sync_folder(path: str) -> None:
    """Syncs a folder, so that what was made, renamed or removed in it is safe."""
    handle = os.open(path, os.O_RDONLY | os.O_DIRECTORY)
    try:
        os.fsync(handle)
    finally:
        os.close(handle)


def sync_file(path: str) -> None:
    with open(path, "rb") as file:
        os.fsync(file.fileno())


def write_safely(path: str, data: bytes) -> None:
    """Writes a file under another name, syncs it, and renames it: a reader sees either the old bytes or the new ones."""
    folder, name = os.path.split(path)
    part = os.path.join(folder, f".{name}.part")
    with open(part, "wb") as file:
        file.write(data)
        file.flush()
        os.fsync(file.fileno())
    os.replace(part, path)
    sync_folder(folder)


def write_record(path: str, record: Record) -> None:
    """Writes a record as JSON, with one line for each of its parts."""
    parts = ",\n".join(f" {json.dumps(name)}: {json.dumps(part)}" for name, part in {"format": FORMAT, **record}.items())
    write_safely(path, f"{{\n{parts}\n}}\n".encode("ascii"))


def read_record(path: str) -> Record:
    """Returns a record, and raises Wrong if the file is not a record of this format."""
    try:
        record = json.loads(bytes_of(path))
    except ValueError as error:
        raise Wrong(f"{path} is not JSON ({error}): restore it from a copy") from error
    if not isinstance(record, dict) or record.get("format") != FORMAT:
        raise Wrong(f"{path} is not a record of format {FORMAT}: newer tools may have written it")
    return record


def now() -> str:
    """Returns the present local time with its offset, to the second."""
    return datetime.datetime.now().astimezone().isoformat(timespec="seconds")


def at_moment(seconds: float) -> str:
    return datetime.datetime.fromtimestamp(seconds).astimezone().isoformat(timespec="seconds")


def shown(text: str) -> str:
    """Returns a foreign text on one line, with control bytes escaped."""
    return visible(text).replace("\n", "\\x0a")
