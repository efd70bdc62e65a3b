"""Keeps columns as files of the private folder; only the parts that are used are read into memory."""
from __future__ import annotations

import os
from typing import Iterable

from life_tools.common.arrays import Array, np


def keep(folder: str, names: Iterable[str], columns: object) -> None:
    """Writes the columns of these names, which are attributes of `columns`, into a new folder."""
    os.mkdir(folder, 0o700)
    for name in names:
        np.save(os.path.join(folder, f"{name}.npy"), getattr(columns, name))


def kept(folder: str, names: Iterable[str]) -> list[Array]:
    """Returns the columns, mapped for reading."""
    return [np.load(os.path.join(folder, f"{name}.npy"), "r") for name in names]
