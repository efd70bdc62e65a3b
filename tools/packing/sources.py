"""Computes the checksum of all sources: each file of crates/ except what the kit makes in out/, crates.txt and HANDLES.

usage: python3 tools/packing/sources.py [--list]

It is the SHA-256 of a list with a line for each of these files, sorted by the bytes of their paths: the file's own SHA-256, two
blanks, its path. `--list` prints that list, as `sha256sum` would.
"""
from __future__ import annotations

import hashlib
import os
import sys

ROOT = os.path.dirname(os.path.dirname(os.path.dirname(os.path.abspath(__file__))))
ALONE = ("HANDLES", "crates.txt")


def sum_of(path: str) -> str:
    with open(path, "rb") as file:
        return hashlib.sha256(file.read()).hexdigest()


def files_of_crates(root: str) -> list[str]:
    found = []
    for folder, below, names in os.walk(os.path.join(root, "crates")):
        below[:] = [each for each in below if each != "out"]
        found += [os.path.relpath(os.path.join(folder, name), root) for name in names]
    return found


def list_of(root: str) -> str:
    """Returns the list whose checksum is the sum."""
    names = sorted([*ALONE, *files_of_crates(root)], key=os.fsencode)
    return "".join(f"{sum_of(os.path.join(root, name))}  {name}\n" for name in names)


def sum_of_sources(root: str) -> str:
    return hashlib.sha256(list_of(root).encode()).hexdigest()


if __name__ == "__main__":
    print(list_of(ROOT) if "--list" in sys.argv else sum_of_sources(ROOT), end="" if "--list" in sys.argv else "\n")
