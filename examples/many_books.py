"""Draws books of policies with numbers of their own, for the worked example of `life-tools books`.

usage: python3 many_books.py FOLDER BOOKS POLICIES

In FOLDER it makes books.csv, the list of the books, and a folder for each with its journal, a basis and a table. The
policies are those that `life generate` draws, each with its first premium; a journal is written as docs/reference/journal.md has
it, so that nobody waits for the syncs of so many postings, and the program judges it like any other.
"""
from __future__ import annotations

import datetime
import os
import shutil
import struct
import sys

RECORD = struct.Struct(">BBBBBIiQQ36x")
HEADER = bytes([1]) + b"LIFEJRNL" + bytes([0, 1, 0, 64, 0, 0, 0, 0])
WHOLE = 2
# how far the first numbers of two books lie apart
APART = 100_000_000
TABLE = os.path.join(os.path.dirname(os.path.abspath(__file__)), "g.xml")


class Draw:
    """The generator of `life generate`."""

    def __init__(self, seed: int) -> None:
        self.state = seed

    def below(self, most: int) -> int:
        self.state = (1103515245 * self.state + 12345) % 2**31
        return (self.state >> 8) % most


def policy(draw: Draw, number: int) -> bytes:
    """The records of an issue and of its first premium."""
    plan, age, years, amount = draw.below(4) + 1, draw.below(60) + 20, draw.below(20) + 2, (draw.below(1000) + 1) * 100000
    day = (datetime.date(2000, 1, 1) - datetime.date(1970, 1, 1)).days + draw.below(3650)
    issue = RECORD.pack(1, 1, plan, age, 0 if plan == WHOLE else years, number, day, amount, amount // 50)
    return issue + RECORD.pack(1, 2, 0, 0, 0, number, day, amount // 50, 0)


def write_book(folder: str, seed: int, policies: int) -> None:
    os.makedirs(folder)
    draw, first = Draw(seed), (seed - 1) * APART + 1
    with open(os.path.join(folder, "journal.life"), "wb") as file:
        file.write(HEADER)
        file.writelines(policy(draw, number) for number in range(first, first + policies))
        file.write(bytes(1))
    with open(os.path.join(folder, "basis.csv"), "w", encoding="ascii") as basis:
        basis.write("1900-01-01,g.xml,400\n")
    shutil.copy(TABLE, folder)


def main() -> None:
    folder, books, policies = sys.argv[1], int(sys.argv[2]), int(sys.argv[3])
    names = [f"book{seed}" for seed in range(1, books + 1)]
    for seed, name in enumerate(names, 1):
        write_book(os.path.join(folder, name), seed, policies)
    with open(os.path.join(folder, "books.csv"), "w", encoding="ascii") as file:
        file.writelines(f"{name},{name},basis.csv\n" for name in names)


main()
