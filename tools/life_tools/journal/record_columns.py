"""Reads the records of a journal as columns without an object for each: kinds, policy numbers and days."""
from __future__ import annotations

import hashlib
import io
import os
import shutil
import sys
from array import array
from dataclasses import dataclass
from itertools import compress

from life_tools.rules.commands import CODES, number_at
from life_tools.common.formats import FIRST_DAY, Wrong, bytes_of, demand, opened
from life_tools.journal.blocks import Blocks, blocks_at, demanded
from life_tools.journal.file import EMPTY, FIRST_GATE, RECORD_SIZE, Journal, gate_of, is_unfinished_creation
from life_tools.journal.wholeness import demand_undamaged

KIND, NUMBER, DAY = 1, 5, 9
# number of records that are processed at once, so few that another thread does not wait long
AT_ONCE = 1 << 14


@dataclass
class Columns:
    """The commands of a journal: the bytes of the file, and how many commands it has."""

    data: bytes
    count: int

    def whole(self, place: int, code: str) -> array[int]:
        """Returns the four-byte numbers at one place of all records."""
        found = bytearray(4 * self.count)
        for byte in range(4):
            found[byte::4] = self.data[FIRST_GATE + place + byte:gate_of(self.count):RECORD_SIZE]
        numbers = array(code)
        numbers.frombytes(found)
        if sys.byteorder == "little":
            numbers.byteswap()
        return numbers

    def kinds(self) -> bytes:
        return self.data[FIRST_GATE + KIND:gate_of(self.count):RECORD_SIZE]

    def policies(self) -> array[int]:
        """Returns the numbers of the policies that were issued, sorted."""
        issued = compress(self.whole(NUMBER, "I"), self.kinds().translate(alone(CODES["issue"])))
        return array("I", sorted(issued))

    def days(self) -> array[int]:
        """Returns the days of the commands, counted from 1970-01-01; an upgrade gets the day of the command before it."""
        days, kinds = self.whole(DAY, "i"), self.kinds()
        at = kinds.find(CODES["upgrade"])
        if at >= 0:
            days[at] = days[at - 1] if at else number_at(FIRST_DAY)
        return days

    def dated(self) -> array[int]:
        """Returns the days of the commands that have one: of all except an upgrade."""
        days, kinds = self.whole(DAY, "i"), self.kinds()
        at = kinds.find(CODES["upgrade"])
        if at >= 0:
            del days[at]
        return days

    def upgrade(self) -> int:
        """Returns the position of the upgrade, or 0."""
        return self.kinds().find(CODES["upgrade"]) + 1

    def front(self) -> bytes:
        """Returns the file of these commands alone, with a last commit byte of 0."""
        return self.data[:gate_of(self.count)] + bytes(1)


def columns_at(path: str, at: int | None = None) -> Columns:
    """Returns the columns of a journal's file, or of its first `at` commands, if no command is known to be gone from the file."""
    data = bytes_of(path)
    blocks = Blocks(io.BytesIO(data)).through()
    count = demanded(blocks, path)
    demand_undamaged(path, blocks.seen)
    if at is not None and at > count:
        raise Wrong(f"{path} has {count} commands, and not {at}")
    return Columns(data, count if at is None else at)


def prefix_count(path: str) -> int | None:
    """Returns how many records precede the first commit byte that is not 1, or None for a file that the program has to judge."""
    with blocks_at(path) as blocks:
        count = blocks.through().count()
    return None if isinstance(count, Journal) or is_unfinished_creation(blocks.front) else count


def prefix_sum(path: str, count: int) -> str:
    """Returns the SHA-256 of the file that has only the first `count` records and a last commit byte of 0."""
    found, left = hashlib.sha256(), gate_of(count)
    with opened(path) as file:
        while left and (part := file.read(min(left, AT_ONCE * RECORD_SIZE))):
            found.update(part)
            left -= len(part)
    found.update(bytes(1))
    return found.hexdigest()


def copy_prefix(path: str, at: int | None, to: str) -> None:
    """Copies the first `at` records of a journal with a last commit byte of 0.

    A file that the program has to judge, because it is not a complete journal, is copied whole.
    """
    count = prefix_count(path)
    if at is not None and count is not None and at > count:
        raise Wrong(f"{path} has {count} commands, and not {at}")
    if count is None:
        shutil.copyfile(path, to)
        return
    size = gate_of(count if at is None else at)
    demand(send(path, size, to) == size, f"{path} became shorter")
    close_gate(to, size)


def send(path: str, size: int, to: str) -> int:
    """Copies the first `size` bytes of a file, or all if it has fewer, and returns how many were copied."""
    place = 0
    with opened(path) as file, open(to, "wb") as copy:
        while place < size and (sent := os.sendfile(copy.fileno(), file.fileno(), place, size - place)):
            place += sent
    return place


def close_gate(path: str, place: int) -> None:
    """Ends a journal's file at a place with a commit byte of 0."""
    with open(path, "r+b") as file:
        file.truncate(place)
        file.seek(place)
        file.write(bytes(1))


def places_in(path: str) -> int:
    """Returns how many records fit in a journal file of this length before a last commit byte."""
    return max(os.path.getsize(path) - len(EMPTY), 0) // RECORD_SIZE


def beginnings_at(path: str, count: int) -> frozenset[int]:
    """Returns the set of the first two bytes of all numbers in a journal's first records, much faster than the numbers are
    read."""
    found: set[int] = set()
    with opened(path) as file:
        file.seek(FIRST_GATE)
        for start in range(0, count, AT_ONCE):
            data = file.read(RECORD_SIZE * min(AT_ONCE, count - start))
            first, second = data[NUMBER::RECORD_SIZE], data[NUMBER + 1::RECORD_SIZE]
            highs = distinct(first)
            for high in highs:
                below = second if len(highs) == 1 else bytes(compress(second, first.translate(alone(high))))
                found.update(high << 8 | low for low in distinct(below))
    return frozenset(found)


def distinct(data: bytes) -> set[int]:
    """Returns the bytes that occur in `data`; if they are few, it takes a tenth of the time of a set of all bytes."""
    found: set[int] = set()
    while data and len(found) < 8:
        found.add(data[0])
        data = data.translate(None, data[:1])
    return found | set(data)


def alone(wanted: int) -> bytes:
    return bytes(byte == wanted for byte in range(256))
