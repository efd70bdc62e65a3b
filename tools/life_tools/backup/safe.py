"""Finds out how many postings of a journal are safe on its disk, without a lock and while a run may be posting.

The program writes a posting in two steps. It writes the record and after it a commit byte of 0, and syncs; then it sets the
record's own commit byte to 1, and syncs again. So the last posting that can be read may not be safe yet, but all before it are.
The last one is safe, too, if the next record is already written after it, or if no process uses the journal and our own sync
succeeds.
"""
from __future__ import annotations

from dataclasses import dataclass
from io import BufferedReader

from life_tools.common.formats import demand
from life_tools.common.locks import holder_of
from life_tools.journal.blocks import Blocks, demanded
from life_tools.journal.file import gate_of, is_unfinished_creation
from life_tools.journal.medium import sync_and_drop
from life_tools.journal.wholeness import DAMAGED, Damaged, Noted, Shape, beside, noted_by


@dataclass(frozen=True)
class Safe:
    """The number of safe postings of a journal, and how many more can be read but may not be safe."""

    count: int
    under_way: int

    @property
    def size(self) -> int:
        """Returns the number of their bytes, without the commit byte that ends the journal."""
        return gate_of(self.count)


def counted(file: BufferedReader, path: str) -> tuple[int, int]:
    """Returns the count and the length of a journal's file."""
    blocks = Blocks(file).through()
    count = demanded(blocks, path)
    demand(not is_unfinished_creation(blocks.front), f"{path} has no posting yet: the program hasn't ended its creation")
    return count, blocks.length


def demand_undamaged(shape: Shape) -> None:
    if shape.verdict == DAMAGED:
        raise Damaged(f"{shape.told()}; nothing was copied")


def safe_count(file: BufferedReader, path: str, copied: int) -> Safe:
    """Returns the safe postings of an opened journal; `copied` of them were copied before."""
    # whoever notes a count does so after the posting is in the journal, so the notes are read before the journal
    noted: tuple[Noted, ...] = tuple(noted_by(*beside(path)))
    is_free = holder_of(path) is None
    count, length = counted(file, path)
    demand_undamaged(Shape(path, count, length, noted))
    sync_and_drop(file.fileno(), path, length)
    on_disk, _ = counted(file, path)
    has_next = length > gate_of(count) + 1
    is_free = is_free and holder_of(path) is None
    acknowledged = count if has_next or is_free else max(count - 1, copied)
    safe = max(min(acknowledged, on_disk), 0)
    return Safe(safe, max(count, on_disk) - safe)
