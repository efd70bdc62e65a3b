"""Tests that the lists of a window are the same before their orders are made, which is after the first page, and later; and
that a list of an earlier position is that of a journal which ends there."""
import sqlite3
from collections.abc import Iterator
from contextlib import closing
from pathlib import Path

from life_tools.journal.columns import columns_at
from life_tools.window import tables
from life_tools.window.lists import SORTED, Sought, found_in, made_order
from life_tools.window.parts import Table, cells, heads
from tests.support.folders import Folder

Rows = list[tuple[object, ...]]


def asked() -> Iterator[Sought]:
    for sort in SORTED:
        for is_falling in (False, True):
            for plan, status, number in (("", "", ""), ("endowment", "", ""), ("", "inforce", ""), ("", "", "1")):
                for page in (1, 2, 1000):
                    yield Sought(number, "", "", plan, status, sort, is_falling, page)


def pages(path: Path, position: int) -> Iterator[Rows]:
    with closing(tables.opened(str(path))) as database:
        for sought in asked():
            yield [tuple(row) for row in found_in(database, sought, position).rows]


def ordered(path: Path) -> set[str]:
    with closing(tables.opened(str(path))) as database:
        assert isinstance(database, sqlite3.Connection)
        return {column for column in SORTED.values() if made_order(database, column)}


def test_the_same_lists_before_and_after_their_orders(lived: Folder, tmp_path: Path) -> None:
    path = tmp_path / "tables"
    position = tables.make(str(path), str(lived.journal), lambda doing, at, whole: None).count
    before = list(pages(path, position))
    assert not ordered(path) and any(before)
    tables.make_orders(str(path))
    assert ordered(path) == set(SORTED.values()) and list(pages(path, position)) == before


def test_a_list_of_an_earlier_position_is_that_of_a_journal_that_ends_there(lived: Folder, tmp_path: Path) -> None:
    position = 700
    whole, cut = columns_at(str(lived.journal), position), tmp_path / "cut.life"
    content = lived.journal.read_bytes()
    cut.write_bytes(content[:17 + 65 * position] + b"\0")
    tables.make_list(str(tmp_path / "list"), whole, lambda doing, at, most: None)
    tables.make(str(tmp_path / "tables"), str(cut), lambda doing, at, most: None)
    assert list(pages(tmp_path / "list", position)) == list(pages(tmp_path / "tables", position))


def test_which_tables_are_too_wide_for_a_tablet() -> None:
    """A sheet of six sums of eleven digits is, and one of eight digits isn't; a list has its own form for a narrow page."""
    names = ["line", "whole", "endowment", "term", "limited", "paid up", "total"]
    large, small = "15,728,693,257.88", "15,728,693.88"
    for amount, kind, wanted in ((large, "", True), (small, "", False), (large, "list", False)):
        assert Table("Amounts", heads(names), [cells(["issued", *[amount] * 6])], kind=kind).is_wide == wanted, amount
    assert Table("Many", heads([str(each) for each in range(10)]), [cells(range(10))]).is_wide
