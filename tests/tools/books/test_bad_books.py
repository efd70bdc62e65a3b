"""Tests a list with one bad book: the other books are still processed, and every command gives the bad book the same status."""
import shutil

import pytest

from tests.support.folders import EXAMPLES, Folder

# the program's own status for a file that isn't a journal
BAD_JOURNAL = 5


@pytest.fixture
def three(small_office: Folder) -> Folder:
    """A list of three books; the second one's journal isn't a journal."""
    for name in ("a", "b", "c"):
        book = small_office.below(name)
        for each in ("journal.life", "basis.csv", "q.xml", "g.xml"):
            shutil.copy(small_office.path / each, book.path)
    small_office.write("b/journal.life", "nothing of the kind, which is long enough to be one\n")
    small_office.write("books.csv", "a,a,basis.csv\nb,b,basis.csv\nc,c,basis.csv\n")
    return small_office


def test_the_positions_of_the_others(three: Folder) -> None:
    alone = three.below("a").printed("position-on", "2022-12-31", "journal.life").strip()
    ended = three.tools("books", "books.csv", "position-on", "2022-12-31")
    lines = ended.out.splitlines()
    assert ended.status == BAD_JOURNAL and lines[0] == f"a,{alone}" and lines[2] == f"c,{alone}", ended
    assert lines[1].startswith(f"b,failed,{BAD_JOURNAL},badjournal,notajournal")
    # the output must not be accepted as a list of positions
    three.write("positions.csv", ended.out)
    three.refused("books", "books.csv", "value", "2022-12-31", "--at", "positions.csv",
                  says="line 2: .* is no name with a position")


def test_parts_dont_replace_a_basis(small_office: Folder) -> None:
    """The part of a book named basis would be written to basis.csv."""
    small_office.write("books.csv", "basis,.,basis.csv\n")
    ended = small_office.tools("books", "books.csv", "value", "2022-12-31", "--parts", ".")
    assert ended.status == 2 and "basis.csv is a book's own file" in ended.err, ended
    assert small_office.read("basis.csv") == (EXAMPLES / "basis.csv").read_text()


@pytest.mark.parametrize("words", ["value 2022-12-31", "state", "report 2022-12-31", "due 2022-12-31", "flags", "headroom",
                                   "position-on 2022-12-31"])
def test_a_bad_book_has_one_status(three: Folder, words: str) -> None:
    ended = three.tools("books", "books.csv", *words.split())
    assert ended.status == BAD_JOURNAL, ended
    assert f"b: status {BAD_JOURNAL}: badjournal,notajournal" in ended.err, ended
