"""Tests `seal`: a change of any byte of a sealed book, its basis or its tables is reported; a change by later postings isn't."""
from pathlib import Path

import pytest

from life_tools.common.formats import Wrong
from life_tools.journal.seals import differences, seal_at, seal_in, seal_of, text_of
from tests.support.folders import EXAMPLES, Folder

POSITION = 3


@pytest.fixture
def few(examples_basis: Folder, monkeypatch: pytest.MonkeyPatch) -> Folder:
    """A book of a few postings, in the current folder, of which seals are made."""
    lines = (EXAMPLES / "small-office.csv").read_text(encoding="ascii").splitlines(keepends=True)
    examples_basis.post("".join(lines[:8]))
    monkeypatch.chdir(examples_basis.path)
    return examples_basis


def test_each_byte_of_the_journal(few: Folder) -> None:
    """The bytes up to the sealed position: the header's commit byte, the header, and each record."""
    data, seal = few.journal.read_bytes(), seal_of(".", POSITION)
    assert seal_in(text_of(seal)) == seal and seal.size == 17 + 65 * POSITION
    for place in range(len(data)):
        few.journal.write_bytes(data[:place] + bytes([data[place] ^ 1]) + data[place + 1:])
        # after the sealed prefix, a commit byte of 0 hides postings, and if the last one is set to 1, it has no record
        is_commit_byte = seal.size <= place <= 17 + 65 * seal.count and (place - 17) % 65 == 0
        assert bool(differences(seal, ".")) == (place < seal.size or is_commit_byte), place
    for size in (0, 1, 17, seal.size - 1, seal.size):
        few.journal.write_bytes(data[:size])
        assert differences(seal, "."), size
    few.journal.write_bytes(data)
    assert differences(seal, ".") == []


@pytest.mark.parametrize("name", ["basis.csv", "g.xml", "q.xml"])
def test_a_file_of_the_basis(few: Folder, name: str) -> None:
    seal, path = seal_of("."), Path(name)
    assert [it.name for it in seal.files] == ["basis.csv", "g.xml", "q.xml"]
    whole = path.read_bytes()
    for other in (whole[:-1], whole + b"\n", bytes([whole[0] ^ 1]) + whole[1:]):
        path.write_bytes(other)
        assert len(differences(seal, ".")) == 1
    path.unlink()
    assert differences(seal, ".") == [f"./{name} isn't there"]


def test_each_character_of_a_seal(few: Folder) -> None:
    text = text_of(seal_of("."))
    for place, character in enumerate(text):
        for other in set("0x,\n") - {character}:
            Path("changed").write_text(text[:place] + other + text[place + 1:], encoding="ascii")
            with pytest.raises(Wrong, match="changed: "):
                seal_at("changed")


@pytest.fixture
def office(small_office: Folder) -> Folder:
    """The small office, sealed at position 11, and then with a further posting."""
    small_office.write("seal", small_office.printed("seal", "--at", "11"))
    small_office.printed("seal", "--check", "seal")
    small_office.post("1,premium,12,2025-02-28,310.00\n")
    return small_office


def test_a_book_that_has_grown(office: Folder) -> None:
    office.printed("seal", "--check", "seal")
    assert len(office.printed("seal", "--no-basis").splitlines()) == 4


def test_a_book_that_has_become_shorter(office: Folder) -> None:
    office.write("newer", office.printed("seal"))
    office.journal.write_bytes(office.journal.read_bytes()[:732] + b"\x00")
    office.finds("seal", "--check", "newer", says="has 733 bytes, and the front had 1837")
    office.finds("seal", "--check", "seal", says="had 27 when it was sealed: those after position 11 are gone")


@pytest.mark.parametrize("script", ["", "1,upgrade\n"], ids=["empty", "an upgrade alone"])
def test_a_book_without_a_day(examples_basis: Folder, script: str) -> None:
    """An upgrade has no day, so the seal of a book with nothing else names none, and a remark says why."""
    examples_basis.post(script)
    count = examples_basis.count()
    sealed = examples_basis.tools("seal")
    assert sealed.status == 0 and sealed.out.splitlines()[1] == f"position,{count},{count},", sealed
    assert f"no posting up to position {count} has a day" in sealed.err
    examples_basis.write("seal", sealed.out)
    examples_basis.printed("seal", "--check", "seal")
    examples_basis.printed("backup", "copy")
    assert f"\nposition,{count},{count},\n" in examples_basis.read("copy/backup.seal")


@pytest.mark.parametrize("words", [["--at", "2"], []])
def test_the_day_of_a_book_that_begins_with_an_upgrade(examples_basis: Folder, words: list[str]) -> None:
    examples_basis.post("1,upgrade\n1,issue,1,2021-03-04,term,40,20,1000.00,10.00\n")
    sealed = examples_basis.tools("seal", *words)
    assert sealed.out.splitlines()[1] == "position,2,2,2021-03-04" and "has a day" not in sealed.err, sealed


@pytest.mark.parametrize(("words", "says"), [
    (["--check", "transcript"], "is no line `seal` of a seal"),
    (["--check", "forged"], "the sum of the others"),
    (["--check", "seal", "--at", "3"], "--check has position and files from the seal"),
    (["--basis", "none.csv"], "badbasis,none.csv,0,absent"),
    (["--folder", "strange"], "a record has no day of the calendar"),
])
def test_refused(office: Folder, words: list[str], says: str) -> None:
    office.write("forged", office.read("seal").replace("position,11,", "position,12,"))
    for name in ("basis.csv", "g.xml", "q.xml"):
        office.write(f"strange/{name}", office.read(name))
    data = office.journal.read_bytes()
    office.write("strange/journal.life", data[:26] + b"\x7f" + data[27:])
    office.refused("seal", *words, says=says)
