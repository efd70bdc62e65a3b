"""Tests `position-on` for one book and for a list of books: commands that a position lacks, or that have later days, are reported
and give status 1.

Each position and each list is worked out by hand from the script in this file.
"""
import pytest

from tests.support.folders import Folder

# the commands of positions 1 to 3 have days of 2025, that of 4 is dated 2099, those of 5 to 9 are of 2025 again
OUT_OF_ORDER = """\
1,issue,1,2025-01-10,whole,30,0,60.00,1.00
1,premium,1,2025-01-10,1.00
1,issue,2,2025-02-01,whole,30,0,60.00,1.00
1,issue,3,2099-02-01,whole,30,0,60.00,1.00
1,premium,2,2025-02-01,1.00
1,issue,4,2025-03-01,whole,30,0,60.00,1.00
1,premium,4,2025-03-01,1.00
1,claim,1,2025-04-01
1,settle,1,2025-05-01,60.00
"""
LACKS = """\
position 3 lacks commands of 2025-12-31 or before, which were posted after one of a later day: 5
  5,premium,2,2025-02-01,1.00
  6,issue,4,2025-03-01,whole,30,0,60.00,1.00
  7,premium,4,2025-03-01,1.00
  8,claim,1,2025-04-01
  9,settle,1,2025-05-01,60.00
"""
HAS = """\
position 9 has commands of days after 2025-12-31: 1
  4,issue,3,2099-02-01,whole,30,0,60.00,1.00
"""
# the arguments: the status, the position, and what is reported, or its number of lines
POSITIONS: dict[str, tuple[int, int, str | int]] = {
    "2025-12-31": (1, 3, LACKS),
    "2025-12-31 --last": (1, 9, HAS),
    "2025-01-31": (0, 2, ""),
    "2025-01-31 --last": (0, 2, ""),
    "2024-12-31": (0, 0, ""),
    "2099-12-31": (0, 9, ""),
    "2099-12-31 --last": (0, 9, ""),
    "2025-02-01": (1, 3, 2),
    "2025-02-01 --last": (1, 5, 2),
}
UPGRADED = ["1,issue,1,2025-06-01,whole,30,0,60.00,1.00", "1,upgrade",
            *(f"1,issue,{number},2025-01-10,whole,30,0,60.00,1.00" for number in range(2, 14)),
            "1,issue,14,2025-02-10,whole,30,0,60.00,1.00"]


def gives(folder: Folder, words: list[str], status: int, position: int, told: str | int) -> None:
    ended = folder.tools("position-on", *words)
    assert (ended.status, ended.out) == (status, f"{position}\n"), ended
    assert (len(ended.err.splitlines()) if isinstance(told, int) else ended.err) == told


@pytest.mark.parametrize("words", POSITIONS)
def test_an_issue_of_2099_among_postings_of_2025(folder: Folder, words: str) -> None:
    assert folder.post(OUT_OF_ORDER).count(",accepted,") == 9
    gives(folder, [*words.split(), "journal.life"], *POSITIONS[words])


@pytest.mark.parametrize(("words", "status", "rows", "told"), [
    (["2025-12-31"], 1, "main,3\nnorth,3\n", f"main: {LACKS.splitlines()[0]}\n"),
    (["2025-12-31", "--last"], 1, "main,9\nnorth,3\n", f"main: {HAS.splitlines()[0]}\n"),
    (["2025-01-31"], 0, "main,2\nnorth,2\n", ""),
])
def test_a_list_of_books(folder: Folder, words: list[str], status: int, rows: str, told: str) -> None:
    folder.post(OUT_OF_ORDER)
    folder.below("north").post("".join(OUT_OF_ORDER.splitlines(keepends=True)[:3]))
    folder.write("books.csv", "main,.,basis.csv\nnorth,north,basis.csv\n")
    ended = folder.tools("books", "books.csv", "position-on", *words)
    assert (ended.status, ended.out, ended.err) == (status, rows, told)


def test_an_upgrade_has_no_day_and_of_many_the_first_are_listed(folder: Folder) -> None:
    folder.post("\n".join(UPGRADED))
    ended = folder.tools("position-on", "2025-01-31", "journal.life")
    assert (ended.status, ended.out, len(ended.err.splitlines())) == (1, "0\n", 12)
    assert ended.err.splitlines()[-1] == "  and 2 more"
    # 14 is the position of the last command of the day; the upgrade, at position 2, isn't out of order
    gives(folder, ["--last", "2025-01-31", "journal.life"], 1, 14,
          "position 14 has commands of days after 2025-01-31: 1\n  1,issue,1,2025-06-01,whole,30,0,60.00,1.00\n")
    gives(folder, ["2025-06-01", "journal.life"], 0, 15, "")
