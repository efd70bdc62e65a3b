"""Tests monetary unit samples: samples worked out by hand, how often rows are drawn, and the papers and letters on a sample."""
import hashlib
import re
from fractions import Fraction
from pathlib import Path
from random import Random

import pytest
from hypothesis import given
from hypothesis import strategies as st

from life_tools.audit.sampling import draw, draw_at
from tests.support.folders import Folder
from tests.support.missing import need
from tests.support.shown import demand_offline, plain

SEEDS = 10_000
# so many standard deviations that none of some hundred rows lies further from the expected count by chance
DEVIATIONS = 5
ON = ["--on", "2022-12-31", "--at", "11"]
# By hand: the upper bounds of the reserves are 1418.86 and 2656.23, and 0 for the two terms; a third of their sum is 1358.36, so
# both are drawn whatever the seed is. The amounts are 15000.00, 9000.00, 50000.00, and 0 for policy 15, which is issued later.
ROWS = "row,14,inforce,1,1418.85,1418.86\nrow,13,inforce,1,2656.22,2656.23\n"

# --- how often rows are drawn ---


def chance(size: int, asked: int, total: int) -> Fraction:
    """Returns the chance that a row is drawn: its size over the interval, which is the total over the count, and at most 1."""
    return min(Fraction(1), Fraction(size) / Fraction(total, asked))


@pytest.mark.parametrize(("sizes", "asked"), [
    ([0, 1, 50, 99, 100, 100, 250, 400, 0, 1000], 4),
    ([Random(7).randrange(1, 10**9) for _ in range(200)], 25),
    ([10**6] * 40, 8),
], ids=["small", "many", "equal"])
def test_over_many_seeds_each_row_comes_by_its_chance(sizes: list[int], asked: int) -> None:
    total, counts, rows = sum(sizes), [0] * len(sizes), []
    for seed in range(SEEDS):
        drawn = draw(sizes, asked, seed)
        assert drawn.places == sorted(set(drawn.places))
        assert drawn.interval == Fraction(total, asked) and 0 <= drawn.start < total
        rows.append(len(drawn.places))
        for place in drawn.places:
            counts[place] += 1
    for size, count in zip(sizes, counts):
        wanted = chance(size, asked, total)
        spread = float(SEEDS * wanted * (1 - wanted)) ** 0.5
        assert abs(count - float(SEEDS * wanted)) <= DEVIATIONS * spread, (size, count)
        assert wanted < 1 or count == SEEDS
        assert size or not count
    # a whole sample has as many rows as the chances add up to, with a difference below one
    expected = sum((chance(size, asked, total) for size in sizes), Fraction(0))
    sure = sum(size * asked >= total for size in sizes)
    assert max(abs(each - expected) for each in rows) < max(1, 2 * sure)


def test_a_seed_draws_the_same_rows() -> None:
    assert draw([5, 7, 9, 200], 2, 11) == draw([5, 7, 9, 200], 2, 11)


RULE = ("The starting point is the SHA-256 of the seed, modulo the total in cents and then divided by the number of rows asked "
        "for")


def rows_by_the_rule(sizes: list[int], asked: int, seed: int) -> list[int]:
    """Returns the places of the rows in which a point lies, if the first point is the starting point of the rule."""
    total = sum(sizes)
    start = Fraction(int(hashlib.sha256(str(seed).encode()).hexdigest(), 16) % total, asked)
    points = [start + Fraction(total, asked) * place for place in range(asked)]
    ends = [sum(sizes[:place + 1]) for place in range(len(sizes))]
    return sorted({next(place for place, end in enumerate(ends) if point < end) for point in points})


def test_the_start_is_by_the_rule_that_the_guide_gives(root: Path) -> None:
    assert RULE in " ".join((root / "docs/howto/auditor.md").read_text(encoding="utf-8").split())
    # the SHA-256 of "7"
    of_seven = 0x7902699be42c8a8e46fbbb4501726517e86b22c56a189f7625a6da49081b2451
    assert draw([5, 7, 9, 200], 2, 7).start == of_seven % 221
    for seed in range(200):
        for sizes, asked in (([5, 7, 9, 200], 2), ([50, 60, 70, 80, 0, 90], 4)):
            assert draw(sizes, asked, seed).places == rows_by_the_rule(sizes, asked, seed), (sizes, asked, seed)


def test_a_printed_sample_names_its_start(small_office: Folder) -> None:
    """By hand: 1418.86 and 2656.23, and the amounts 15000.00, 9000.00 and 50000.00."""
    for words, total in (((), 407509), (("--by", "amount"), 7400000)):
        fields = small_office.printed("audit", "sample", "1", "--seed", "7", *ON, *words).splitlines()[1].split(",")
        wanted = int(hashlib.sha256(b"7").hexdigest(), 16) % total
        assert fields[4:6] == [str(total), str(wanted)], fields


def test_a_row_of_just_the_interval_is_certain() -> None:
    drawn = draw([5, 5, 0], 2, 1)
    assert (drawn.places, drawn.certain, drawn.nothing) == ([0, 1], 2, 1)


@given(st.lists(st.integers(0, 40), min_size=1, max_size=12).map(lambda sizes: [*sizes, 1]), st.integers(1, 14))
def test_over_all_starts_just_as_many_draw_a_row_as_its_chance_says(sizes: list[int], asked: int) -> None:
    total, counts = sum(sizes), [0] * len(sizes)
    for start in range(total):
        for place in draw_at(sizes, asked, total, start):
            counts[place] += 1
    assert [Fraction(count, total) for count in counts] == [chance(size, asked, total) for size in sizes]


@pytest.mark.parametrize(("asked", "places"), [
    # rows of 2 and 3 cents, one drawn; the starts are 0 to 4, of which 0 and 1 lie in the first row
    (1, [[0], [0], [1], [1], [1]]),
    # two points, start and start + 5, on a line of 4 and 6; the second row is at least the interval, 2.5, and is drawn once
    (2, [[0, 1], [0, 1], [0, 1], [0, 1], [1]]),
])
def test_starts_by_hand(asked: int, places: list[list[int]]) -> None:
    assert [draw_at([2, 3], asked, 5, start) for start in range(5)] == places


# --- a sample of the small office ---


@pytest.fixture
def sample(small_office: Folder) -> Folder:
    small_office.write("sample", small_office.printed("audit", "sample", "3", "--seed", "3", *ON))
    return small_office


@pytest.mark.parametrize("seed", ["1", "2", "3"])
def test_rows_that_are_drawn_for_certain(small_office: Folder, seed: str) -> None:
    ended = small_office.tools("audit", "sample", "3", "--seed", seed, *ON)
    lines = ended.out.splitlines(keepends=True)
    assert ended.status == 0 and lines[0] == "0,value,2022-12-31,11,4\n" and "".join(lines[2:]) == ROWS, ended
    told = ended.err.splitlines()
    assert "rows of at least the interval, which are drawn for certain: 2" in told
    assert "rows of 0, which can't be drawn: 2" in told


def test_a_sample_is_worked_out(sample: Folder) -> None:
    says = "2 of 4 rows are right; the total isn't checked\n"
    assert sample.printed("check-values", "journal.life", "basis.csv", "sample") == says
    sample.write("wrong", sample.read("sample").replace(",1418.86\n", ",1418.99\n"))
    sample.finds("check-values", "journal.life", "basis.csv", "wrong", says="doesn't enclose")


def test_by_amount_and_by_mean_reserves(small_office: Folder) -> None:
    head = small_office.printed("audit", "sample", "1", "--seed", "4", *ON, "--by", "amount").splitlines()[1]
    assert re.fullmatch(r"sample,amount,1,4,7400000,[0-9]*,basis.csv", head)
    small_office.write("mean", small_office.printed("audit", "sample", "2", "--seed", "4", *ON, "--mean"))
    told = small_office.printed("check-values", "journal.life", "basis.csv", "mean")
    assert re.fullmatch("[12] of 4 rows are right; the total isn't checked\n", told)


def test_a_row_with_a_word_counts_for_nothing_by_its_reserve(small_office: Folder) -> None:
    small_office.write("late.csv", "2021-02-01,g.xml,400\n")
    words = ["audit", "sample", "2", "--seed", "1", *ON, "--basis", "late.csv"]
    small_office.finds(*words, says="of these not valued, as a word in place of the bounds says: 1")
    small_office.printed(*words, "--by", "amount")


@pytest.mark.parametrize(("words", "says"), [
    ("sample 0 --seed 1 --on 2022-12-31", "is no number of rows"),
    ("sample 1 --seed -1 --on 2022-12-31", "is no seed"),
    ("sample 1 --seed 1 --on 2022-13-31", "is no day"),
    ("sample 1 --seed 1 --on 2019-12-31", "no row has a size"),
    ("sample 1 --seed 1 --on 2022-12-31 --at 99", "is no position"),
    ("papers sample", "required"),
    ("papers transcript --html written", "is no sample"),
    ("papers nowhere --html written", "No such file"),
])
def test_refused(sample: Folder, words: str, says: str) -> None:
    sample.refused("audit", *words.split(), says=says)


# --- papers ---


@pytest.mark.parametrize(("old", "new", "says"), [
    ("sample,reserve,3,3,", "sample,reserve,3,4,", "seed 4 draws other rows"),
    ("1418.86\n", "1418.87\n", "has other rows at position 11"),
])
def test_papers_of_another_sample(sample: Folder, old: str, new: str, says: str) -> None:
    text = sample.read("sample")
    assert old in text
    sample.write("other", text.replace(old, new))
    sample.refused("audit", "papers", "other", "--html", "written", says=says, status=1)


def test_papers(sample: Folder) -> None:
    sample.printed("audit", "papers", "sample", "--html", "page.html")
    page = sample.read("page.html")
    demand_offline(page)
    seal = sample.printed("seal", "--at", "11")
    prefix, = (line.removeprefix("front,") for line in seal.splitlines() if line.startswith("front,"))
    assert prefix in page
    for words in ("drawn 4,075.09 4,075.07 4,075.09", "14 1,418.86 certain 1,418.85 1,418.86 right",
                  "printed: 2656.22,2656.23: the same", "start [0-9.]* / 3", "4 premium,13,2021-03-15,2950.00",
                  "Basis row 3: from 2020-02-01, g.xml, 400 basis points", "made [0-9-]* [0-9:]* UTC"):
        assert re.search(words, plain(page)), words


@pytest.mark.browser
def test_papers_as_pdf(sample: Folder) -> None:
    need("pdftotext")
    sample.printed("audit", "papers", "sample", "--pdf", "papers.pdf")
    assert "printed: 1418.85,1418.86: the same" in sample.command("pdftotext", "-layout", "papers.pdf", "-")
