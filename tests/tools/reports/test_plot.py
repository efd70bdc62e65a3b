"""Tests `plot`: its drawings show the numbers that the program printed, and no others."""
import re
import xml.dom.minidom
from decimal import Decimal

import pytest

from tests.support.folders import EXAMPLES, Folder

DAYS = ("2022-12-31", "2023-12-31", "2024-12-31")


class Picture:
    """The circles, lines and texts of a drawing."""

    def __init__(self, svg: str) -> None:
        drawn = xml.dom.minidom.parseString(svg)
        self.heights = [float(it.getAttribute("cy")) for it in drawn.getElementsByTagName("circle")]
        self.lines = [[float(point.split(",")[1]) for point in it.getAttribute("points").split()]
                      for it in drawn.getElementsByTagName("polyline")]
        self.words = [str(it.firstChild.data) for it in drawn.getElementsByTagName("text")]

    def shows(self, amount: str) -> bool:
        """Returns whether an axis shows an amount; large amounts are shown in thousands."""
        in_thousands = any(word.endswith(", in thousands") for word in self.words)
        return (str((Decimal(amount) / 1000).quantize(Decimal("0.01"))) if in_thousands else amount) in self.words


def in_order(heights: list[float], numbers: list[float]) -> bool:
    """Returns whether the greater of two numbers always stands higher, which is a smaller coordinate."""
    return [height for _, height in sorted(zip(numbers, heights))] == sorted(heights, reverse=True)


def rows_of(text: str, kind: str) -> list[list[str]]:
    return [line.split(",") for line in text.splitlines() if line.startswith(f"{kind},")]


@pytest.fixture
def office(small_office: Folder) -> Folder:
    for measure in ("mean", "deficiency"):
        small_office.write(measure, small_office.life("value", "2024-03-12", f"--{measure}").out)
    small_office.write("state", small_office.life("state").out)
    small_office.post("1,premium,12,2025-02-28,310.00\n1,value,2025-02-28,now,1\n")
    small_office.write("valuations", "".join(small_office.life("value", day).out for day in DAYS))
    small_office.write("projected", small_office.life("project", "2024-06-30", "20").out)
    return small_office


def test_reserves_over_days(office: Folder) -> None:
    picture = Picture(office.printed("plot", "reserves", "valuations"))
    totals = [row[2] for row in rows_of(office.read("valuations"), "total")]
    assert len(picture.heights) == len(totals) == 3 and in_order(picture.heights, list(map(float, totals)))
    assert picture.shows(max(totals, key=float))


def test_reserves_of_some_policies(office: Folder) -> None:
    office.printed("plot", "reserves", "--policy", "14", "--policy", "12", "valuations")
    office.printed("plot", "reserves", "--policy", "12", "mean")


def test_minimum_reserves(office: Folder) -> None:
    """The total is 16492.17, worked out by hand, and is shown in thousands."""
    drawn = office.printed("plot", "reserves", "deficiency")
    assert re.search("minimum reserves, upper bounds.*, in thousands", drawn) and ">16.49<" in drawn
    assert re.search("^total,.*,16492.17,0$", office.read("deficiency"), re.M)


def test_a_book(office: Folder) -> None:
    picture = Picture(office.printed("plot", "book", "state"))
    assert picture.words[0] == f"amounts insured, {len(rows_of(office.read('state'), 'policy'))} policies, in thousands"
    assert "whole inforce 2" in picture.words and "25.00" in picture.words


def test_a_projection(office: Folder) -> None:
    picture, years = Picture(office.printed("plot", "projection", "projected")), rows_of(office.read("projected"), "year")
    assert len(picture.lines) == 3 and len(picture.heights) == 3 * len(years) == 60
    for heights, column in zip(picture.lines, (3, 5, 7)):
        assert in_order(heights, [float(year[column]) for year in years])
    assert {"premiums", "deaths", "maturities", "year 0", "year 19"} < set(picture.words)
    assert picture.shows(max((year[5] for year in years), key=float))


@pytest.mark.parametrize(("words", "says"), [
    ("reserves mean deficiency", "of several measures"),
    ("reserves --policy 99 valuations", "policy 99 has bounds in none"),
    ("reserves without-14", "add up to another total"),
    ("projection crossed", "a lower bound is above"),
])
def test_refused(office: Folder, words: str, says: str) -> None:
    office.write("without-14", re.sub("^row,14,.*\n", "", office.read("valuations"), flags=re.M))
    office.write("crossed", re.sub("^year,6,([^,]*),[^,]*", r"year,6,\1,1.00", office.read("projected"), flags=re.M))
    office.refused("plot", *words.split(), says=says)


@pytest.mark.parametrize("picture", ["projection", "reserve"])
def test_the_shipped_pictures(folder: Folder, picture: str) -> None:
    """They are what examples/pictures.sh draws."""
    folder.command("env", f"LIFE_PROGRAM={folder.program.path}", "sh", str(EXAMPLES / "pictures.sh"))
    assert folder.read(f"{picture}.svg") == (EXAMPLES / f"{picture}.svg").read_text(encoding="utf-8")
