"""Tests valuations: rows worked out by hand, by each measure; positions; each way in which arguments, a basis or a table are
refused; and every row of a book computed again in exact fractions, without the program."""
import subprocess
from collections.abc import Iterator

import pytest

from life_tools.tables.basis import read_basis
from tests.program.office import EMPTY, POLICY, VALUED, checks, example, prints
from tests.support.folders import Folder
from tests.support.made_books import premiums_around, script_of_ages, select_table

MEASURES = ("", "--mean", "--deficiency")


@pytest.fixture
def one_policy(table_q: Folder) -> Iterator[Folder]:
    """A folder with the policy that is valued by hand; no valuation may change the journal."""
    table_q.post(POLICY)
    before = table_q.journal.read_bytes()
    yield table_q
    assert table_q.journal.read_bytes() == before


def valued(folder: Folder, words: str) -> str:
    """Returns the block of a valuation, after `check-values` has computed it again."""
    status, block = prints(folder, "value", *words.split())
    assert status == 0, words
    folder.write("block", block)
    checks(folder, "check-values", "journal.life", "basis.csv", "block")
    return block


@pytest.mark.parametrize("words", ["2021-01-01", "--at=1 2021-01-01 --workers 64 --basis basis.csv"])
def test_a_policy_by_hand(words: str, one_policy: Folder) -> None:
    assert prints(one_policy, "value", *words.split()) == (0, VALUED)


def test_positions(one_policy: Folder) -> None:
    assert prints(one_policy, "value", "2021-01-01", "--at", "0") == (0, "0,value,2021-01-01,0,0\ntotal,0.00,0.00,0\n")
    assert prints(one_policy, "value", "2021-01-01", "--at", "2") == (10, "refused,ahead,1\n")


def test_an_output_that_is_full(one_policy: Folder) -> None:
    with open("/dev/full", "wb") as full:
        ran = subprocess.run([*one_policy.program.words, "value", "2021-01-01"], cwd=one_policy.path, stdout=full, check=False)
    assert ran.returncode == 7


# a day, a measure, the row and the total, computed by hand (docs/explanation/reserves.md)
BY_HAND = [
    ("2020-12-31", "--mean", "0,170.86,170.87", "170.86,170.87,0"),
    ("2021-01-01", "--mean", "1,563.61,563.62", "563.61,563.62,0"),
    ("2022-01-01", "--mean", "2,999.99,1000.01", "999.99,1000.01,0"),
    ("2023-01-01", "--mean", "3,1000.00,1000.00", "1000.00,1000.00,0"),
    ("2021-01-01", "--deficiency", "1,127.22,127.23,280.00,280.00,short", "127.22,127.23,280.00,280.00,0"),
    ("2023-01-01", "--deficiency", "3,1000.00,1000.00,1000.00,1000.00,enough", "1000.00,1000.00,1000.00,1000.00,0"),
]


@pytest.mark.parametrize("day, measure, its_row, total", BY_HAND)
def test_measures_by_hand(day: str, measure: str, its_row: str, total: str, one_policy: Folder) -> None:
    wanted = f"0,value,{day},1,1,{measure[2:]}\nrow,7001,inforce,{its_row}\ntotal,{total}\n"
    assert prints(one_policy, "value", day, measure) == (0, wanted)


def test_a_premium_that_is_enough(table_q: Folder) -> None:
    table_q.post(POLICY.replace("400.00", "500.00"))
    wanted = ("0,value,2021-01-01,1,1,deficiency\nrow,7001,inforce,1,127.22,127.23,127.22,127.23,enough\n"
              "total,127.22,127.23,127.22,127.23,0\n")
    assert prints(table_q, "value", "2021-01-01", "--deficiency") == (0, wanted)


def test_a_premium_that_is_close(table_q: Folder) -> None:
    """For an amount of 35.37 the net premium is near 17.15, and isn't a whole number of the units in which it is computed."""
    table_q.post("".join(f"1,issue,{cents},2020-01-01,endowment,0,3,35.37,17.{cents}\n" for cents in (14, 15, 16)))
    rows = [line.split(",") for line in valued(table_q, "2021-01-01 --deficiency").splitlines() if line.startswith("row,")]
    assert [(row[1], row[-1]) for row in rows] == [("14", "short"), ("15", "close"), ("16", "enough")]


# a day and its row: a policy by the rates of its issue age, its cap by those of the next one; by hand
# (docs/explanation/reserves.md)
SELECT = [("2020-12-31", "0,0.00,0.00"), ("2021-01-01", "1,129.20,129.21"), ("2022-01-01", "2,541.68,541.69"),
          ("2023-01-01", "3,1000.00,1000.00")]


@pytest.mark.parametrize("layout", ["select", "select-inner", "select-outer", "blank"])
def test_select_tables_by_hand(layout: str, folder: Folder) -> None:
    text = example(f"{layout.replace('blank', 'select')}.xml")
    if layout == "blank":
        # a blank row after the durations of each issue age
        text = text.replace("</Y></Axis></Axis>", '</Y><Y t="3"/></Axis></Axis>')
        assert text.count('<Y t="3"/>') == 2
    folder.write("s.xml", text)
    folder.write("basis.csv", "1900-01-01,s.xml,0\n")
    folder.post(POLICY)
    for day, its_row in SELECT:
        wanted = f"0,value,{day},1,1\nrow,7001,inforce,{its_row}\ntotal,{its_row.partition(',')[2]},0\n"
        assert prints(folder, "value", day) == (0, wanted)
    wanted = "0,value,2021-01-01,1,1,mean\nrow,7001,inforce,1,564.60,564.61\ntotal,564.60,564.61,0\n"
    assert prints(folder, "value", "2021-01-01", "--mean") == (0, wanted)


@pytest.mark.parametrize("made, words", [
    ((18, 70, 25, 18, 120), ""), ((40, 44, 6, 46, 70), "belowtable pasttable"), ((60, 70, 25, 18, 82), "pasttable"),
    ((0, 2, 3, 3, 9), "pasttable")], ids=str)
def test_every_row_by_a_select_table(made: tuple[int, int, int, int, int], words: str, folder: Folder) -> None:
    """Ages around the first and the last select age and the ends of the ultimate rates; the ultimate rates begin at the first
    issue age or after it, and end after the select periods or before their end."""
    first, last, _, _, end = made
    folder.write("s.xml", select_table(*made))
    folder.write("basis.csv", "1900-01-01,s.xml,325\n")
    ages = [*range(max(first - 1, 0), first + 1), last - 1, last, last + 1, last + 2, made[3], end - 2, end - 1, end]
    folder.post(script_of_ages(ages))
    asked = ("2001-01-01", "2003-06-01 --mean", "2025-01-01 --deficiency", "2030-01-01")
    found = "".join(valued(folder, one) for one in asked)
    assert set(words.split()) <= {line.rpartition(",")[2] for line in found.splitlines() if line.startswith("row,")}


def test_short_premiums_of_the_example(examples_basis: Folder) -> None:
    assert "refused" not in examples_basis.post(example("short-premium.csv"))
    assert valued(examples_basis, "2023-12-31 --deficiency") == example("short-premium.deficiency")


@pytest.mark.parametrize("measure, its_row", [
    ("mean", "1,563.61,563.62"), ("deficiency", "1,127.22,127.23,280.00,280.00,short")])
@pytest.mark.parametrize("words", [
    "2021-01-01 --mean --at 1 --workers 2", "--mean --at 1 2021-01-01 --workers 2", "--workers 2 2021-01-01 --mean --at=1",
    "--at 1 --mean --workers=2 --basis basis.csv 2021-01-01"])
def test_a_measure_may_stand_anywhere(words: str, measure: str, its_row: str, one_policy: Folder) -> None:
    total = ",".join(part for part in its_row.split(",")[1:] if part != "short")
    wanted = f"0,value,2021-01-01,1,1,{measure}\nrow,7001,inforce,{its_row}\ntotal,{total},0\n"
    assert prints(one_policy, "value", *words.replace("--mean", f"--{measure}").split()) == (0, wanted)


FORTY = [f"1,{rest.format(number)}\n" for rest in (
    "issue,{},2020-01-01,endowment,0,3,1000.00,400.00", "premium,{},2020-01-01,400.00", "alter,{},2020-06-01,500.00,200.00",
    "premium,{},2021-01-01,200.00", "claim,{},2021-02-01") for number in range(1, 9)]


def test_each_position_is_valued_as_a_run_of_so_many(table_q: Folder) -> None:
    """Forty commands, all of which are accepted, five for each of eight policies."""
    assert table_q.post("".join(FORTY)).count(",accepted,") == 40
    for count in range(41):
        alone = table_q.below(f"first-{count}")
        alone.write("basis.csv", table_q.read("basis.csv"))
        alone.take("q.xml")
        alone.post("".join(FORTY[:count]))
        wanted = prints(alone, "value", "2021-06-01")
        assert wanted[0] == 0 and wanted[1].startswith(f"0,value,2021-06-01,{count},{min(count, 8)}\n")
        assert prints(table_q, "value", "2021-06-01", "--at", str(count)) == wanted


def test_a_position_ahead_of_a_new_journal(table_q: Folder) -> None:
    assert prints(table_q, "value", "2021-01-01", "--at", "1") == (10, "refused,ahead,0\n")
    assert table_q.journal.read_bytes() == EMPTY


@pytest.mark.parametrize("words", [
    "value", "value 2021-02-29", "value 2021-01-01 --workers 0", "value 2021-01-01 --workers 65", "value 2021-01-01 --at 4000001",
    "value 2021-01-01 --at 5 --at 5", "value --on 2021-01-01", "value 2021-01-01 --basis ../basis.csv", "run --at 1",
    "value --mean", "value 2021-01-01 --mean --mean", "value --mean 2021-01-01 --mean",
    "value 2021-01-01 --deficiency --deficiency", "value 2021-01-01 --mean --deficiency", "value 2021-01-01 --deficiency --mean",
    "value --deficiency 2021-01-01 --mean", "value 2021-01-01 --mean=1", "value 2021-01-01 --deficiency=",
    "value 2021-01-01 mean", "value 2021-01-01 -mean", "value 2021-01-01 --Mean", "value 2021-01-01 --defi",
    "value 2021-01-01 --mean 1", "value 2021-01-01 --at --mean", "value 2021-01-01 --basis --deficiency",
    "--mean value 2021-01-01", "run --mean", "run --deficiency", "state --mean", "state 1 --deficiency", "generate 1 1 1 --mean",
    "load 1 1 1 1 --mean", "load 1 1 1 1 --deficiency"])
def test_arguments_that_are_no_valuations(words: str, table_q: Folder) -> None:
    assert prints(table_q, *words.split()) == (2, "usage\n")
    assert not table_q.journal.exists()


CUT = '<XTbML><Table><Values><Axis><Y t="0">0.1</Y><Y t="1">0.'
DURATION = '<XTbML><Table><Values><Axis><Axis t="0"/></Axis></Values></Table></XTbML>'
SELECT_TEXT = example("select.xml")
ULTIMATE = SELECT_TEXT.index("<Table><Values><Axis><Y")


@pytest.mark.parametrize("files, words, wanted", [
    ({}, "", (4, "badbasis,basis.csv,0,absent")), ({}, "--basis other.csv", (4, "badbasis,other.csv,0,absent")),
    ({"basis.csv": "1900-01-01,../q.xml,0\n"}, "", (4, "badbasis,basis.csv,1,badrow")),
    ({"basis.csv": "\0" * 4194305}, "", (4, "badbasis,basis.csv,0,toolong")), ({"basis.csv": None}, "", (6, "readfault")),
    ({"q.xml": CUT}, "", (4, "badbasis,q.xml,55,notdocument")), ({"q.xml": DURATION}, "", (4, "badbasis,q.xml,28,badduration")),
    # without the second table
    ({"q.xml": SELECT_TEXT[:ULTIMATE] + "</XTbML>"}, "", (4, "badbasis,q.xml,7,noultimate")),
    # without a rate for age 2, which comes directly after the select period of issue age 0
    ({"q.xml": SELECT_TEXT[:ULTIMATE] + "<Table><Values><Axis>" + SELECT_TEXT[SELECT_TEXT.index('<Y t="3">', ULTIMATE):]}, "",
     (4, "badbasis,q.xml,22,ultimategap")),
    ({"basis.csv": "1900-01-01,q.xml,0\n"}, "", (4, "badbasis,q.xml,1,absent")), ({"q.xml": None}, "", (6, "readfault")),
], ids=["none", "none of this name", "a row", "too long", "a folder", "a cut table", "a bad duration", "no ultimate rates",
        "a gap", "no table", "a table that is a folder"])
def test_bad_bases(files: dict[str, str | None], words: str, wanted: tuple[int, str], folder: Folder) -> None:
    if "q.xml" in files:
        folder.write("basis.csv", "1900-01-01,q.xml,0\n")
    for name, text in files.items():
        if text is None:
            (folder.path / name).mkdir()
        else:
            folder.write(name, text)
    assert prints(folder, "value", "2021-01-01", *words.split()) == (wanted[0], wanted[1] + "\n")
    assert not folder.journal.exists()


def test_a_basis_of_4_mib(one_policy: Folder) -> None:
    text = one_policy.read("basis.csv")
    one_policy.write("basis.csv", text + "\n" * (4194304 - len(text)))
    assert prints(one_policy, "value", "2021-01-01") == (0, VALUED)


def test_an_empty_basis(one_policy: Folder) -> None:
    one_policy.write("basis.csv", "")
    wanted = "0,value,2021-01-01,1,1\nrow,7001,inforce,0,nobasis\ntotal,0.00,0.00,1\n"
    assert prints(one_policy, "value", "2021-01-01") == (0, wanted)


@pytest.mark.parametrize("measure", MEASURES)
def test_every_row_of_the_small_office(measure: str, small_office: Folder) -> None:
    for day in ("2021-01-19", "2022-01-20", "2023-03-15", "2024-03-03", "2024-03-12", "2060-01-01"):
        valued(small_office, f"{day} {measure}")


def test_every_row_of_the_small_office_at_positions(small_office: Folder) -> None:
    for position in (0, 1, 7, 19, 27):
        valued(small_office, f"2024-06-30 --at {position}")


@pytest.mark.parametrize("measure", MEASURES)
def test_every_row_of_a_generated_book(measure: str, examples_basis: Folder) -> None:
    """The premiums are a fiftieth of the amounts, and therefore short for most of the policies."""
    examples_basis.post(prints(examples_basis, "generate", "7", "300", "1")[1])
    blocks = [valued(examples_basis, f"{day} {measure}")
              for day in ("2000-06-01", "2005-12-31", "2009-12-31", "2020-12-31", "2190-01-01")]
    if measure == "--deficiency":
        assert ",short\n" in blocks[1] and ",enough\n" in blocks[1]


def test_premiums_around_the_net_premium(examples_basis: Folder, monkeypatch: pytest.MonkeyPatch) -> None:
    monkeypatch.chdir(examples_basis.path)
    rows = list(premiums_around(read_basis("basis.csv")))
    examples_basis.post("".join(line for line, _ in rows))
    for day in ("2021-03-01", "2022-03-01", "2023-03-01", "2031-12-31", "2046-03-01"):
        block = valued(examples_basis, f"{day} --deficiency")
        if day == "2022-03-01":
            found = [line.rpartition(",")[2] for line in block.splitlines() if line.startswith("row,")]
            assert found == [word for _, word in rows]
