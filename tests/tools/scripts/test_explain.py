"""Tests `explain` for a refused line, a script, a basis or a table: it gives the place, what was found there, and what is
wanted."""
import re

import pytest

from tests.support.folders import EXAMPLES, Folder

HEAD = "<XTbML><Table><Values><Axis>"
RATES = HEAD + '\n  <Y t="0">0.1</Y>\n  <Y t="1">{}</Y>'
SELECT = ('<XTbML>\n<Table><Values><Axis><Axis t="1">\n  <Y t="{}">0.1</Y></Axis></Axis></Values></Table>{}</XTbML>')
GAP = '<Table><Values><Axis><Y t="3">0.1</Y></Axis></Values></Table>'
T = "1900-01-01,t.xml,400\n"
# by name: basis.csv, and t.xml if there is one, of which the program refuses one; and what `explain` says about it
BASES: dict[str, tuple[str, str | None, list[str]]] = {
    "no file": (T, None, ["no such file"]),
    "a table that breaks off": (T, RATES.format("0.0004213387291"), ["^parser: "]),
    "a rate of too many places": (T, RATES.format("0.0004213387291") + "</Axis></Values></Table></XTbML>",
                                  ["^line 3 of t.xml, byte 3 "]),
    "a duration 2 first": (T, SELECT.format(2, ""),
                           ["^wanted: rates of each issue age by duration", "^line 3 of t.xml, byte 3 "]),
    "no ultimate table": (T, SELECT.format(1, ""), ["^wanted: a second Table after this one", "^line 2 of t.xml, byte 1 "]),
    "a gap before the ultimate rates": (
        T, SELECT.format(1, GAP),
        ["^wanted: an ultimate rate for the age right after", "^line 2 of t.xml, byte 22 ",
         "^cure:   let the ultimate rates begin"]),
    "another document": (T, "<html><body>not found</body></html>", ["^wanted: the path XTbML"]),
    "two rows of one day": ("1900-01-01,q.xml,0\n\n1900-01-01,q.xml,0\n", None, ["^line 3 of basis.csv, row 2$"]),
    "an interest with a sign": ("1900-01-01,q.xml,4%\n", None, ["^wanted: a row: "]),
}
REFUSED = {
    "another fault of the table": (["badbasis,t.xml,8,noultimate"], "the first fault of t.xml is badbasis,t.xml,29,ultimategap"),
    "a basis that is right": (["badbasis,basis.csv,1,badrow", str(EXAMPLES)], "has no bad row"),
    "a table that is taken": (["badbasis,q.xml,28,notdocument"], "is a table that is taken"),
    "a word that isn't one": (["badbasis,q.xml,28,strange"], "is no word of a bad basis"),
    "a fault of the device": (["1,lapse,7001,fault"], "no such file, and no answer of a line, a script or a basis"),
}


@pytest.mark.parametrize(("basis", "table", "says"), BASES.values(), ids=BASES)
def test_a_basis_or_a_table_that_is_refused(examples_basis: Folder, basis: str, table: str | None, says: list[str]) -> None:
    examples_basis.write("basis.csv", basis)
    if table is not None:
        examples_basis.write("t.xml", table)
    answer = examples_basis.life("value", "2021-01-01")
    assert answer.status == 4, answer
    explained = examples_basis.printed("explain", answer.out.strip())
    assert all(re.search(line, explained, re.M) for line in says), explained


@pytest.mark.parametrize(("words", "says"), REFUSED.values(), ids=REFUSED)
def test_what_is_no_answer_of_the_program(examples_basis: Folder, words: list[str], says: str) -> None:
    examples_basis.write("t.xml", SELECT.format(1, GAP))
    examples_basis.write("basis.csv", T)
    examples_basis.refused("explain", *words, says=says)


@pytest.mark.parametrize(("script", "says"), [
    ((EXAMPLES / "bad-day.csv").read_text(encoding="utf-8"), ["^line 2 of bad.csv, field 4$"]),
    ("\n\n1,issue,7001,2020-01-01,endowment,0,3,1000.00,400.00\r\n1,lapse,1\n",
     ["^line 4 of bad.csv, field 4$", "^found:  the row has ended$"]),
], ids=["a page's example", "a row that ends too soon"])
def test_a_script_that_is_refused(examples_basis: Folder, script: str, says: list[str]) -> None:
    examples_basis.write("bad.csv", script)
    told = examples_basis.printed("explain", examples_basis.life("run", given=script).out.strip(), "bad.csv")
    assert all(re.search(line, told, re.M) for line in says), told


def test_another_fault_of_a_script(examples_basis: Folder) -> None:
    examples_basis.write("short.csv", "1,issue,7001,2020-01-01,endowment,0,3,1000.00,400.00\n1,lapse,1\n")
    examples_basis.refused("explain", "badscript,1,1", "short.csv", says="the first fault of short.csv is badscript,2,4")
    examples_basis.refused("explain", "badscript,1,1", str(EXAMPLES / "two-clerks.csv"), says="has no fault")


def test_what_is_passed_over_of_a_table(examples_basis: Folder) -> None:
    more = '<Table><Values><Axis><Y t="0">1</Y></Axis></Values></Table></XTbML>'
    examples_basis.write("two.xml", examples_basis.read("q.xml").replace("</XTbML>", more))
    told = examples_basis.printed("explain", "two.xml")
    assert "ages 0 to 4" in told and "1 further Table" in told


@pytest.mark.parametrize("layout", ["select", "select-inner", "select-outer"])
def test_layouts_of_select_tables(folder: Folder, layout: str) -> None:
    told = folder.printed("explain", str(EXAMPLES / f"{layout}.xml"))
    assert "issue ages 0 to 1, 2 durations each" in told and "ultimate rates of the ages 0 to 4" in told
    assert "passed over: nothing" in told.splitlines()


def test_rates_that_stand_directly_in_a_labelled_axis(folder: Folder) -> None:
    """The rates are read by age, and what follows them is ignored."""
    text = (EXAMPLES / "select-inner.xml").read_text(encoding="utf-8")
    for old, new in (('<Axis><Axis t="0">', '<Axis t="0">'), ("</Axis></Axis></Values>", "</Axis></Values>")):
        assert old in text
        text = text.replace(old, new)
    folder.write("labelled.xml", text)
    told = folder.printed("explain", "labelled.xml")
    assert "rates of the ages 1 to 2" in told and re.search('^  the first Axis has t="0"', told, re.M)
    assert re.search("1 further Table.*1 further Values or Axis", told)


def test_an_empty_rate_and_a_third_table(folder: Folder) -> None:
    text = (EXAMPLES / "select.xml").read_text(encoding="utf-8").replace('<Y t="2">0.2</Y>', '<Y t="2"/>')
    folder.write("blank.xml", text.replace("</XTbML>", "<Table/></XTbML>"))
    told = folder.printed("explain", "blank.xml")
    assert "1 to 2 durations each" in told and re.search("1 further Table: only the first two.*1 Y without a rate", told)
