"""Tests tables in forms that the program doesn't accept, made from the shipped ones in the layouts of known tables. What
`table convert` makes of them is accepted, and has the rates that another XML parser reads; no rate is invented."""
import re
import xml.etree.ElementTree as Tree
from dataclasses import dataclass
from decimal import Decimal
from pathlib import Path

import pytest

from tests.support.folders import Folder
from tests.support.program import ROOT

SHIPPED = ROOT / "tests" / "tables"
PLAIN = (SHIPPED / "cso-1980-aggregate.xml").read_text("utf-8").removeprefix("\ufeff")
SELECT = (SHIPPED / "cso-2001-select-ultimate.xml").read_text("utf-8").removeprefix("\ufeff")
HALF = Decimal("0.5e-9")


def rates_of(path: Path) -> list[Decimal]:
    """Returns the rates of a file in their order, read by the other parser of the standard library; a row without a rate is
    skipped."""
    texts = [(row.text or "").strip() for row in Tree.fromstring(path.read_bytes()).iter() if row.tag.rpartition("}")[2] == "Y"]
    return [Decimal(text.replace(",", ".")) for text in texts if text]


def converted(folder: Folder, changes: list[str], source: Path, scale: Decimal = Decimal(1), words: tuple[str, ...] = ()) -> None:
    """Converts t.xml, and asserts that exactly these changes are reported, that the result is accepted, and that its rates are
    those of the source."""
    ended = folder.tools("table", "convert", "t.xml", "made.xml", *words)
    assert ended.status == 0, ended
    assert all(re.search(change, ended.err) for change in changes) and len(ended.err.splitlines()) == len(changes), ended
    found, wanted = rates_of(folder.path / "made.xml"), [rate * scale for rate in rates_of(source)]
    assert len(found) == len(wanted) and all(abs(one - other) <= HALF for one, other in zip(found, wanted))
    assert "isn't taken" not in folder.tools("table", "check", "made.xml").out


@dataclass(frozen=True)
class Form:
    """A form in which others write a table: a change of the plain text, its encoding, and what the conversion reports."""

    pattern: str
    to: str
    told: str
    encoding: str = "utf-8"
    flags: int = 0


FORMS = {
    "UTF-16": Form('encoding="utf-8"', 'encoding="utf-16"', "^UTF-16 is written as UTF-8", "utf-16"),
    "Latin-1": Form('encoding="utf-8"', 'encoding="iso-8859-1"', "^iso-8859-1 is written as UTF-8", "iso-8859-1"),
    "a DOCTYPE": Form(r"\A.*?\?>", '<?xml version="1.0"?>\n<!DOCTYPE XTbML SYSTEM "http://example.org/none.dtd">',
                      "^the DOCTYPE XTbML is dropped", flags=re.S),
    "CDATA": Form(r'<Y t="([0-9]*)">([^<]*)</Y>', r'<Y t="\1"><![CDATA[\2]]></Y>', "^CDATA sections: 100"),
    "prefixes": Form(r"<(/?)([A-Z])", r"<\1x:\2", "^prefixes are dropped: x"),
    "references": Form(r't="35"|(?<=>)0\.', "&#48;.", "^references: 10[01]"),
    "comments": Form("</Y>", "<!-- seen --></Y>", "^comments: 100, dropped"),
    "decimal commas": Form(r">0[.]([0-9]*)<", r">0,\1<", "^decimal commas written as points: 99"),
    "empty cells": Form("</Axis>", '<Y t="100"/><Y t="101"> </Y></Axis>', "^empty cells at the end are dropped: 2"),
}


def written(name: str) -> bytes:
    form = FORMS[name]
    text = PLAIN.replace("\u2013", "-") if form.encoding == "iso-8859-1" else PLAIN
    if name == "references":
        text = text.replace('t="35"', 't="&#51;5"').replace("0.", "&#48;.")
    else:
        text = re.sub(form.pattern, form.to, text, flags=form.flags)
    if name == "prefixes":
        text = text.replace("<x:XTbML ", '<x:XTbML xmlns:x="urn:x" ')
    assert text != PLAIN
    return text.encode(form.encoding)


@pytest.mark.parametrize("name", FORMS)
def test_forms(folder: Folder, name: str) -> None:
    folder.write("t.xml", written(name))
    converted(folder, [FORMS[name].told], SHIPPED / "cso-1980-aggregate.xml")


@pytest.mark.parametrize(("name", "explained"), [("UTF-16", "it is written in UTF-16"),
                                                 ("references", "badbasis,t.xml,[0-9]*,badrate")])
def test_what_the_program_refuses_is_reported_as_not_taken(folder: Folder, name: str, explained: str) -> None:
    folder.write("t.xml", written(name))
    ended = folder.tools("table", "check", "t.xml")
    assert ended.status == 1 and ended.out.startswith("t.xml isn't taken: badbasis,t.xml,"), ended
    explaining = folder.tools("explain", "t.xml")
    assert explaining.status == 1 and re.search(explained, explaining.out + explaining.err), explaining


# what `check` prints of a shipped table, and what `convert` reports that it changed
LAYOUTS = {
    "cso-1980-aggregate": ("the file says: male; age nearest birthday; year 1980\n", "^nothing had to be"),
    "cso-2001-select-ultimate": ("the file says: female, nonsmoker; age last birthday; year 2001\n", "^nothing had to be"),
    "cso-2017-aggregate": ("the file says: male, composite; age nearest birthday; year 2017\n", "^nothing had to be"),
    "cso-2017-select-ultimate": ("the file says: male, smoker, preferred; age nearest birthday; year 2017\n",
                                 "^empty cells at the end are dropped: 28"),
    "cso-2001-ultimate": (",badrate\n", "^rates rounded to nine places: 98, the largest change 3.33e-10, of age 114"),
    "cso-2017-ultimate": (",scaled\n", "^ScalingFactor 1000: each rate is divided by it"),
}


@pytest.mark.parametrize("name", LAYOUTS)
def test_shipped_layouts(folder: Folder, name: str) -> None:
    says, change = LAYOUTS[name]
    folder.write("t.xml", (SHIPPED / f"{name}.xml").read_bytes())
    is_taken = says.startswith("the file says")
    printed = folder.printed("table", "check", "t.xml", status=0 if is_taken else 1)
    assert says in printed and (" is taken: " if is_taken else "table convert makes it one: ") in printed
    converted(folder, [change], SHIPPED / f"{name}.xml", Decimal("0.001" if says == ",scaled\n" else 1))


def test_a_rounded_file_is_the_same_but_for_its_rates(folder: Folder) -> None:
    folder.write("t.xml", (SHIPPED / "cso-2001-ultimate.xml").read_bytes())
    folder.printed("table", "round", "t.xml", "rounded.xml")
    folder.printed("table", "convert", "t.xml", "made.xml")
    before, after = (re.sub(r"(<Y[^>]*>)[^<]*", r"\1", folder.read(name)) for name in ("t.xml", "rounded.xml"))
    assert before == after
    assert rates_of(folder.path / "rounded.xml") == rates_of(folder.path / "made.xml")


def test_rates_by_hand(folder: Folder) -> None:
    """0.0004213387291 is 0.000421339 to nine places, which is 2.709e-10 more; 0.04213 per 100 is 0.0004213."""
    rates = '<XTbML><Table><Values><Axis><Y t="0">{}</Y><Y t="1" >1</Y></Axis></Values></Table></XTbML>\n'
    folder.write("t.xml", rates.format("0.0004213387291"))
    rounded = folder.tools("table", "round", "t.xml", "rounded.xml")
    assert "rates rounded to nine places: 1, the largest change 2.71e-10, of age 0" in rounded.err.splitlines()
    assert folder.read("rounded.xml") == rates.format("0.000421339")
    again = folder.tools("table", "round", "rounded.xml", "again.xml")
    assert again.err == "nothing had to be changed\n" and folder.read("again.xml") == folder.read("rounded.xml")
    folder.write("f.xml", "<XTbML><Table><MetaData><ScalingFactor>100</ScalingFactor></MetaData><Values><Axis>"
                          '<Y t="7">0.04213</Y><Y t="8">100</Y><Y t="9"/></Axis></Values></Table></XTbML>')
    folder.printed("table", "convert", "f.xml", "made.xml")
    assert "".join(folder.read("made.xml").partition("?>")[2].split()) == (
        "<XTbML><Table><MetaData><ScalingFactor>1</ScalingFactor></MetaData><Values><Axis>"
        '<Yt="7">0.0004213</Y><Yt="8">1</Y></Axis></Values></Table></XTbML>')


def test_select_and_ultimate_rates_in_two_files_are_joined(folder: Folder) -> None:
    folder.write("select.xml", re.sub(r"(?s)(</Table>).*</Table>", r"\1", SELECT))
    folder.write("later.xml", re.sub(r"(?s)<Table>.*</Table>\s*(<Table>)", r"\1", SELECT))
    folder.refused("table", "convert", "select.xml", "new.xml", says="it has select rates alone: table join")
    folder.refused("table", "join", "later.xml", "select.xml", "new.xml", says="name the one with issue ages first")
    folder.refused("table", "join", "select.xml", "select.xml", "new.xml", says="name the one with rates by age second")
    folder.printed("table", "join", "select.xml", "later.xml", "joined.xml")
    assert rates_of(folder.path / "joined.xml") == rates_of(SHIPPED / "cso-2001-select-ultimate.xml")


def test_issue_axes_with_their_rates_directly_in_them(folder: Folder) -> None:
    """They are read by age, and only the first axis is read."""
    direct = re.sub(r"<Axis t=\"([0-9]*)\">\s*<Axis>(.*?)</Axis>\s*</Axis>", r'<Axis t="\1">\2</Axis>', SELECT, flags=re.S)
    folder.write("t.xml", direct)
    told = folder.printed("table", "check", "t.xml", status=1)
    assert "look:   the first axis has t=16 as that of an issue age" in told
    converted(folder, ["^issue axes that had their rates directly in them lie in one axis"],
              SHIPPED / "cso-2001-select-ultimate.xml")


FIVES = "".join(f'<Y t="{age}">0.1</Y>' for age in range(0, 100, 5))
# a change of the plain text, and why the result can't be converted
WRONG = {
    "ages by fives": (r"(?s)<Axis>.*</Axis>", f"<Axis>{FIVES}</Axis>", "age 5 comes after 0: what lies between isn't invented"),
    "a hole": (r'(<Y t="40">)[^<]*', r"\1", "the rate of age 40 .* is '', which is no number"),
    "a word": (r'(<Y t="40">)[^<]*', r"\1n/a", "the rate of age 40 .* is 'n/a', which is no number"),
    "above 1": (r'(<Y t="40">)[^<]*', r"\g<1>1.5", "the rate of age 40 .* is 1.5, and rates lie from 0 to 1"),
    "below 0": (r'(<Y t="40">)[^<]*', r"\1-0.1", "which is no number"),
    "an age twice": ('<Y t="41">', '<Y t="40">', "age 40 comes after 40: it isn't known which is right"),
    "an age in letters": ('<Y t="41">', '<Y t="x">', "has t='x'"),
    "another document": ("XTbML", "html", "breaks off after html"),
    "a factor of 10": ("<ScalingFactor>0<", "<ScalingFactor>10<", "--factor divide or --factor multiply"),
    "cut short": (r"(?s)</Y>\s*<Y t=\"50.*", "", "it is no XML"),
    "an entity": (r"<XTbML ", '<!DOCTYPE XTbML [<!ENTITY a "1">]><XTbML ', "it declares the entity a"),
    "deep elements": (r"(?s)\A.*\Z", "<XTbML>" + "<a>" * 70 + "</a>" * 70 + "</XTbML>", "more than 64 deep"),
    # two levels of entities would multiply the text by a hundred
    "entities of entities": (
        r"(?s)\A.*\Z", f'<!DOCTYPE x [<!ENTITY a "{"a" * 10}"><!ENTITY b "{"&a;" * 10}">]><XTbML>&b;</XTbML>',
        "it declares the entity a"),
}


@pytest.mark.parametrize("name", WRONG)
def test_no_rate_is_invented(folder: Folder, name: str) -> None:
    pattern, to, why = WRONG[name]
    text = re.sub(pattern, to, PLAIN)
    assert text != PLAIN
    folder.write("t.xml", text)
    folder.refused("table", "convert", "t.xml", "new.xml", says=why)
    ended = folder.tools("table", "check", "t.xml")
    assert ended.status == 1 and "isn't taken: " in ended.out and not ended.err, ended
    assert "table convert can't make it one: " in ended.out


def test_a_factor_that_is_given(folder: Folder) -> None:
    folder.write("t.xml", PLAIN.replace("<ScalingFactor>0<", "<ScalingFactor>10<"))
    converted(folder, ["^ScalingFactor 10: each rate is divided"], SHIPPED / "cso-1980-aggregate.xml", Decimal("0.1"),
              ("--factor", "divide"))


def test_rates_that_are_none_of_death_are_remarked(folder: Folder) -> None:
    lapses = "".join(f'<Y t="{year}">{Decimal(20 - year) / 100}</Y>' for year in range(1, 16))
    named = PLAIN.replace("CSO / CET", "Lapse Rates").replace(">Age<", ">Duration<")
    folder.write("t.xml", re.sub(r"(?s)<Axis>.*</Axis>", f"<Axis>{lapses}</Axis>", named))
    told = folder.printed("table", "check", "t.xml", status=1)
    for words in ("the axis is named Duration, and its labels are taken as ages",
                  "the file names lapse: are these rates of death?",
                  "the rates fall, from 0.190000 at age 1 to 0.050000 at age 15, as lapse rates do",
                  "the last rate, of age 15, is 0.05"):
        assert f"look:   {words}" in told


def test_a_table_that_names_nobody(folder: Folder) -> None:
    folder.take("q.xml")
    assert "the file says: no class of lives; no age basis; no year" in folder.printed("table", "check", "q.xml")


@pytest.mark.parametrize(("words", "says"), {
    "convert q.xml g.xml": "g.xml is there already",
    "check nowhere.xml": "No such file",
    "convert nowhere.xml written": "No such file",
    "join q.xml nowhere.xml written": "No such file",
    "join q.xml g.xml": "required",
    "nonsense q.xml": "invalid choice",
    "convert noise written": "is no XML",
    "check q.xml --life nowhere": "is no program",
    "check folder": "Is a directory",
}.items())
def test_refused(examples_basis: Folder, words: str, says: str) -> None:
    examples_basis.write("noise", bytes(range(256)) * 8)
    examples_basis.below("folder")
    examples_basis.refused("table", *words.split(), says=says)


def test_names_that_a_basis_cant_have(folder: Folder) -> None:
    """A table is checked even if its name has a blank, or if its file has the name of a basis."""
    folder.take("q.xml")
    folder.write("a name.xml", folder.read("q.xml"))
    folder.write("basis.csv", folder.read("q.xml"))
    assert "a name.xml is taken: rates by age, of the ages 0 to 4" in folder.printed("table", "check", "a name.xml").splitlines()
    folder.printed("table", "check", "basis.csv")
    folder.write("empty.xml", "")
    assert "badbasis,empty.xml,0,notdocument" in folder.printed("table", "check", "empty.xml", status=1)
