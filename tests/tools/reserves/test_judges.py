"""Tests the tools that judge what the program printed, valuations, transcripts and projections: they accept what it printed,
and find each change of it."""
import re

import pytest

from tests.support.folders import EXAMPLES, Folder

VALUES = ["check-values", "journal.life", "basis.csv"]
MEASURES: dict[str, list[str]] = {"terminal": [], "mean": ["--mean"], "deficiency": ["--deficiency"]}


def changed(text: str, pattern: str, to: str) -> str:
    """Returns a text in which a pattern is replaced in each line, as sed does."""
    made = re.sub(pattern, to, text, flags=re.M)
    assert made != text, f"{pattern} isn't in: {text}"
    return made


def finds_in(folder: Folder, words: list[str], text: str, says: str) -> None:
    folder.write("wrong", text)
    folder.finds(*words, "wrong", says=says)


def refuses_in(folder: Folder, words: list[str], text: str, says: str) -> None:
    folder.write("wrong", text)
    folder.refused(*words, "wrong", says=says)


@pytest.fixture
def office(small_office: Folder) -> Folder:
    for name, words in MEASURES.items():
        small_office.write(name, small_office.life("value", "2024-03-12", *words).out)
    return small_office


@pytest.mark.parametrize("measure", MEASURES)
def test_a_printed_valuation_is_right(office: Folder, measure: str) -> None:
    office.printed(*VALUES, measure)


@pytest.mark.parametrize(("measure", "pattern", "to", "says"), [
    ("terminal", r"^(row,14,.*),[^,]*$", r"\1,9999.99", "doesn't enclose"),
    ("terminal", r"^row,14,.*", "row,14,inforce,3,nobasis", "has a value"),
    ("terminal", r"^(total,.*),0$", r"\1,1", "isn't total"),
    ("terminal", r"\A(.*)$", r"\1,mean", "wrong: row,"),
    ("terminal", r"\A(.*)$", r"\1,deficiency", "wrong: row,"),
    ("mean", r"\A(.*),mean$", r"\1", "wrong: row,"),
    ("deficiency", r"\A(.*),deficiency$", r"\1", "wrong: row,"),
    ("deficiency", r"^(row,12,.*),[0-9.]*,([a-z]*)$", r"\1,9999.99,\2", "doesn't enclose"),
    ("deficiency", r"^(row,13,.*,)enough$", r"\1short", "no premium of policy 13 is to come"),
    ("deficiency", r"^(total,.*),[0-9.]*,0$", r"\1,9999.99,0", "isn't total"),
])
def test_a_changed_valuation_is_found(office: Folder, measure: str, pattern: str, to: str, says: str) -> None:
    finds_in(office, VALUES, changed(office.read(measure), pattern, to), says)


@pytest.mark.parametrize(("old", "new"), [("short", "enough"), ("short", "close"), ("enough", "short"), ("enough", "close")])
def test_a_premium_that_is_called_otherwise_is_found(office: Folder, old: str, new: str) -> None:
    text = office.read("deficiency")
    if re.search(rf"^row,1[0-9],inforce,.*,{old}$", text, re.M):
        finds_in(office, VALUES, changed(text, rf"^(row,1[0-9],inforce,.*),{old}$", rf"\1,{new}"), "above the net premium")


def test_policies_that_have_no_value(office: Folder) -> None:
    """By a basis that begins after the issue of some policies, which have a word in place of a value."""
    office.write("later.csv", "2021-06-01,g.xml,400\n")
    text = office.life("value", "2024-03-12", "--basis", "later.csv").out
    words = int(text.splitlines()[-1].split(",")[-1])
    assert words == text.count(",nobasis\n") > 0
    office.write("printed", text)
    office.printed("check-values", "journal.life", "later.csv", "printed")
    wrong = changed(text, rf",{words}\n\Z", f",{words - 1}\n")
    finds_in(office, ["check-values", "journal.life", "later.csv"], wrong, "isn't total")


def test_a_measure_that_isnt_one(office: Folder) -> None:
    refuses_in(office, VALUES, changed(office.read("mean"), r"\A(.*),mean$", r"\1,terminal"), "is no valuation")


@pytest.fixture
def sample(office: Folder) -> str:
    lines = office.read("terminal").splitlines(keepends=True)
    return "".join([lines[0], *(line for number in (15, 11) for line in lines if line.startswith(f"row,{number},"))])


def test_a_sample_of_the_rows(office: Folder, sample: str) -> None:
    total = office.read("terminal").splitlines()[-1].removesuffix(",0") + ",9\n"
    for text in (sample, sample + total):
        office.write("some", text)
        assert office.printed(*VALUES, "some", "--sample") == "2 of 6 rows are right; the total isn't checked\n"
    office.finds(*VALUES, "some", says="there are 6 policies, and 2 rows before the last line")
    office.write("some", sample)
    office.finds(*VALUES, "some", says="there are 6 policies, and 1 rows before the last line")


@pytest.mark.parametrize(("pattern", "to", "says"), [
    (r"^(row,15,.*),[^,]*$", r"\1,9999.99", "doesn't enclose"),
    (r"^(row,15,.*\n)", r"\1\1", "or its row stood above"),
    (r"^row,15,", "row,99,", "no policy has this number"),
    (r"\A(.*),6$", r"\1,7", "there are 6 policies"),
])
def test_a_changed_sample_is_found(office: Folder, sample: str, pattern: str, to: str, says: str) -> None:
    finds_in(office, [*VALUES, "--sample"], changed(sample, pattern, to), says)


def test_by_a_table_that_is_written_otherwise(office: Folder) -> None:
    """The table has a byte order mark, a comment that isn't ASCII, and blanks in a tag: the program accepts it, with the same
    values."""
    table = office.read("g.xml").split("\n", 1)[1].replace('<Y t="50">', '<Y t="50" >').replace('<Y t="51">', '<Y\n  t = "51">')
    office.write("g.xml", '\ufeff<?xml version="1.0" encoding="utf-8"?>\n<!-- Sterblichkeit der Männer -->\n' + table)
    assert office.life("value", "2024-03-12").out == office.read("terminal")
    office.printed(*VALUES, "terminal")


@pytest.fixture
def by_select(office: Folder) -> Folder:
    """The small office with one more policy, valued by a select table."""
    for name in ("select.xml", "select-inner.xml", "select-outer.xml"):
        office.take(name)
    office.write("basis.csv", "1900-01-01,select.xml,0\n")
    office.post("1,issue,99,2020-01-01,endowment,0,3,1000.00,400.00\n")
    office.write("by-select", office.life("value", "2021-01-01").out)
    return office


def test_by_a_select_table(by_select: Folder) -> None:
    assert "row,99,inforce,1,129.20,129.21" in by_select.read("by-select").splitlines()
    by_select.printed(*VALUES, "by-select")


# by the ultimate rates, by the select rates of the next higher age, and by those of the next lower age
@pytest.mark.parametrize("bounds", ["105.63,105.64", "127.22,127.23", "58.37,58.38"])
def test_other_bounds_by_a_select_table_are_found(by_select: Folder, bounds: str) -> None:
    text = changed(by_select.read("by-select"), r"^(row,99,.*,)129.20,129.21", rf"\g<1>{bounds}")
    finds_in(by_select, VALUES, text, "doesn't enclose")


# --- transcripts ---

TRANSCRIPT = ["check-transcript", "small-office.csv"]
BOOKS = ["/dev/null", "journal.life", "basis.csv"]


def test_a_transcript_is_right(office: Folder) -> None:
    office.printed(*TRANSCRIPT, "transcript", *BOOKS)


def test_a_transcript_with_another_reason(office: Folder) -> None:
    office.write("wrong", changed(office.read("transcript"), "refused,taken", "refused,unknown"))
    office.finds(*TRANSCRIPT, "wrong", *BOOKS, says="and the rules say")


def test_the_transcript_of_another_journal(office: Folder) -> None:
    office.below("late").post("1,issue,1,2020-05-01,whole,30,0,60.00,1.00\n1,issue,2,2020-04-01,whole,30,0,60.00,1.00\n")
    office.finds(*TRANSCRIPT, "transcript", "/dev/null", "late/journal.life", "basis.csv",
                 says="record 1 of the journal is issue,1")


def test_nothing_is_left_of_a_whole_transcript(office: Folder) -> None:
    rest = ["rest", "small-office.csv", "journal.life", "--printed"]
    assert office.printed(*rest, "transcript") == ""
    refuses_in(office, rest, changed(office.read("transcript"), ",accepted,3$", ",accepted,4"),
               "has another position than the lines before")
    refuses_in(office, rest, office.read("transcript").split("\n", 1)[1], "answers another row than")


@pytest.mark.parametrize("more", [0, 5], ids=["at a line's end", "within a line"])
def test_a_transcript_that_was_cut(office: Folder, more: int) -> None:
    lines = office.read("transcript").splitlines(keepends=True)
    rows = sum("," in row for row in office.read("small-office.csv").splitlines())
    posted, first = (sum(",accepted," in line for line in some) for some in (lines, lines[:8]))
    office.write("cut.txt", "".join(lines[:8]) + lines[8][:more])
    ended = office.tools(*TRANSCRIPT, "cut.txt", *BOOKS)
    assert ended.status == 1
    assert re.match(rf"cut after line 8: .*holds the {first} postings .* {rows - 8} rows have no answer there; "
                    rf"{posted - first} postings more", ended.out), ended


def test_a_cut_transcript_that_was_changed(office: Folder) -> None:
    lines = office.read("transcript").splitlines(keepends=True)[:8]
    office.write("cut.txt", "".join(lines).replace("accepted,3\n", "accepted,4\n"))
    office.finds(*TRANSCRIPT, "cut.txt", *BOOKS, says="and the rules say")


# --- projections ---

PROJECTION = ["check-projection", "journal.life", "basis.csv"]


@pytest.fixture
def projected(office: Folder) -> Folder:
    office.post("1,premium,12,2025-02-28,310.00\n1,value,2025-02-28,now,1\n")
    office.write("projected", office.life("project", "2024-06-30", "20").out)
    return office


def test_a_projection_is_right(projected: Folder) -> None:
    projected.printed(*PROJECTION, "projected")


@pytest.mark.parametrize(("pattern", "to", "says"), [
    (r"^(year,2,.*),[^,]*$", r"\1,1.00", "year 2, maturities: .* lie too far apart"),
    (r"^(year,3,[^,]*,[^,]*),[^,]*,", r"\1,1870.15,", "year 3, deaths: .*doesn't enclose"),
    (r"^year,4,[^,]*,[^,]*,", "year,4,0.00,0.00,", "year 4, premiums: .*doesn't enclose"),
    (r"\A(.*),6,20$", r"\1,7,20", "there are 6 policies, and not 7"),
    (r"^unvalued,0$", "unvalued,1", "0 policies have a word, and not 1"),
    (r"\A(.*),28,6,20$", r"\1,27,6,20", "doesn't enclose"),
])
def test_a_changed_projection_is_found(projected: Folder, pattern: str, to: str, says: str) -> None:
    finds_in(projected, PROJECTION, changed(projected.read("projected"), pattern, to), says)


@pytest.mark.parametrize(("pattern", "to", "says"), [
    (r"^year,5,.*\n", "", "has 22 lines, and this one 21"),
    (r"^year,5,", "year,4,", "isn't the line of year 5"),
    (r"\A(.*),28,6,20$", r"\1,29,6,20", "29 is no position"),
])
def test_what_is_no_projection(projected: Folder, pattern: str, to: str, says: str) -> None:
    refuses_in(projected, PROJECTION, changed(projected.read("projected"), pattern, to), says)


def test_a_state_is_no_projection(projected: Folder) -> None:
    refuses_in(projected, PROJECTION, projected.life("state").out, "isn't what life project prints")


def test_the_examples_transcripts_are_right(table_q: Folder) -> None:
    """The transcripts that the pages show, which are files of the repository."""
    for name in ("first-issues", "second-day"):
        table_q.write("before.life", table_q.journal.read_bytes() if table_q.journal.exists() else b"")
        table_q.take(f"{name}.csv", f"{name}.transcript")
        assert table_q.post(table_q.read(f"{name}.csv")) == (EXAMPLES / f"{name}.transcript").read_text(encoding="ascii")
        table_q.printed("check-transcript", f"{name}.csv", f"{name}.transcript", "before.life", "journal.life", "basis.csv")
