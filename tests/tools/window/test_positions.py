"""Tests which position a page shows: its header and footer name it, its address is tied to it, and the audit of a day is of
that day's position."""
import csv
import io
import re
import shutil
from pathlib import Path

import pytest

from tests.support.folders import Folder
from tests.support.windows import Answer, Window

pytestmark = pytest.mark.needs("python:flask")
YEAR_END = "2022-12-31"


def position_of(lived: Folder, day: str) -> int:
    return int(lived.tools("position-on", day, "journal.life").out)


def named(answer: Answer, tag: str) -> int:
    part = re.search(rf"<{tag}>.*?</{tag}>", answer.page, re.S)
    assert part
    found = re.search(r"position ([0-9,]+)", re.sub("<[^>]*>", " ", part[0]))
    assert found, part[0]
    return int(found[1].replace(",", ""))


@pytest.mark.parametrize("path", ["/1/report?on={day}&p={p}", "/1/movement?on1={day}&p1=10&on2={day}&p2={p}",
                                  "/1/statement?on1={day}&p1=10&on2={day}&p2={p}", "/1/audit?on={day}",
                                  "/1/sample?on={day}&p={p}&count=5", "/1/find?at={p}", "/1/policy?number={number}&at={p}"])
def test_header_and_footer_name_the_position_of_the_page(window: Window, lived: Folder, path: str) -> None:
    position = position_of(lived, YEAR_END)
    number = next(line.split(",")[2] for line in lived.printed("read", "journal.life").splitlines() if ",issue," in line)
    answer = window.page(path.format(day=YEAR_END, p=position, number=number))
    assert named(answer, "header") == named(answer, "footer") == position


def test_any_day_leads_to_its_position(window: Window, lived: Folder) -> None:
    for day in (YEAR_END, "2020-02-29", "1999-06-30"):
        position = position_of(lived, day)
        answer = window.page(f"/1/moment?asof={day}&page=find")
        assert named(answer, "header") == position
        policies = [line for line in lived.printed("at", str(position), "state").splitlines() if line.startswith("policy,")]
        assert f"{len(policies):,} polic" in answer.text, day


def test_the_audit_is_of_the_days_position(window: Window, lived: Folder) -> None:
    """Sample, papers, letters, seal and flags of a year-end are those that the tools make for its position."""
    position = position_of(lived, YEAR_END)
    page = window.page(f"/1/audit?on={YEAR_END}")
    hidden = re.findall(r'name="at" value="([^"]*)"', page.page)
    assert {each.split("-")[0] for each in hidden[:2]} == {str(position)}
    at = f"at={hidden[0]}&on={YEAR_END}&count=12&seed=7"
    wanted = lived.printed("audit", "sample", "12", "--seed", "7", "--on", YEAR_END, "--at", str(position), "--mean")
    assert window.page(f"/1/sample.txt?{at}").body.decode() == wanted
    lived_sample = lived.path.parent / "sample"
    lived_sample.write_text(wanted)
    rows = list(csv.DictReader(io.StringIO(window.page(f"/1/letters.csv?{at}").body.decode())))
    told = list(csv.DictReader(io.StringIO(lived.printed("audit", "letters", str(lived_sample)))))
    assert rows == told and {row["book"] for row in rows} == {"office"}
    assert max(row["last posting"] for row in rows) <= YEAR_END
    papers = window.page(f"/1/papers.html?{at}").text
    assert f"Audit papers: office on {YEAR_END} at position {position}" in papers and "desk" not in papers
    assert window.page(f"/1/letters.html?{at}").page.count("<section ") == len(rows)
    assert window.page(f"/1/seal.txt?at={hidden[0]}").body.decode() == lived.printed("seal", "--at", str(position))
    flags = window.page(f"/1/flags.csv?at={hidden[0]}").body.decode()
    assert flags == lived.tools("audit", "flags", "--at", str(position)).out
    early = lived.tools("audit", "flags", "--at", "600").out
    assert window.page("/1/flags.csv?at=600").body.decode() == early != flags


def test_a_letter_of_each_drawn_policy_is_of_the_position(window: Window, lived: Folder) -> None:
    newest = window.page(f"/1/letters.csv?on={YEAR_END}&count=30").body.decode()
    earlier = window.page(f"/1/letters.csv?on={YEAR_END}&count=30&p={position_of(lived, YEAR_END)}").body.decode()
    assert newest != earlier and all(row["last posting"] <= YEAR_END for row in csv.DictReader(io.StringIO(earlier)))


@pytest.fixture
def copied(lived: Folder, tmp_path: Path) -> Folder:
    shutil.copytree(lived.path, tmp_path / "office")
    return Folder(tmp_path / "office", lived.program)


def link_of(answer: Answer, page: str) -> str:
    return next(each for each in answer.links() if re.search(rf"/1/{page}\?at=", each))


def test_a_changed_basis_is_told_and_changes_no_old_page(tools: Path, copied: Folder) -> None:
    with Window(tools, copied.path) as window:
        address = f"{link_of(window.page('/1/'), 'month').replace('/1/month', '/1/report')}&on={YEAR_END}"
        before = window.page(address).rows("By plan")
        copied.write("basis.csv", copied.read("other.csv"))
        told = window.page(address)
        sums = re.search(r"had the SHA-256 ([0-9a-f]{64}); now they have ([0-9a-f]{64})", told.text)
        assert sums and sums[1] != sums[2] and told.rows("By plan") == before
        window.page("/1/newest")
        after = window.page(f"/1/report?on={YEAR_END}")
        assert after.rows("By plan") != before and "changed" not in after.text
        old = window.page(address)
        assert old.rows("By plan") == before and "by the basis basis.csv as it was" in old.text
        footer = re.search(r"its tables SHA-256 ([0-9a-f]{64})", old.text)
        assert footer and footer[1] == sums[1]


def test_a_table_that_changes_and_a_basis_that_is_no_text_are_told(tools: Path, copied: Folder) -> None:
    """Both are reported on each page, and a page that was made before stays as it is."""
    with Window(tools, copied.path) as window:
        before = window.page("/1/find").rows("Policies")
        table = copied.read("g.xml")
        copied.write("g.xml", table.replace("0.00", "0.01", 1))
        assert "or a table of it changed" in window.page("/1/find").text
        copied.write("g.xml", table)
        assert "changed" not in window.page("/1/find").text
        for content in (b"\xff\xfe,,\0\n", b"\"" * 100, b""):
            copied.write("basis.csv", content)
            answer = window.page("/1/find")
            assert "or a table of it changed" in answer.text and answer.rows("Policies") == before
        (copied.path / "basis.csv").unlink()
        assert "or a table of it changed" in window.page("/1/find").text


def test_a_journal_that_grew_is_the_same_one(tools: Path, copied: Folder) -> None:
    with Window(tools, copied.path) as window:
        before = window.page("/1/find").rows("Policies")
        copied.post("1,issue,4000000000,2025-01-02,term,40,20,1000.00,50.00\n")
        assert "The book has grown: 1 posting after this position" in window.page("/1/find").text
        address = link_of(window.page("/1/"), "find")
        assert "4000000000" in window.page("/1/newest").text
        for path in ("/1/find", "/1/stands", address):
            assert "no longer the one" not in window.page(path).text, path
        assert window.page(address).rows("Policies") == before


def test_a_changed_journal_is_told_with_both_sums(tools: Path, copied: Folder) -> None:
    with Window(tools, copied.path) as window:
        before = window.page("/1/find").rows("Policies")
        content = bytearray(copied.journal.read_bytes())
        content[17 + 65 * 100 + 30] ^= 1
        copied.journal.write_bytes(content)
        answer = window.page("/1/find")
        assert re.search(r"SHA-256 [0-9a-f]{64}; now they have [0-9a-f]{64}", answer.text) and answer.rows("Policies") == before
        copied.journal.unlink()
        assert "now it is shorter, or it is gone" in window.page("/1/find").text


def test_a_page_of_what_isnt_there_any_more_says_so(window: Window) -> None:
    answer = window.get("/1/find?at=10-0123456789ab")
    assert answer.status == 410 and "the page can't be made any more" in answer.text


def test_a_year_end_statement_has_mean_reserves(window: Window, lived: Folder) -> None:
    position = position_of(lived, YEAR_END)
    words = f"on1=2021-12-31&p1=10&on2={YEAR_END}&p2={position}"
    lead = r"Mean reserves, as for a statement of a calendar year-end\. From 2021-12-31"
    assert re.search(lead, window.page(f"/1/statement?{words}").text)
    assert "Terminal reserves, asked for by name." in window.page(f"/1/statement?{words}&measure=terminal").text
    chosen = window.page(f"/1/month?on={YEAR_END}").page
    assert '<option value="mean" selected>mean reserves</option>' in chosen


def test_policies_issued_after_the_day_are_told(window: Window) -> None:
    answer = window.page("/1/report?on=2010-06-30")
    assert re.search(r"[0-9,]+ policies of this position are issued after 2010-06-30", answer.text)


def test_a_new_user_finds_the_year_ends_and_the_meaning_of_flags(window: Window, lived: Folder) -> None:
    """The audit offers the last year-ends, of whatever position it is; what flags mean stands before the postings; an empty list
    of flags is a file, too; amounts of the drawing are written as all others."""
    for path in ("/1/audit", "/1/audit?at=700"):
        page = window.page(path)
        link = next(each for each in page.links() if "/audit?" in each and f"on={YEAR_END}" in each)
        chosen = window.page(link)
        assert named(chosen, "header") == position_of(lived, YEAR_END), path
        assert f"the book at the end of {YEAR_END}" in chosen.text
    flags = window.page("/1/flags?after=0&at=700").page
    assert flags.index("which postings have it") < flags.index("Postings to look at</caption>")
    last = position_of(lived, YEAR_END)
    empty = window.page(f"/1/flags?at={last}&after={last}")
    assert "0 postings after position" in empty.text
    file = window.page(next(each for each in empty.links() if "/flags.csv?" in each)).body.decode()
    assert file.splitlines() == lived.tools("audit", "flags", "--at", str(last), "--after", str(last)).out.splitlines()
    total = lived.printed("at", str(last), "value", YEAR_END, "--mean").splitlines()[-1].split(",")[2]
    assert f"of {int(total[:-3]):,}{total[-3:]} in all" in window.page(f"/1/sample?on={YEAR_END}&p={last}&count=5").text
