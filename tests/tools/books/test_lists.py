"""Tests reports, movements, statements, what is due, flags, samples, papers and letters over a list of books.

A book is divided. Its parts together must give what the undivided book gives: by one basis and by classes, from new rows and
from rows that were kept. A bad book must be reported.
"""
import re
import shutil
from pathlib import Path

import pytest

from life_tools.journal.file import file_of
from tests.support.folders import Folder
from tests.support.lived_books import lived
from tests.support.program import Program
from tests.support.shown import cents

LIST = ["books", "books.csv"]
DAYS = ("2015-12-31", "2019-12-31")
SHEETS = ("claims", "exhibit", "premiums", "reserves", "increase")
CLASSES = ["--classes", "classes.csv", "--bases", "bases.csv"]


@pytest.fixture(scope="module")
def divided(tmp_path_factory: pytest.TempPathFactory, program: Program) -> Path:
    """A folder with the book main, its parts low and high, and the positions of two days in the book and in its parts."""
    folder = Folder(tmp_path_factory.mktemp("divided"), program)
    main = folder.below("main")
    main.take("basis.csv", "q.xml", "g.xml")
    main.write("journal.life", file_of(lived(3, 60)))
    halves = ["numbers=1-1000", "numbers=1001-", "low", "high"]
    folder.write("books.csv", folder.printed("books", "split", "main/journal.life", *halves))
    for name, day in zip(("p1", "p2"), DAYS):
        folder.write(f"{name}.csv", folder.printed(*LIST, "position-on", day))
        folder.write(name, folder.printed("position-on", day, "main/journal.life"))
    for book in ("main", "low", "high"):
        folder.write(f"{book}/three.csv", "1900-01-01,g.xml,300\n")
        folder.write(f"{book}/two.csv", "1900-01-01,q.xml,0\n2008-01-01,g.xml,250\n")
    # each number has a class, whichever book it is in; and the bases are changed to those of the second file
    folder.write("classes.csv", "1-700,smoker\n701-1400,other\n1401-3000,smoker\n")
    folder.write("bases.csv", "smoker,three.csv\nother,basis.csv\n")
    folder.write("changed.csv", "other,two.csv\nsmoker,basis.csv\n")
    return folder.path


@pytest.fixture
def books(folder: Folder, divided: Path) -> Folder:
    shutil.copytree(divided, folder.path, dirs_exist_ok=True)
    return folder


def position(books: Folder, name: str) -> str:
    return books.read(name).strip()


def rows(text: str) -> list[str]:
    found = [" ".join(line.split()) for line in text.splitlines()]
    return [line for line in found if re.search(r" -?[0-9]+\.[0-9]{2} [0-9-]", line)]


def of_both(books: Folder, of_list: list[str], of_main: list[str], has_books: bool = False) -> tuple[str, str]:
    """Returns what is printed for the undivided book and for its parts, and asserts that the rows are the same. A list's report
    may begin with a table of its books, which ends with a total."""
    single, listed = books.printed(*of_main, "--folder", "main"), books.printed(*LIST, *of_list)
    found = [line for line in rows(listed) if not line.startswith(("low ", "high "))]
    if has_books and found and found[0].startswith("total "):
        del found[0]
    assert rows(single) == found != []
    return single, listed


# --- reports, movements, statements ---


@pytest.mark.parametrize("words", ["2019-12-31 --by plan,status --by issue-year", "2019-12-31 --deficiency --by age-band"])
def test_reports(books: Folder, words: str) -> None:
    report = ["report", *words.split(), "--at"]
    _, listed = of_both(books, [*report, "p2.csv"], [*report, position(books, "p2")], has_books=True)
    assert {line.split()[0] for line in listed.splitlines() if line.startswith(("low ", "high "))} == {"low", "high"}


def test_a_report_by_rows_that_were_left(books: Folder) -> None:
    """No policy is valued again."""
    report = [*LIST, "report", "2019-12-31", "--at", "p2.csv"]
    books.printed(*LIST, "value", "2019-12-31", "--at", "p2.csv", "--parts", "rows")
    books.printed(*report, "--csv", "new-rows")
    lazy = books.stand_in('[ "$1" != value ] || exit 9\nexec "$life" "$@"')
    assert books.tools(*report, "--rows", "rows", "--csv", "left-rows", program=lazy).status == 0
    # each file names the program that was used, because it isn't the proved one
    for file in (books.path / "new-rows").iterdir():
        new, left = ([line for line in books.read(f"{folder}/{file.name}").splitlines() if not line.startswith("not the proved")]
                     for folder in ("new-rows", "left-rows"))
        assert file.name == "facts.csv" or new == left
    assert len(books.read("new-rows/book.csv").splitlines()) == 4
    ended = books.tools(*LIST, "report", "2018-12-31", "--at", "p2.csv", "--rows", "rows")
    assert ended.status == 2 and "rows/low.csv is of 2019-12-31 at position" in ended.err, ended
    books.write("rows/high.csv", books.read("rows/high.csv").replace(",row,", ",row,1", 1))
    ended = books.tools(*report, "--rows", "rows")
    assert ended.status == 2 and "rows/high.csv isn't what parts.csv says" in ended.err, ended


def test_movements(books: Folder) -> None:
    first, last = position(books, "p1"), position(books, "p2")
    single, listed = of_both(books, ["movement", *DAYS, "--from", "p1.csv", "--at", "p2.csv", "--mean"],
                             ["movement", DAYS[0], first, DAYS[1], last, "--mean"])
    assert len(rows(single)) == 12
    cash, = (line for line in single.splitlines() if line.startswith("premiums received"))
    assert cash in listed.splitlines()


def test_statements(books: Folder) -> None:
    """The sheets are equal to the cent, even if exact sums are rounded."""
    first, last = position(books, "p1"), position(books, "p2")
    books.printed("statement", DAYS[0], first, DAYS[1], last, "--folder", "main", "--csv", "single")
    books.printed(*LIST, "statement", *DAYS, "--from", "p1.csv", "--at", "p2.csv", "--csv", "listed")
    for sheet in SHEETS:
        assert books.read(f"single/{sheet}.csv") == books.read(f"listed/{sheet}.csv"), sheet
    assert re.search("^books,2: low at position [0-9]*; high at position", books.read("listed/facts.csv"), re.M)


# --- classes ---


def test_a_report_by_classes(books: Folder) -> None:
    words = ["report", "2019-12-31", "--by", "plan", "--by", "basis-row", *CLASSES]
    single, listed = of_both(books, [*words, "--at", "p2.csv"], [*words, "--at", position(books, "p2")], has_books=True)
    assert sum(line.startswith(("basis.csv 1", "three.csv 1")) for line in rows(single)) == 2
    assert "classes: smoker by three.csv, other by basis.csv" in listed.splitlines()


def test_a_movement_and_a_statement_by_classes(books: Folder) -> None:
    first, last, at = position(books, "p1"), position(books, "p2"), ["--from", "p1.csv", "--at", "p2.csv"]
    single, _ = of_both(books, ["movement", *DAYS, *at, *CLASSES, "changed.csv"],
                        ["movement", DAYS[0], first, DAYS[1], last, *CLASSES, "changed.csv"])
    assert re.search("^change of basis [1-9]", "\n".join(rows(single)), re.M), "no basis was changed"
    of_both(books, ["statement", *DAYS, *at, *CLASSES, "--mean"],
            ["statement", DAYS[0], first, DAYS[1], last, *CLASSES, "--mean"])


def refuses_papers(books: Folder, sample: str, status: int, says: str) -> None:
    """Asserts that papers on a sample end with this status, and that nothing is written."""
    ended = books.tools(*LIST, "papers", sample, "--html", "no.html")
    assert ended.status == status and says in ended.err and "Traceback" not in ended.err, ended
    assert not (books.path / "no.html").exists()


def test_papers_by_classes(books: Folder) -> None:
    books.write("drawn", books.printed(*LIST, "sample", "12", "--seed", "5", "--on", "2019-12-31", "--at", "p2.csv", *CLASSES))
    books.printed(*LIST, "papers", "drawn", "--html", "page.html", *CLASSES)
    page = books.read("page.html")
    assert "Basis basis.csv, row 1" in page and "Basis three.csv, row 1" in page
    books.refused("audit", "papers", "drawn", "--folder", "main", "--html", "no.html",
                  says="is a sample of a list: books LIST papers and")
    refuses_papers(books, "drawn", 1, "low has other rows")


@pytest.mark.parametrize(("words", "says"), [
    (["report", "2019-12-31", "--classes", "classes.csv"], "go together"),
    (["due", "2019-12-31", "--classes", "classes.csv"], "belongs to report and movement"),
    (["report", "2019-12-31", *CLASSES, "changed.csv"], "report takes 1 of --bases at most"),
])
def test_classes_that_are_refused(books: Folder, words: list[str], says: str) -> None:
    books.refused(*LIST, *words, says=says)


def test_a_policy_in_no_class(books: Folder) -> None:
    books.write("few.csv", "1-700,smoker\n")
    ended = books.tools(*LIST, "report", "2019-12-31", "--at", "p2.csv", "--classes", "few.csv", "--bases", "bases.csv")
    assert ended.status == 2 and "is in no class" in ended.err, ended


# --- flags, what is due, samples ---


def without_book(text: str, *fields: int) -> list[str]:
    """Returns the rows of a list without the book and without these fields, sorted."""
    return sorted(",".join(field for place, field in enumerate(line.split(",")[1:]) if place not in fields)
                  for line in text.splitlines()[1:])


def test_flags(books: Folder) -> None:
    """A command's position in a part is different from its position in the undivided book."""
    single = books.tools("audit", "flags", "--folder", "main", "--after", position(books, "p1"), "--late", "3")
    listed = books.tools(*LIST, "flags", "--from", "p1.csv", "--late", "3")
    assert single.status == listed.status == 1
    assert listed.out.splitlines()[0] == "book,flag,position,policy,kind,day,amount,since,why"
    found = sorted(",".join([*line.split(",")[:1], *line.split(",")[2:]]) for line in single.out.splitlines()[1:])
    assert without_book(listed.out, 1) == found and len(found) > 1


def test_what_is_due(books: Folder) -> None:
    single = books.tools("due", "2024-12-31", "main/journal.life", "--within", "40")
    listed = books.tools(*LIST, "due", "2024-12-31", "--within", "40")
    assert listed.out.splitlines()[0] == "book,what,policy,day,until,amount"
    assert without_book(listed.out) == sorted(single.out.splitlines()[1:])
    sums = [line for line in single.err.splitlines() if not line.startswith("life")]
    assert sums == [line for line in listed.err.splitlines() if not line.startswith("life")] != []


@pytest.fixture
def drawn(books: Folder) -> Folder:
    books.write("drawn", books.printed(*LIST, "sample", "12", "--seed", "5", "--on", "2019-12-31", "--at", "p2.csv"))
    return books


def walk(total: int, start: int, lines: list[str]) -> list[str]:
    """Returns the rows that a monetary unit sample of twelve draws. It steps along the units of all rows, in twelfths of a
    cent."""
    found, point, ahead = [], start, 0
    for line in lines:
        fields = line.split(",")
        ahead += cents(fields[6]) * 12 if len(fields) == 7 else 0
        if point < ahead:
            found.append(line)
        while point < ahead:
            point += total
    return found


def test_a_sample_of_all_rows(drawn: Folder) -> None:
    """Its sum and its start are those of the undivided book; the rows, from both books, are those that `walk` finds."""
    alone = drawn.printed("audit", "sample", "12", "--seed", "5", "--on", "2019-12-31", "--folder", "main", "--at",
                          position(drawn, "p2"))
    total, start = alone.splitlines()[1].split(",")[4:6]
    lines = drawn.read("drawn").splitlines()
    assert f"all,sample,reserve,12,5,{total},{start},2019-12-31,terminal" in lines
    valued = [line for line in drawn.printed(*LIST, "value", "2019-12-31", "--at", "p2.csv").splitlines() if ",row," in line]
    found = [line for line in lines if ",row," in line]
    assert found == walk(int(total), int(start), valued) and {line.split(",")[0] for line in found} == {"low", "high"}
    heads = [",".join(line.split(",")[:5]) for line in lines[1:] if ",row," not in line]
    assert heads == [f"{name},0,value,2019-12-31,{at}" for name, at in
                     (line.split(",") for line in drawn.read("p2.csv").splitlines())]


@pytest.mark.parametrize("book", ["low", "high"])
def test_what_is_drawn_of_one_book_is_worked_out(drawn: Folder, book: str) -> None:
    part = [line.split(",", 1)[1] for line in drawn.read("drawn").splitlines() if line.startswith(f"{book},")]
    drawn.write("part", "".join(f"{line}\n" for line in part))
    told = drawn.printed("check-values", f"{book}/journal.life", f"{book}/basis.csv", "part", "--sample")
    assert told.startswith(f"{sum(line.startswith('row,') for line in part)} of")


def test_papers_and_letters_on_a_sample(drawn: Folder) -> None:
    drawn.printed(*LIST, "papers", "drawn", "--html", "papers.html", "--title", "All of us")
    page, sampled = drawn.read("papers.html"), [line.split(",") for line in drawn.read("drawn").splitlines() if ",row," in line]
    assert page.count(": the same</pre>") == len(sampled)
    for name, at in (line.split(",") for line in drawn.read("p2.csv").splitlines()):
        seal = drawn.printed("seal", "--folder", name, "--at", at)
        prefix, = (line.removeprefix("front,") for line in seal.splitlines() if line.startswith("front,"))
        assert prefix in page, name
    letters = [line.split(",")[:2] for line in drawn.printed(*LIST, "letters", "drawn").splitlines()[1:]]
    assert letters == [[fields[2], fields[0]] for fields in sampled]


@pytest.mark.parametrize(("pattern", "to", "status", "says"), [
    ("^all,sample,reserve,12,5", "all,sample,reserve,12,6", 1, "seed 6 draws other rows"),
    (r"\A(.*?)^low,row,[0-9]*", r"\1low,row,1", 1, "low has other rows"),
    ("^low,0,", "all,0,", 2, "forged: "),
])
def test_papers_on_another_sample(drawn: Folder, pattern: str, to: str, status: int, says: str) -> None:
    text = re.sub(pattern, to, drawn.read("drawn"), flags=re.M | re.S if pattern.startswith(r"\A") else re.M)
    assert text != drawn.read("drawn")
    drawn.write("forged", text)
    refuses_papers(drawn, "forged", status, says)


def test_samples_that_belong_elsewhere(drawn: Folder) -> None:
    drawn.write("forged", drawn.read("drawn").splitlines()[0] + "\n")
    drawn.refused(*LIST, "letters", "forged", says="the sample is of no book")
    drawn.write("alone", drawn.printed("audit", "sample", "3", "--seed", "5", "--on", "2019-12-31", "--folder", "main", "--at",
                                       position(drawn, "p2")))
    drawn.refused(*LIST, "letters", "alone", says="is a sample of one book: audit papers and")
    drawn.write("one.csv", drawn.read("books.csv").splitlines()[0] + "\n")
    drawn.refused("books", "one.csv", "letters", "drawn", says="is of the books low, high, and the list of low")
    drawn.refused(*LIST, "letters", "drawn", "--at", "p2.csv", says="and not of --at")
    drawn.refused(*LIST, "papers", "drawn", says="papers want --html or --pdf")


def test_a_report_as_a_page(books: Folder) -> None:
    books.printed(*LIST, "report", "2019-12-31", "--at", "p2.csv", "--html", "page.html", "--title", "All of us")
    assert "low at position" in books.read("page.html") and "All of us" in books.read("page.html")


@pytest.mark.needs("python:openpyxl")
def test_a_statement_as_a_workbook(books: Folder) -> None:
    import openpyxl

    books.printed(*LIST, "statement", *DAYS, "--from", "p1.csv", "--at", "p2.csv", "--xlsx", "sheets.xlsx")
    assert len(openpyxl.load_workbook(books.path / "sheets.xlsx").sheetnames) > len(SHEETS)


# --- a bad book ---


@pytest.mark.parametrize("words", ["report 2019-12-31", "movement 2015-12-31 2019-12-31 --from p1.csv",
                                   "statement 2015-12-31 2019-12-31 --from p1.csv", "due 2019-12-31"])
def test_a_damaged_book_is_reported(books: Folder, words: str) -> None:
    books.below("high").damage(9)
    ended = books.tools(*LIST, *words.split(), "--at", "p2.csv")
    assert ended.status != 0 and "tried once more: high" in ended.err, ended
    assert re.search(f"^high,failed,{ended.status},", ended.out, re.M) and len(ended.out.splitlines()) > 3, ended


def test_nothing_is_written_without_a_book(books: Folder) -> None:
    books.below("high").damage(9)
    ended = books.tools(*LIST, "report", "2019-12-31", "--at", "p2.csv", "--html", "bad.html")
    assert ended.status != 0 and "nothing is written, since a book is left out" in ended.err, ended
    assert not (books.path / "bad.html").exists()
    ended = books.tools(*LIST, "sample", "3", "--seed", "1", "--on", "2019-12-31", "--at", "p2.csv")
    assert ended.status != 0 and "sample" not in ended.out and re.search("^high,failed,", ended.out, re.M), ended


def test_a_book_that_adds_up_to_something_else(books: Folder) -> None:
    liar = books.stand_in('[ "$1" = value ] || exec "$life" "$@"\n"$life" "$@" | sed "/^row/s/[0-9]\\$/7/"')
    ended = books.tools(*LIST, "report", "2019-12-31", "--at", "p2.csv", program=liar)
    assert ended.status == 2 and "status 2: the rows add up to" in ended.err, ended


def test_a_policy_in_two_books(books: Folder) -> None:
    books.write("twice.csv", "low,low,basis.csv\nmain,main,basis.csv\n")
    ended = books.tools("books", "twice.csv", "report", "2019-12-31")
    assert ended.status == 1 and re.search("^policy [0-9]* stands in low, main$", ended.err, re.M), ended


# an option that was ignored would give another list than the one that was asked for
@pytest.mark.parametrize(("words", "says"), [
    ("books.csv statement 2015-12-31 2019-12-31", "wants --from and --at"),
    ("books.csv statement 2015-12-31", "statement takes 2 arguments"),
    ("books.csv report 2019-12-31 --by color", "color is none of"),
    ("books.csv sample 3 --seed 1 --on 2019-12-31 --by plan", "by plan: sample takes|--by plan"),
    ("books.csv sample 3", "sample wants --on and --seed"),
    ("books.csv report 2019-12-31 --seed 4", "--seed belongs to sample"),
    ("books.csv report 2019-12-31 --from p1.csv", "--from belongs to"),
    ("books.csv report 2019-12-31 --within 31", "--within belongs to headroom and due"),
    ("books.csv due 2019-12-31 31 --within 31", "31 31: a number of days"),
    ("books.csv position-on 2019-12-31 --at p2.csv", "--at doesn't belong to position-on"),
    ("books.csv value 2019-12-31 --basis other.csv", "--basis belongs to split"),
    ("split main/journal.life others new --at p2.csv", "--at doesn't belong to split"),
    ("books.csv statement 2015-12-31 2019-12-31 --from p1.csv --at p2.csv --deficiency", "doesn't belong to statement"),
    ("books.csv report 2019-12-31 --csv low", "is there already"),
])
def test_refused(books: Folder, words: str, says: str) -> None:
    books.refused("books", *words.split(), says=says)
