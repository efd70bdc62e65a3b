"""Makes the pages for the audit of a position: seal, flags, a sample with its papers and letters, and the file's wholeness."""
from __future__ import annotations

import csv
import datetime
import os
from collections import Counter
from typing import Sequence

from life_tools.audit.flags import FLAGS
from life_tools.common.formats import FIRST_DAY, MOST_COMMANDS, Wrong, money
from life_tools.journal.day_columns import number_at
from life_tools.reports.report_pages import all_apart
from life_tools.valuations.printed_books import row_of
from life_tools.reports.wording import STATUS_WORDS
from life_tools.window.asked import Asked, BadRequest
from life_tools.window.downloads import csv_parts
from life_tools.window.find_pages import policy_cell
from life_tools.window.parts import RIGHT, Answer, Cell, File, Head, Page, Table, cells, heads
from life_tools.window.tool_runs import ToolRun, tool_run
from life_tools.window.views import View

SIZES = ("reserve", "amount")
SIZE_WORDS = {"reserve": "the reserve's upper bound", "amount": "the amount insured"}
MEASURES = {"terminal": "terminal reserves", "mean": "mean reserves"}
SAMPLE_WORDS = ("at", "p", "count", "seed", "on", "by", "measure")
MOST_SHOWN = 500
# so many year-ends are offered for an audit
YEAR_ENDS = 4
MOST_ROWS = 10_000


# --- a seal, and the file ---

def sealed(book: View) -> ToolRun:
    words = ["seal", "--at", str(book.at), "--basis", book.basis.name]
    return tool_run(book, words, f"a seal of position {book.at:,}", False)


def verified(book: View) -> ToolRun:
    """Returns what `verify` reports about the journal in its present state."""
    try:
        stat = os.stat(book.listed.journal)
    except OSError as error:
        raise Wrong(f"the journal can't be looked at: {error.strerror}") from error
    now = stat.st_size, stat.st_mtime_ns, stat.st_ino
    return tool_run(book, ["verify", book.listed.journal], "whether the journal's file is whole", True, now)


def audit(book: View, asked: Asked) -> Answer:
    """Returns the page on which a day is chosen; everything on it is of the position of that day."""
    asked.only(("at", "p", "on", "before"))
    on, late, ends = asked.day_or_none("on"), None, year_ends(book.at_position(book.copy.newest))
    if on is not None and not asked.text("p"):
        # the day's own position, the same that the page *Month and year* shows
        late = book.history().on_day(number_at(on))
        book = book.at_position(late.first)
    before = asked.day_or_none("before")
    if before is None and on is not None:
        before = datetime.date(on.year - 1, 12, 31) if on.year > 1900 else None
    seal, day = sealed(book), on or book.last_day
    values = {"seal": seal.printed, "download": book.link("seal.txt"), "whole": whole_or_why(book), "on": on, "day": day,
              "before": before, "after": book.history().position_on(number_at(before)) if before else 0,
              "late": late, "last_link": book.newest_link("audit", on=on, p=late.last, before=before) if late else "",
              "sizes": [(each, SIZE_WORDS[each]) for each in SIZES], "measures": list(MEASURES.items()),
              "measure": measure_on(str(day)), "view": book, "year_ends": ends}
    return Page("audit.html", "Audit", values, of=book)


def year_ends(newest: View) -> list[tuple[str, str]]:
    """Returns the last ends of years that the postings reach, the latest first, each with the audit of that day."""
    last = newest.last_day
    if last is None:
        return []
    year = last.year if (last.month, last.day) == (12, 31) else last.year - 1
    days = [datetime.date(each, 12, 31) for each in range(year, max(year - YEAR_ENDS, FIRST_DAY.year - 1), -1)]
    return [(str(day), newest.link("audit", on=day)) for day in days]


def back_link(book: View, on: object) -> str:
    """Returns the address of the audit of a day at this position, from which a list or a sample was asked for."""
    return book.link("audit", on=on, p=book.at)


def measure_on(day: str) -> str:
    """Returns the measure for a day: mean reserves at the end of a calendar year, as in a statement, and otherwise terminal
    reserves."""
    return "mean" if day.endswith("-12-31") else "terminal"


def whole_or_why(book: View) -> tuple[int, str]:
    """Returns the status and what `verify` prints; if the journal is gone, the page still appears and says so."""
    try:
        run = verified(book)
    except Wrong as wrong:
        return 1, str(wrong)
    return run.status, book.copy.without_paths(run.printed) + run.remarks


def seal_file(book: View, asked: Asked) -> Answer:
    asked.only(("at", "p"))
    return File(f"seal-{book.at}.txt", "text/plain", [sealed(book).printed])


# --- flags ---

def flagged(book: View, asked: Asked) -> tuple[ToolRun, int]:
    asked.only(("at", "p", "on", "after"))
    after = asked.position("after", book.at, 0)
    words = ["audit", "flags", "--after", str(after), "--at", str(book.at)]
    return tool_run(book, words, f"postings to look at, up to {book.at:,}"), after


def csv_of(run: ToolRun) -> list[list[str]]:
    return list(csv.reader(run.printed.splitlines()))


def flags(book: View, asked: Asked) -> Answer:
    run, after = flagged(book, asked)
    rows = csv_of(run)
    names, found = (rows[0], rows[1:]) if rows else ([], [])
    numeric = ("position", "policy", "amount")
    table = Table("Postings to look at", [Head(name, RIGHT if name in numeric else "") for name in names],
                  [[flag_cell(book, name, text) for name, text in zip(names, row)] for row in found[:MOST_SHOWN]], kind="list")
    counts = Counter(row[0] for row in found)
    kinds = Table("Flags", [Head("flag"), Head("which postings have it", "says"), Head("postings", RIGHT)],
                  [cells((flag, says, counts[flag])) for flag, says in FLAGS.items()], [cells(("all", "", len(found)))])
    values = {"table": table, "count": len(found), "shown": min(len(found), MOST_SHOWN), "after": after, "kinds": kinds,
              "csv": book.link("flags.csv", after=after or ""), "back": back_link(book, asked.day_or_none("on"))}
    return Page("flags.html", "Postings to look at", values)


def flag_cell(book: View, name: str, text: str) -> Cell:
    if name == "policy" and text.isdigit():
        return policy_cell(book, int(text))
    return cells([text])[0]


def flags_csv(book: View, asked: Asked) -> Answer:
    run, _ = flagged(book, asked)
    return File(f"flags-{book.at}.csv", "text/csv", csv_parts(csv_of(run)))


# --- a sample ---

def drawn(book: View, asked: Asked) -> tuple[ToolRun, dict[str, object]]:
    """Returns a sample of the position that is shown; the same arguments always draw the same rows."""
    asked.only(SAMPLE_WORDS)
    on = asked.day_or_none("on")
    if on is None:
        raise BadRequest("Day: type the day of the valuation")
    count, seed = asked.number("count", 1, MOST_ROWS, 50), asked.number("seed", 0, MOST_COMMANDS, 1)
    by = asked.one_of("by", SIZES, SIZES[0])
    measure = asked.one_of("measure", MEASURES, measure_on(str(on)))
    words = ["audit", "sample", str(count), "--seed", str(seed), "--on", str(on), "--at", str(book.at), "--by", by]
    words += ["--basis", book.basis.name, *(["--mean"] if measure == "mean" else [])]
    run = tool_run(book, words, f"a sample of {count} by {SIZE_WORDS[by]}")
    return run, {"count": count, "seed": seed, "on": on, "by": by, "measure": measure}


def sample_rows(run: ToolRun) -> list[Sequence[str]]:
    """Returns the drawn rows as they were printed: number, status, year, bounds."""
    rows = [row_of(line, 2) for line in run.printed.splitlines() if line.startswith("row,")]
    return [(str(it.number), it.status, str(it.year), *map(money, it.bounds)) for it in rows]


def sample(book: View, asked: Asked) -> Answer:
    run, words = drawn(book, asked)
    rows = sample_rows(run)
    table = Table("The drawn rows", [Head("policy", RIGHT), Head("status"), *heads(("year", "lower bound", "upper bound"), 0)],
                  [[policy_link(book, row[0], words), Cell(STATUS_WORDS[row[1]]), *cells(row[2:])]
                   for row in rows[:MOST_SHOWN]], kind="list")
    files = [(says, book.link(name, **words)) for says, name in (
        ("The sample as a file", "sample.txt"), ("Papers to print", "papers.html"), ("Letters to print", "letters.html"),
        ("Letters as CSV", "letters.csv"))]
    values = {"table": table, "count": len(rows), "shown": min(len(rows), MOST_SHOWN), "words": words,
              "remarks": all_apart(run.remarks).splitlines(),
              "files": files, "says": SIZE_WORDS[str(words["by"])], "of": MEASURES[str(words["measure"])],
              "back": back_link(book, words["on"]), "file": named(words, "sample", "txt")}
    return Page("sample.html", f"Sample of {words['on']}", values)


def policy_link(book: View, number: str, words: dict[str, object]) -> Cell:
    measure = words["measure"] if words["measure"] != "terminal" else ""
    return Cell(number, book.link("policy", number=number, on=words["on"], measure=measure))


def sample_file(book: View, asked: Asked) -> Answer:
    run, words = drawn(book, asked)
    return File(named(words, "sample", "txt"), "text/plain", [run.printed])


def named(words: dict[str, object], what: str, ends: str) -> str:
    return f"{what}-{words['on']}-{words['seed']}.{ends}"


def papers(book: View, asked: Asked) -> Answer:
    """Returns the page of `audit papers` as a file, because it has a style of its own, which this window does not permit."""
    run, words = drawn(book, asked)
    told = ["audit", "papers", run.file("printed"), "--title", book.name, "--html", "OUT/papers.html"]
    with open(tool_run(book, told, "papers of the sample").file("papers.html"), "rb") as file:
        return File(named(words, "papers", "html"), "text/html", file.read())


def letters_page(book: View, asked: Asked) -> Answer:
    """Returns the letters as `audit letters --html` writes them."""
    run, words = drawn(book, asked)
    told = ["audit", "letters", run.file("printed"), "--title", book.name, "--html", "OUT/letters.html"]
    with open(tool_run(book, told, "letters of the sample").file("letters.html"), "rb") as file:
        return File(named(words, "letters", "html"), "text/html", file.read())


def letters(book: View, asked: Asked) -> Answer:
    run, words = drawn(book, asked)
    made = tool_run(book, ["audit", "letters", run.file("printed"), "--title", book.name], "letters of the sample")
    return File(named(words, "letters", "csv"), "text/csv", csv_parts(csv_of(made)))
