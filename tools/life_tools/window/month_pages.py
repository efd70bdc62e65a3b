"""Makes the pages of months and years: positions of days, reports and movements, each with the printed total that it must
equal."""
from __future__ import annotations

import datetime
import re

from life_tools.journal.day_columns import number_at
from life_tools.common.arrays import np
from life_tools.common.formats import MEASURES
from life_tools.reports.provenance import provenance
from life_tools.reports.report_pages import all_apart, apart, money
from life_tools.common.revisions import revision
from life_tools.reports.sheets import BY_BOUNDS, HEADS
from life_tools.reports import charts
from life_tools.reports.wording import KEY_WORDS, NOT_VALUED, NO_VALUE, group_text
from life_tools.window import pictures
from life_tools.window.asked import Asked, BadRequest
from life_tools.window.downloads import csv_parts, workbook
from life_tools.valuations.class_bases import measure_words
from life_tools.window.audit_pages import MEASURES as RESERVES, measure_on
from life_tools.window.views import View
from life_tools.window.parts import Answer, Cell, File, Head, Page, Table, cells, heads
from life_tools.window.policy_pages import MEASURE_WORDS
from life_tools.window.tool_runs import ToolRun, tool_run
from life_tools.window.valuations import Valuation, kept_valuation, words_of
from life_tools.reserves.worked_rows import WORDS as WHY_NO_VALUE

REPORT_WORDS = ("at", "on", "p", "measure")
MOVEMENT_WORDS = ("at", "on1", "p1", "on2", "p2", "measure")
XLSX = "application/vnd.openxmlformats-officedocument.spreadsheetml.sheet"
NAMED = 20


# --- which day, and at which position ---

def month(book: View, asked: Asked) -> Answer:
    """Returns the page on which a day is chosen, with its position and what can be asked of both."""
    asked.only(("at", "on", "before"))
    on = asked.day("on", year_end_before(book.last_day))
    before = asked.day("before", datetime.date(max(on.year - 1, 1900), 12, 31))
    positions, opening = (book.history().on_day(number_at(day)) for day in (on, before))
    values = {"on": on, "before": before, "positions": positions, "opening": opening,
              "measures": [(each, MEASURE_WORDS[each]) for each in MEASURES], "statement_measure": measure_on(str(on)),
              "statement_measures": list(RESERVES.items()), "bases": book.other_bases()}
    return Page("month.html", "Month and year", values)


def year_end_before(last: datetime.date | None) -> datetime.date:
    """Returns the end of the year before the last day that has a posting, or before the present day."""
    return datetime.date(max((last or datetime.date.today()).year - 1, 1900), 12, 31)


# --- a report ---

def asked_valuation(book: View, asked: Asked, *more: str) -> Valuation:
    asked.only((*REPORT_WORDS, *more))
    on = asked.day_or_none("on")
    if on is None:
        raise BadRequest("Day: type the day of the valuation")
    return kept_valuation(book, on, asked.one_of("measure", MEASURES, "terminal"))


def column_names(it: Valuation) -> list[str]:
    return ["policies", "insured", "amount insured", *HEADS[len(it.total)], "words"]


def group_table(book: View, it: Valuation, key: str) -> Table:
    groups = it.groups[key]
    most = max((each.bounds[-1] for each in groups.values()), default=0)
    rows = []
    for name, sums in groups.items():
        link = book.link("group", on=it.on, measure=it.measure, by=key, group=",".join(name))
        says = group_text((key,), name)
        rows.append([Cell(says, link), *(Cell(apart(text), link) for text in sums.cells()),
                     Cell("", picture=pictures.bar(sums.bounds[-1], most))])
    names = (KEY_WORDS[key], *column_names(it)[:-1], NOT_VALUED)
    return Table(f"By {KEY_WORDS[key]}", [*heads(names), Head("", "bar")], rows,
                 [[Cell("added up"), *cells(it.whole.cells()), Cell("")], printed_row(it)])


def printed_row(it: Valuation) -> list[Cell]:
    """Returns the row of the total that the program printed; the program prints no amount insured."""
    return [Cell("printed by life"), *cells((it.policies, "", "", *map(money, it.total), it.words, ""))]


def report(book: View, asked: Asked) -> Answer:
    it = asked_valuation(book, asked)
    words = {"on": it.on, "measure": it.measure if it.measure != "terminal" else ""}
    missing = [(NO_VALUE[word], word, WHY_NO_VALUE[word], count, numbers) for word, count, numbers in words_of(it, NAMED)]
    later = int(np.count_nonzero(book.policies().issued > number_at(it.on)))
    values = {"it": it, "facts": facts(it), "later": later, "compare": book.other_bases(),
              "tables": [group_table(book, it, key) for key in it.groups],
              "missing": missing, "balances": [(name, money(cents)) for name, cents in it.balances.items()],
              "insured": it.whole.insured,
              "csv": book.link("report.csv", **words), "xlsx": book.link("report.xlsx", **words),
              "other": [(MEASURE_WORDS[each], book.link("report", on=it.on, measure=each))
                        for each in MEASURES if each != it.measure]}
    return Page("report.html", f"Valuation on {it.on}", values)


def facts(it: Valuation) -> list[tuple[str, str, bool]]:
    """Returns the main figures, and whether the program printed each of them."""
    found = [("policies", f"{it.policies:,}", True), ("amount insured", money(it.whole.amount), False)]
    found += [(name, money(cents), True) for name, cents in zip(HEADS[len(it.total)], it.total)]
    return [*found, (f"policies {NOT_VALUED}, in no sum", f"{it.words:,}", True)]


def file_name(it: Valuation) -> str:
    return f"valuation-{it.on}-at-{it.position}{'' if it.measure == 'terminal' else '-' + it.measure}"


def report_rows(it: Valuation) -> list[list[str]]:
    """Returns the rows as `report --csv` writes them."""
    rows = [["by", "group", *column_names(it)]]
    for key, groups in it.groups.items():
        rows += [[key, ",".join(name), *sums.cells()] for name, sums in groups.items()]
    return [*rows, ["all", "total", *it.whole.cells()]]


def report_csv(book: View, asked: Asked) -> Answer:
    it = asked_valuation(book, asked)
    return File(f"{file_name(it)}.csv", "text/csv", csv_parts(report_rows(it)))


def report_xlsx(book: View, asked: Asked) -> Answer:
    """Returns a workbook with a sheet for each grouping, and one that says what the workbook is of."""
    it = asked_valuation(book, asked)
    sheets = [("about", about(book, it))]
    for key, groups in it.groups.items():
        rows = [[KEY_WORDS[key], *column_names(it)[:-1], NOT_VALUED],
                *([group_text((key,), name), *sums.cells()] for name, sums in groups.items())]
        sheets.append((KEY_WORDS[key], [*rows, ["total", *it.whole.cells()]]))
    return File(f"{file_name(it)}.xlsx", XLSX, workbook(sheets))


def about(book: View, it: Valuation) -> list[list[str]]:
    return [["what", "is"], ["book", book.name], ["day", str(it.on)], ["position", str(it.position)],
            ["measure", it.measure], ["basis", f"{book.basis.name}, with its tables SHA-256 {book.basis.sum}"],
            ["printed by life", ", ".join(map(money, it.total))],
            *origin_of(book)]


def origin_of(book: View) -> list[list[str]]:
    """Returns rows about the journal, the program, the tools and the time."""
    facts = provenance(book.desk, book.at, book.name)
    return [[name, says] for name, says in facts.items() if name != "book"] + [["tools", revision()]]


# --- a movement ---

def asked_movement(book: View, asked: Asked, *more: str) -> tuple[ToolRun, list[str]]:
    """Runs `movement` and returns the run with its arguments; it ends with 1 and prints nothing if the lines do not add up."""
    asked.only((*MOVEMENT_WORDS, *more))
    days = [asked.day_or_none(name) for name in ("on1", "on2")]
    if None in days:
        raise BadRequest("Opening day, Closing day: type both")
    first, last = asked.position("p1", book.copy.newest, book.at), book.at
    if first > last:
        raise BadRequest(f"Opening position: {first} is after the closing position, {last}")
    words, measure = [str(days[0]), str(first), str(days[1]), str(last)], asked.one_of("measure", RESERVES, "terminal")
    title = f"the movement from {words[0]} at {first:,} to {words[2]} at {last:,}"
    told = ["movement", *words, *measure_words(measure), "--basis", book.basis.name, "--policies", "OUT/policies.csv"]
    return tool_run(book, told, f"{title}, {RESERVES[measure]}", False), [*words, measure]


MOVED = re.compile(r"(.*?) {2,}([0-9]+) {2,}(-?[0-9.]+) {2,}(-?[0-9.]+)")


def moved_rows(run: ToolRun) -> tuple[list[list[str]], list[str]]:
    """Returns the lines of the analysis, and the notes that follow them."""
    rows, said = [], []
    for line in run.printed.splitlines()[2:]:
        parts = MOVED.fullmatch(line)
        if parts:
            rows.append([parts[1].strip(), *parts.groups()[1:]])
        else:
            said.append(line.strip().replace("`", ""))
    return rows, [all_apart(each) for each in said if each]


def movement(book: View, asked: Asked) -> Answer:
    run, words = asked_movement(book, asked)
    closing_day = asked.day_or_none("on2")
    assert closing_day is not None
    on1, p1, on2, p2, measure = words
    valuation = kept_valuation(book, closing_day, measure)
    rows, said = moved_rows(run)
    opening, *between, closing = rows
    told: dict[str, object] = {"on1": on1, "p1": p1, "on2": on2, "p2": p2, "measure": measure}
    before, after = book.at_position(int(p1)), book
    links = [before.link("report", on=on1, measure=measure), *(book.link("moved", **told, line=row[0]) for row in between),
             after.link("report", on=on2, measure=measure)]
    moved = [[Cell(row[0], link), *(Cell(apart(text), link) for text in row[1:])] for row, link in zip(rows, links)]
    table = Table("What moved", heads(("line", "policies", *(column.name for column in BY_BOUNDS))), moved[:-1],
                  [moved[-1], [Cell("printed by life"), *cells((valuation.policies, *map(money, valuation.total)))]])
    added = [sum(cents_of(row[place]) for row in rows[:-1]) for place in (2, 3)]
    # the axis names the reserve, so its two ends do not repeat the word
    axes = charts.Axes("line of the movement", [row[0].removesuffix(" reserve") for row in rows], "reserve")
    says = f"The reserve from {opening[3]} on {on1} to {closing[3]} on {on2}, line by line"
    moves = [cents_of(row[3]) for row in between]
    picture = charts.waterfall(says, axes, cents_of(opening[3]), moves, cents_of(closing[3]), links)
    values = {"table": table, "said": said, "on1": on1, "p1": int(p1), "on2": on2, "p2": int(p2), "picture": picture,
              "of": RESERVES[measure],
              "adds_up": added == [cents_of(closing[2]), cents_of(closing[3])] == list(valuation.total),
              "added": [*map(money, added)], "closing": [apart(closing[2]), apart(closing[3])],
              "opening_report": links[0], "closing_report": links[-1],
              "csv": book.link("movement.csv", **told), "xlsx": book.link("movement.xlsx", **told),
              "policies": book.link("movement-policies.csv", **told)}
    return Page("movement.html", f"Movement to {on2}", values)


def cents_of(text: str) -> int:
    return int(text.replace(".", ""))


def movement_table(run: ToolRun) -> list[list[str]]:
    return [["line", "policies", *(column.name for column in BY_BOUNDS)], *moved_rows(run)[0]]


def movement_csv(book: View, asked: Asked) -> Answer:
    run, words = asked_movement(book, asked)
    return File(f"movement-{words[0]}-{words[2]}.csv", "text/csv", csv_parts(movement_table(run)))


def movement_xlsx(book: View, asked: Asked) -> Answer:
    run, words = asked_movement(book, asked)
    of_what = [["what", "is"], ["book", book.name], ["from", f"{words[0]} at position {words[1]}"],
               ["to", f"{words[2]} at position {words[3]}"], ["measure", words[4]], *origin_of(book)]
    return File(f"movement-{words[0]}-{words[2]}.xlsx", XLSX, workbook([("about", of_what), ("movement", movement_table(run))]))


def movement_policies(book: View, asked: Asked) -> Answer:
    run, words = asked_movement(book, asked)
    with open(run.file("policies.csv"), "rb") as file:
        return File(f"movement-{words[0]}-{words[2]}-policies.csv", "text/csv", file.read())
