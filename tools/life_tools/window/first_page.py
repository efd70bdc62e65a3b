"""Makes the first page: charts of the book, each a link to the list behind it, and what waits for a person."""
from __future__ import annotations

from typing import NamedTuple, Sequence

from life_tools.common.arrays import np
from life_tools.common.formats import MOST_COMMANDS
from life_tools.reports.report_pages import money
from life_tools.reports import charts
from life_tools.reports.wording import NOT_VALUED, STATUS_WORDS
from life_tools.window.asked import Asked
from life_tools.window.due_lists import DueOn, due_on
from life_tools.window.figures import MEASURE, Ahead, Figures, Totals, figures_of, told, totals_of
from life_tools.window.find_pages import policy_cell
from life_tools.window.lists import Kind, kinds_of
from life_tools.window.parts import RIGHT, Answer, Cell, Head, Page, Progress, Table, cells, heads
from life_tools.window.standing import waiting_in
from life_tools.window.views import View

NEWEST = 8
# the frame that counts the year-ends to be valued reloads after so many seconds
REFRESH = 2
COLOURS = {"inforce": "c1", "paidup": "c2", "lapsed": "c5", "claimed": "c4", "matured": "c3", "expired": "c6", "settled": "c7"}


class Picture(NamedTuple):
    """A chart with its heading, a sentence about it, and the table behind it."""

    title: str
    says: str
    svg: str
    table: Table
    is_proved: bool = False


def first_page(book: View, asked: Asked) -> Answer:
    """Returns the page with the charts of the book; the program is asked for the reserves of year-ends one by one."""
    asked.only(("at", "on"))
    on = asked.day_or_none("on")
    figures, kinds = figures_of(book, on), kinds_of(book.policies())
    totals = totals_of(book, figures.year_ends)
    past = due_on(book, on or book.today, 0)
    pictures = [picture for picture in (year_end_picture(book, figures, totals), status_picture(book, kinds),
                                        premium_picture(book, figures), claim_picture(book, figures)) if picture]
    policies, insured = sum(it.policies for it in kinds), [it for it in kinds if it.status in ("inforce", "paidup")]
    facts = [("postings", f"{book.at:,}"), ("policies ever issued", f"{policies:,}"),
             ("in force or paid up", f"{sum(it.policies for it in insured):,}"),
             ("amount insured", money(sum(it.cents for it in insured)))]
    values = {"facts": facts, "totals": totals, "pictures": pictures, "gauge": headroom_gauge(book), "on": on,
              "waits": waiting_table(book, past), "past": past.sums.get("lapse", (0, 0))[0], "past_on": past.day,
              "by_status": by_status(book, kinds), "posted": posted(book), "left": f"{MOST_COMMANDS - book.at:,}",
              "ahead": ahead_of(book, figures), "year_ends_link": book.link("year-ends", on=on)}
    return Page("overview.html", "The book", values)


class NotShown(NamedTuple):
    """A sentence about postings that no chart shows, with the link to their list; and one about those that no year-end has, with
    the link to the positions of the last year-end, or "" for both."""

    says: str
    link: str
    year_ends: str
    year_ends_link: str


def ahead_of(book: View, figures: Figures) -> NotShown | None:
    """Returns what is said about postings of days far ahead, or None if there are none."""
    it = figures.ahead
    if it is None:
        return None
    days = f"{it.first}" if it.first == it.last else f"days from {it.first} to {it.last}"
    first, last = (f"{day:%Y-%m}" for day in (it.first, it.last))
    hidden = f"the month {first} isn't" if first == last else f"the months {first} to {last} aren't"
    are = "posting is" if it.postings == 1 else "postings are"
    says = (f"{it.postings:,} {are} of {days}, far ahead of all others: {hidden} shown in the charts, which end with "
            f"{figures.months[-1]}.")
    return NotShown(says, book.link("postings", since=it.first), *without(book, figures, it))


def without(book: View, figures: Figures, it: Ahead) -> tuple[str, str]:
    """Returns a sentence about the postings that no year-end has, because they came after one of a later day, and its link."""
    if not it.after or not figures.year_ends:
        return "", ""
    says = (f"{it.after:,} {'posting' if it.after == 1 else 'postings'} of earlier days came after position {it.position:,}, "
            f"the first of these, and {'is' if it.after == 1 else 'are'} at no year-end of the charts.")
    return says, book.link("month", on=figures.year_ends[-1].day)


def year_ends(book: View, asked: Asked) -> Progress:
    """Returns the frame of the first page that says how many year-ends the program has still to value. Each time it is asked
    for, the program is asked for the next one."""
    asked.only(("at", "on"))
    on = asked.day_or_none("on")
    totals = totals_of(book, figures_of(book, on).year_ends)
    page = book.link("", on=on)
    if totals.failure:
        return Progress("Not every year-end could be valued.", "Show the reason", page)
    if totals.missing:
        return Progress(f"{totals.missing:,} {'year-end' if totals.missing == 1 else 'year-ends'} still to be valued.",
                        refresh=REFRESH)
    return Progress("All year-ends are valued.", "Show them", page)


def year_end_picture(book: View, figures: Figures, totals: Totals) -> Picture | None:
    ends = figures.year_ends
    if not ends:
        return None
    links = [book.at_position(each.position).link("report", on=each.day, measure=MEASURE) for each in ends]
    series = [charts.Series("mean reserve, upper bound", "c1", [it.upper if it else None for it in totals.found], links),
              charts.Series("amount insured", "c2", [each.insured for each in ends], links)]
    axes = charts.Axes("end of year", [str(each.day.year) for each in ends], "amount")
    says = f"Reserve and amount insured at the ends of {ends[0].day.year} to {ends[-1].day.year}"
    names = ["year-end", "position", "insured", "amount insured", "lower bound", "upper bound", NOT_VALUED]
    rows = [[Cell(str(each.day), link), *cells((each.position, each.lives, money(each.insured), *told(total)))]
            for each, total, link in zip(ends, totals.found, links)]
    return Picture("Reserve and amount insured by year-end",
                   "Each year-end at the position of its day; the columns lead to the report.",
                   charts.columns(says, axes, series), Table(says, heads(names), rows), True)


def status_picture(book: View, kinds: Sequence[Kind]) -> Picture | None:
    if not kinds:
        return None
    counts = {status: sum(it.policies for it in kinds if it.status == status) for status in STATUS_WORDS}
    parts = [(STATUS_WORDS[status], count, COLOURS[status], book.link("find", status=status)) for status, count in counts.items()
             if count]
    rows = [[Cell(name, link), *cells((count,))] for name, count, _, link in parts]
    total = [Cell("all"), *cells((sum(counts.values()),))]
    return Picture("Policies by status", "All that were ever issued; each part leads to its policies.",
                   charts.divided("Policies by status: " + ", ".join(f"{name} {count:,}" for name, count, _, _ in parts), parts),
                   Table("Policies by status", heads(("status", "policies")), rows, [total]))


def premium_picture(book: View, figures: Figures) -> Picture | None:
    if not figures.months:
        return None
    due, received = ([book.link("premiums", month=month, what=what) for month in figures.months] for what in ("due", "received"))
    series = [charts.Series("due", "c2", figures.due, due), charts.Series("received", "c1", figures.received, received)]
    says = f"Premiums due and received by month, {figures.months[0]} to {figures.months[-1]}"
    rows = [[Cell(month), Cell(money(one), one_link), Cell(money(other), other_link)] for month, one, other, one_link, other_link
            in zip(figures.months, figures.due, figures.received, due, received)]
    return Picture("Premiums due and received by month",
                   "Due: in the month in which it fell due, each premium that was paid, or is unpaid on a policy in force. "
                   "Received: in the month of its posting. A premium may be paid 90 days before it is due.",
                   charts.columns(says, charts.Axes("month", figures.months, "premiums"), series),
                   Table(says, heads(("month", "due", "received")), rows))


def claim_picture(book: View, figures: Figures) -> Picture | None:
    if not any((*figures.claims, *figures.maturities)):
        return None
    claims, maturities = ([book.link("postings", year=year, kind=kind) for year in figures.years] for kind in ("claim", "mature"))
    series = [charts.Series("claims", "c4", figures.claims, claims),
              charts.Series("maturities", "c3", figures.maturities, maturities)]
    says = f"Claims and maturities incurred by year, {figures.years[0]} to {figures.years[-1]}"
    rows = [[Cell(year), Cell(money(one), one_link), Cell(money(other), other_link)] for year, one, other, one_link, other_link
            in zip(figures.years, figures.claims, figures.maturities, claims, maturities)]
    return Picture("Claims and maturities by year", "What fell due by claims and by maturities, by the day of the posting.",
                   charts.columns(says, charts.Axes("year", figures.years, "amount"), series, are_stacked=True),
                   Table(says, heads(("year", "claims", "maturities")), rows))


def headroom_gauge(book: View) -> str:
    says = f"{book.at:,} of {MOST_COMMANDS:,} commands that a journal takes"
    return charts.gauge(says, book.at, MOST_COMMANDS, book.link("stands"), lambda count: f"{count:,}")


def waiting_table(book: View, due: DueOn) -> Table:
    """Returns what waits for a person: held rows, refusals of the last runs, and policies past their grace."""
    held, refused = waiting_in(book.listed.folder)
    lapses, cents = due.sums.get("lapse", (0, 0))
    rows = [[Cell("rows held back", book.link("held") if held else ""), Cell("Rows of scripts that a person has to look at."),
             *cells((held, ""))],
            [Cell("refusals", book.link("refusals") if refused else ""), Cell("Rows of the last five files that were refused."),
             *cells((refused, ""))],
            [Cell("past grace", book.link("day/list", what="lapse", day=due.day) if lapses else ""),
             Cell(f"In arrears on {due.day}, and the days of grace are over."), *cells((lapses, money(cents)))]]
    names = [Head("what"), Head("which", "says"), Head("count", RIGHT), Head("premiums", RIGHT)]
    return Table("What waits for a person", names, rows)


def by_status(book: View, kinds: Sequence[Kind]) -> Table:
    rows = [[Cell(it.plan, book.link("find", plan=it.plan, status=it.status)), Cell(STATUS_WORDS[it.status]),
             *cells((it.policies, money(it.cents)))] for it in kinds]
    total = sum(it.policies for it in kinds), money(sum(it.cents for it in kinds))
    return Table("Policies by plan and status", heads(("plan", "status", "policies", "amount"), 2), rows,
                 [[Cell("all"), Cell(""), *cells(total)]], kind="list")


def posted(book: View) -> Table:
    places = np.arange(book.at)[:-NEWEST - 1:-1]
    names = [Head("position", RIGHT), Head("day"), Head("posting"), Head("policy", RIGHT), Head("amount", RIGHT)]
    return Table("The newest postings", names, [
        [*cells((place + 1,)), Cell(str(it.day or "")), Cell(it.kind), policy_cell(book, it.number),
         Cell(money(it.amount) if it.amount else "")] for place, it in zip(places.tolist(), book.records().commands(places))],
                 kind="list")
