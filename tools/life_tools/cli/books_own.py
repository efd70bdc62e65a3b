"""What these tools make of a list of books: reports, movements, statements and what is due of each, made whole and added;
and by `books_audit` flags, samples, papers and letters."""
from __future__ import annotations

import argparse
import os
import sys
from typing import Callable, Sequence

from life_tools.common.arrays import np
from life_tools.books.lists import ListedBook
from life_tools.books.runs import Outcome
from life_tools.books.sheets import MovedBook, Reported, groups_added, moved_added, plus
from life_tools.reports.due_items import MOST_DAYS, Due
from life_tools.reports.movement import CLOSING, OPENING
from life_tools.valuations.class_bases import Bases, bases_in
from life_tools.cli import books_audit
from life_tools.cli.audit import late_argument, paper_arguments
from life_tools.cli.due import listed, tell_sums
from life_tools.cli.movement import TOLD
from life_tools.cli.report import keys_in
from life_tools.common.files import demand_new, write_folder, write_text, written_whole
from life_tools.common.formats import MEASURES, bytes_of, day_in, demand, number_of, remark, rows_in
from life_tools.valuations.groups import Groups
from life_tools.common.program import program_asked
from life_tools.reports.provenance import shown
from life_tools.reports.report_sheets import movement_sheet, sheet_of
from life_tools.common.revisions import made_now
from life_tools.reports.sheet_files import lines_of, write_csvs, write_workbook
from life_tools.reports.sheet_pages import page
from life_tools.reports.sheets import HEADS, Sheet
from life_tools.reports.statement import of_books

# how many arguments follow each command, and how many of these are days
TAKES = {"report": 1, "movement": 2, "statement": 2, "due": 1, "flags": 0, "sample": 1, "papers": 1, "letters": 1}
DAYS = {"report": 1, "movement": 2, "statement": 2, "due": 1}
WITH_SHEETS = ("report", "movement", "statement")
FROM_ROWS = ("report", "sample")
# the commands to which each option belongs, by the option's name in the parser; TOLD_AS has the names as they are typed
OPTIONS = {"by": FROM_ROWS, "seed": ("sample",), "on": ("sample", "split"), "late": ("flags",), "rows": FROM_ROWS,
           "opening": ("movement", "statement", "flags"), "csv": WITH_SHEETS, "xlsx": WITH_SHEETS,
           "html": (*WITH_SHEETS, "papers"), "pdf": ("papers",), "title": (*WITH_SHEETS, "papers"),
           "bases": (*WITH_SHEETS, "sample", "papers"), "classes": (*WITH_SHEETS, "sample", "papers", "split"),
           "within": ("headroom", "due"), "today": ("headroom",), "least": ("headroom",), "recorded": ("headroom",),
           "at": ("value", "project", "state", "checkpoint", *TAKES), "basis": ("split",)}
TOLD_AS = {"opening": "from"}
# if an option belongs to so many commands, they are not listed
MOST_TOLD = 8
# how many files may follow --bases
MOST_BASES = {"movement": 2}


def add_arguments(parser: argparse.ArgumentParser) -> None:
    own = parser.add_argument_group("report, movement, statement, due, flags, sample, papers and letters")
    own.add_argument("--from", dest="opening", metavar="LIST1",
                     help="movement, statement, flags: the opening position of each book")
    own.add_argument("--by", metavar="KEYS", action="append", help="report: as there; sample: amount or reserve (reserve)")
    own.add_argument("--bases", metavar="FILE", nargs="+", help="a CSV of the bases of --classes: class, basis file in each "
                     "folder; movement: and one of those that they are changed to")
    own.add_argument("--rows", metavar="FOLDER", help="report, sample: the rows that value --parts left there as CSV")
    own.add_argument("--seed", metavar="S", help="sample: a whole number")
    late_argument(own, None)
    files = own.add_mutually_exclusive_group()
    files.add_argument("--csv", metavar="FOLDER", help="a new folder with a CSV of each sheet")
    files.add_argument("--xlsx", metavar="FILE", help="a workbook (python3-openpyxl)")
    paper_arguments(files)
    own.add_argument("--title", metavar="WORDS", help="the company, for a page or a workbook (the list's name)")


def demand_options(options: argparse.Namespace, word: str) -> None:
    """Raises Wrong if an option is given that the command would ignore."""
    for name, words in OPTIONS.items():
        belongs = f"belongs to {' and '.join(words)}" if len(words) < MOST_TOLD else f"doesn't belong to {word}"
        demand(getattr(options, name) is None or word in words, f"--{TOLD_AS.get(name, name)} {belongs}")


def measure_in(options: argparse.Namespace) -> str:
    word, measure = options.words[0], MEASURES[1] if options.mean else MEASURES[2] if options.deficiency else MEASURES[0]
    demand(not (options.mean and options.deficiency), "of --mean and --deficiency one stands")
    takes = {"report": MEASURES, "movement": MEASURES, "statement": MEASURES[:2], "sample": MEASURES[:2]}
    demand(measure in takes.get(word, MEASURES[:1]), f"--{measure} doesn't belong to {word}")
    return measure


def bases_of(options: argparse.Namespace) -> tuple[Bases, ...]:
    """Returns the bases of classes, and those to which they are changed, or () if each book has its own basis."""
    if not options.classes and not options.bases:
        return ()
    most = MOST_BASES.get(options.words[0], 1)
    demand(len(options.bases or []) <= most, f"{options.words[0]} takes {most} of --bases at most")
    return tuple(bases_in(None, options.classes, path) for path in options.bases or [None])


def words_of(options: argparse.Namespace) -> tuple[str, ...]:
    """Returns the words of each book's task."""
    word, *given = options.words
    measure, count = measure_in(options), TAKES[word]
    demand(len(given) == count or word == "due" and len(given) == 2, f"{word} takes {count} arguments")
    for day in given[:DAYS.get(word, 0)]:
        day_in(day)
    if word == "report":
        return (word, *given, measure, *(",".join(keys) for keys in keys_in(options.by)))
    if word == "due":
        asked = [*given[1:], *([options.within] if options.within else [])] or ["0"]
        within = number_of(asked[0], 0, MOST_DAYS) if len(asked) == 1 else None
        demand(within is not None, f"{' '.join(asked)}: a number of days from 0 to {MOST_DAYS} is wanted")
        return (word, given[0], str(within))
    if word in books_audit.WORDS:
        return (word, *books_audit.words_of(options, measure))
    demand(options.at and options.opening, f"{word} wants --from and --at, a list of positions each")
    return (word, *given, measure)


def rows_left(folder: str, books: Sequence[ListedBook]) -> dict[str, tuple[str, str]]:
    """Returns for each book the file of its rows and the checksum, from the list of parts."""
    path = os.path.join(folder, "parts.csv")
    found = {row.fields[0]: (row.fields[2], row.fields[3]) for row in rows_in(bytes_of(path)) if len(row.fields) == 4}
    for book in books:
        demand(book.name in found, f"{path} has no rows of {book.name}")
        demand(found[book.name][0].endswith(".csv"), f"{found[book.name][0]} isn't CSV")
    return found


# --- what is printed ---

def facts_of(options: argparse.Namespace, outcomes: Sequence[Outcome]) -> dict[str, str]:
    books = "; ".join(f"{outcome.name} at position {outcome.position}" for outcome in outcomes)
    return {"book": shown(options.title or os.path.basename(options.list)), "books": f"{len(outcomes)}: {books}",
            **bases_told(options), **program_asked().facts(), "made": made_now()}


def bases_told(options: argparse.Namespace) -> dict[str, str]:
    """Returns the basis of each class, if there are classes."""
    changes = [", ".join(f"{name} by {basis}" for name, basis in bases.basis_of_class) for bases in bases_of(options)]
    return {"classes": "; then ".join(changes)} if changes else {}


def report_sheets(options: argparse.Namespace, outcomes: Sequence[Outcome]) -> list[Sheet]:
    """Returns a table of the books, and the tables that were asked for, each for all books together."""
    made: list[Reported] = [outcome.made.what for outcome in outcomes]
    total = made[0].total
    for each in made[1:]:
        total = plus(total, each.total)
    columns = ["policies", "insured", "amount insured", *HEADS[len(total.bounds)], "words"]
    by_book: Groups = {(outcome.name,): each.total for outcome, each in zip(outcomes, made)}
    tables: list[tuple[list[str], Groups]] = [(["book"], by_book)]
    tables += [(same[0][0], groups_added([groups for _, groups in same])) for same in zip(*(each.tables for each in made))]
    for keys, groups in tables:
        demand(groups_added([{("",): each} for each in groups.values()]) == {("",): total}, f"the tables by {keys} don't add up")
    return [sheet_of(keys, groups, total, columns, bool(options.html or options.xlsx)) for keys, groups in tables]


def movement_sheets(options: argparse.Namespace, outcomes: Sequence[Outcome]) -> list[Sheet]:
    found: MovedBook = moved_added([outcome.made.what for outcome in outcomes])
    notes = [f"{words} policies of the {name} are not valued, and are in no sum"
             for name, words in zip((OPENING, CLOSING), found.words) if words]
    title = f"from {options.words[1]} to {options.words[2]}"
    return [movement_sheet(title, found.lines, found.cash, [*notes, *TOLD])]


def statement_sheets(options: argparse.Namespace, outcomes: Sequence[Outcome]) -> list[Sheet]:
    return of_books([outcome.name for outcome in outcomes], [outcome.made.what for outcome in outcomes]).sheets


SHEETS: dict[str, Callable[[argparse.Namespace, Sequence[Outcome]], list[Sheet]]] = {
    "report": report_sheets, "movement": movement_sheets, "statement": statement_sheets}


def show_sheets(options: argparse.Namespace, well: Sequence[Outcome], is_whole: bool) -> None:
    """Prints the sheets or writes them; they are written only if no book is left out."""
    sheets, facts = SHEETS[options.words[0]](options, well), facts_of(options, well)
    facts = {"of": f"{' '.join(options.words)}, {measure_in(options)}", **facts}
    title = f"{facts['book']}: {facts['of']}"
    if not (options.csv or options.xlsx or options.html):
        print("\n".join(f"{name}: {told}" for name, told in facts.items()))
        for sheet in sheets:
            sys.stdout.write("\n" + "\n".join(lines_of(sheet)) + "\n")
    elif not is_whole:
        remark("nothing is written, since a book is left out")
    elif options.csv:
        write_folder(options.csv, lambda folder: write_csvs(folder, facts, sheets))
    elif options.xlsx:
        written_whole(options.xlsx, lambda path: write_workbook(path, title, facts, sheets))
    else:
        written_whole(options.html, lambda path: write_text(path, page(title, facts, sheets)))


def show_due(well: Sequence[Outcome]) -> None:
    for place, outcome in enumerate(well):
        head, *lines = listed(outcome.made.what)
        sys.stdout.writelines([f"book,{head}"] if not place else [])
        sys.stdout.writelines(f"{outcome.name},{line}" for line in lines)
    sys.stdout.flush()
    tell_sums(Due(*(np.concatenate(columns) for columns in zip(*(outcome.made.what for outcome in well)))))


def show(options: argparse.Namespace, outcomes: Sequence[Outcome]) -> int:
    """Prints what was made of the books that did not fail.

    What is drawn from all books together is printed only if none failed.
    """
    well, word = [outcome for outcome in outcomes if outcome.made], options.words[0]
    is_whole = len(well) == len(outcomes)
    if not well or word in books_audit.OF_ALL and not is_whole:
        remark(f"nothing is reported of {len(well)} of {len(outcomes)} books")
        return 2
    if word in books_audit.WORDS:
        return books_audit.show(options, well)
    if word == "due":
        show_due(well)
    else:
        show_sheets(options, well, is_whole)
    return 0


def demand_files(options: argparse.Namespace) -> None:
    if options.csv:
        demand_new(options.csv)
    demand(not options.parts and not options.totals, "--parts and --totals belong to what life prints")
    demand(not options.workers, "--workers belongs to value and project")
    demand(not options.rows or not options.scheduler, "--rows are read here, and not on a cluster")
    demand(not options.rows or not options.classes, "--rows are by one basis, and not by classes")
