"""An audit of a list of books: flags of each, a sample of the rows of all as one, and papers and letters on it."""
from __future__ import annotations

import argparse
import os
import sys
from typing import Callable, Sequence

from life_tools.common.arrays import np
from life_tools.books.lists import ListedBook
from life_tools.books.runs import Outcome
from life_tools.audit.drawn_samples import numbers_of
from life_tools.cli.audit import FLAG_HEADS, late_in, row_of, tell_flags, write_papers
from life_tools.common.cells import write_rows
from life_tools.audit.flags import DAYS_LATE
from life_tools.common.formats import day_in, demand, money, remark
from life_tools.audit.letters import HEADS
from life_tools.audit.listed_samples import Parts, lines_of, parts_at
from life_tools.audit.papers import NotTheSample, together
from life_tools.common.printing import demand_printer
from life_tools.common.program import program_asked
from life_tools.audit.samples import BY, asked_in, sample_from, seed_in
from life_tools.audit.sampling import draw

# commands whose result needs all books, so that there is none if a book fails
OF_ALL = ("sample", "papers", "letters")
ON_A_SAMPLE = ("papers", "letters")
WORDS = ("flags", *OF_ALL)


def by_in(options: argparse.Namespace) -> str:
    by = options.by or ["reserve"]
    demand(len(by) == 1 and by[0] in BY, f"--by {' '.join(by)}: sample takes {' or '.join(BY)}")
    return str(by[0])


def words_of(options: argparse.Namespace, measure: str) -> tuple[str, ...]:
    """Returns the words of each book's task after the first."""
    word, *given = options.words
    if word == "flags":
        return (str(late_in(options.late or str(DAYS_LATE))),)
    if word == "sample":
        asked_in(given[0])
        demand(options.on and options.seed, "sample wants --on and --seed")
        day_in(options.on), seed_in(options.seed)
        return (options.on, measure, by_in(options))
    demand(not options.at, f"{word} are of the positions of the sample, and not of --at")
    demand(word != "papers" or options.html or options.pdf, "papers want --html or --pdf")
    if options.pdf:
        demand_printer()
    return ()


def drawn_at(options: argparse.Namespace, books: Sequence[ListedBook]) -> Parts:
    """Returns each book's part of the sample for which papers or letters are made."""
    if options.words[0] not in ON_A_SAMPLE:
        return {}
    path, names = options.words[1], [book.name for book in books]
    parts = parts_at(path)
    demand(list(parts) == names, f"{path} is of the books {', '.join(parts)}, and the list of {', '.join(names)}")
    return parts


# --- what is printed ---

def show_flags(options: argparse.Namespace, well: Sequence[Outcome]) -> int:
    found = [(outcome.name, flag) for outcome in well for flag in outcome.made.what]
    write_rows(sys.stdout, [["book", *FLAG_HEADS], *([name, *row_of(flag)] for name, flag in found)])
    return tell_flags([flag for _, flag in found])


def show_sample(options: argparse.Namespace, well: Sequence[Outcome]) -> int:
    """Prints a sample drawn from the rows of all books together.

    Returns 1 if rows have a word: by their reserve they count for nothing.
    """
    of, by = [outcome.made.what for outcome in well], by_in(options)
    drawn = draw(np.concatenate([each.sizes for each in of]), asked_in(options.words[1]), seed_in(options.seed))
    begins = np.cumsum([0, *(len(each.rows) for each in of)])
    parts: Parts = {}
    for outcome, each, begin, end in zip(well, of, begins, begins[1:]):
        rows = tuple(each.rows.row(place - int(begin)) for place in drawn.places if begin <= place < end)
        parts[outcome.name] = sample_from(each.head, (), numbers_of(drawn, by), rows)
    print("\n".join(lines_of(parts)))
    words = sum(each.words for each in of)
    remark(f"{len(drawn.places)} of {int(begins[-1])} rows of {len(well)} books were drawn by {by}, of {money(drawn.total)}; "
           f"drawn for certain: {drawn.certain}; of 0, which can't be drawn: {drawn.nothing}; with a word: {words}")
    return 1 if words and by == "reserve" else 0


def show_papers(options: argparse.Namespace, well: Sequence[Outcome]) -> int:
    try:
        papers = together(options.title or os.path.basename(options.list), [outcome.made.what for outcome in well],
                          program_asked().facts())
    except NotTheSample as other:
        remark(f"wrong: {options.words[1]}: {other}")
        return 1
    return write_papers(papers, options.html, options.pdf)


def show_letters(options: argparse.Namespace, well: Sequence[Outcome]) -> int:
    write_rows(sys.stdout, [HEADS, *(row for outcome in well for row in outcome.made.what)])
    return 0


SHOWS: dict[str, Callable[[argparse.Namespace, Sequence[Outcome]], int]] = {
    "flags": show_flags, "sample": show_sample, "papers": show_papers, "letters": show_letters}


def show(options: argparse.Namespace, well: Sequence[Outcome]) -> int:
    return SHOWS[options.words[0]](options, well)
