"""Works on many books as one; what each command takes is in `books_help`.

On a cluster of Dask (--scheduler) each task works on a copy of the book at its position. The lines of policies stay
where they are made, with --parts, or go.
"""
from __future__ import annotations

import argparse
import heapq
import itertools
import os

import sys
from collections import Counter
from operator import itemgetter
from typing import Iterator, Sequence

from life_tools.books.lists import ListedBook, books_at, positions_at
from life_tools.books.runs import OWN, Outcome, Parts, named
from life_tools.books.totals import total_of
from life_tools.books.work import Asked, processors, work
from life_tools.journal.day_columns import number_at
from life_tools.cli import books_audit, books_help, books_own, books_split
from life_tools.cli.books_counts import run_headroom, run_position_on
from life_tools.cli.headroom import add_arguments, wanted_of
from life_tools.common.cells import write_csv_file
from life_tools.common.files import written_whole
from life_tools.common.formats import ALL_BOOKS, MOST_WORKERS, MOST_YEARS, Wrong, day_in, demand, number_of, remark
from life_tools.journal.record_columns import columns_at

WORDS = ("value", "project", "state", "checkpoint", "position-on", "headroom", *OWN)
MOST_TOLD = 10
MOST_WAIT = 999_999


# --- the words ---

def program_words(options: argparse.Namespace) -> tuple[str, ...]:
    """Returns the arguments for the program, without those that belong to the list."""
    word, *given = options.words
    wanted = {"value": 1, "project": 2, "position-on": 1}.get(word, 0)
    demand(len(given) == wanted, f"{word} takes {wanted} arguments")
    if wanted:
        day_in(given[0])
    demand(word != "project" or number_of(given[1], 1, MOST_YEARS), f"{' '.join(given[1:])}: 1 to {MOST_YEARS} years are wanted")
    measures = [f"--{measure}" for measure in ("mean", "deficiency") if getattr(options, measure)]
    demand(not options.last or word == "position-on", "--last belongs to position-on")
    demand(not measures or word == "value", f"{' '.join(measures)} belongs to value")
    demand(len(measures) < 2, "of --mean and --deficiency one stands")
    demand(options.workers is None or word in ("value", "project"), "--workers belongs to value and project")
    demand(options.workers is None or number_of(options.workers, 1, MOST_WORKERS), f"--workers: 1 to {MOST_WORKERS} are wanted")
    return (word, *given, *measures, *(["--workers", options.workers] if options.workers else []))


def processes_in(options: argparse.Namespace) -> int:
    processes = number_of(options.processes, 1, MOST_WORKERS) if options.processes else processors()
    if processes is None:
        raise Wrong(f"--processes {options.processes}: 1 to {MOST_WORKERS} are wanted")
    return processes


def asked_of(options: argparse.Namespace, books: list[ListedBook]) -> Asked:
    is_own = options.words[0] in OWN
    words = books_own.words_of(options) if is_own else program_words(options)
    firsts = positions_at(options.opening, books) if options.opening else {}
    rows = books_own.rows_left(options.rows, books) if options.rows else {}
    positions = positions_at(options.at, books) if options.at else {}
    drawn = books_audit.drawn_at(options, books) if is_own else {}
    positions.update((name, part.position) for name, part in drawn.items())
    demand(not positions or words[0] != "checkpoint", "a checkpoint is of the whole journal")
    demand(not options.scheduler or words[0] != "checkpoint", "a checkpoint is made where the book is, and not on a cluster")
    demand(not options.send or options.scheduler, "--send belongs to --scheduler")
    demand(not options.sqlite or (options.parts and words[0] == "value"), "--sqlite is a form of the --parts of value")
    processes = processes_in(options)
    parts = Parts(os.path.abspath(options.parts), "sqlite" if options.sqlite else "csv") if options.parts else None
    are_kept, wait = not (parts or options.totals or options.scheduler), number_of(options.wait, 0, MOST_WAIT)
    if wait is None:
        raise Wrong(f"--wait {options.wait}: seconds from 0 to {MOST_WAIT} are wanted")
    bases = books_own.bases_of(options) if is_own else ()
    return Asked(words, positions, processes, options.scheduler, options.send, parts, are_kept, wait, firsts, rows, bases,
                 drawn)


# --- what is printed ---

def print_lines(front: str, lines: Sequence[Sequence[str]]) -> None:
    sys.stdout.writelines(f"{front},{','.join(line)}\n" for line in lines)


def print_book(outcome: Outcome) -> None:
    """Prints the lines of a book: all of them if they were kept, otherwise those that are added up, or that the book failed."""
    if outcome.text is None:
        print_lines(outcome.name, [["failed", str(outcome.status), outcome.line]])
    elif outcome.rows:
        sys.stdout.flush()
        with open(outcome.rows, "rb") as file:
            named(outcome.name, file, sys.stdout.buffer)
    else:
        first = [outcome.text.first] if outcome.text.first else []
        print_lines(outcome.name, first + outcome.text.lines)


def forget_rows(outcomes: list[Outcome]) -> None:
    for outcome in outcomes:
        if outcome.rows:
            os.remove(outcome.rows)


def print_total(outcomes: list[Outcome]) -> None:
    texts = [outcome.text for outcome in outcomes if outcome.text is not None]
    count = [str(len(texts)), str(len(outcomes))]
    if not texts:
        print_lines(ALL_BOOKS, [["nothing", *count]])
        return
    *lines, last = total_of(texts)
    print_lines(ALL_BOOKS, [*lines, [*last, *count]])


def print_all(outcomes: list[Outcome]) -> int:
    for outcome in outcomes:
        print_book(outcome)
    print_total(outcomes)
    return 0


def print_own(options: argparse.Namespace, outcomes: list[Outcome]) -> int:
    """Prints the books that failed, and what these tools made of all others together."""
    for outcome in outcomes:
        if outcome.status:
            print_book(outcome)
    return books_own.show(options, outcomes)


def write_list_of_parts(asked: Asked, outcomes: list[Outcome]) -> None:
    if not asked.parts:
        return
    os.makedirs(asked.parts.folder, exist_ok=True)
    rows = [(it.name, *it.part) for it in outcomes if it.part]
    written_whole(os.path.join(asked.parts.folder, "parts.csv"), lambda path: write_csv_file(path, rows))


def overlapping(outcomes: list[Outcome]) -> list[int]:
    """Returns the places of the books that have a policy number with the same first bytes as one of another book."""
    begun = Counter(each for outcome in outcomes for each in outcome.beginnings)
    return [place for place, outcome in enumerate(outcomes) if any(begun[each] > 1 for each in outcome.beginnings)]


def numbered(book: ListedBook, outcome: Outcome, place: int) -> Iterator[tuple[int, int]]:
    """Returns the numbers of the policies of a book at its position, each with the book's place."""
    return zip(columns_at(book.journal, outcome.position).policies(), itertools.repeat(place))


def tell_twice(books: list[ListedBook], outcomes: list[Outcome]) -> int:
    """Reports the policy numbers that are in two books, and returns how many there are."""
    merged = heapq.merge(*(numbered(books[place], outcomes[place], place) for place in overlapping(outcomes)))
    found = 0
    for number, group in itertools.groupby(merged, key=itemgetter(0)):
        places = [place for _, place in group]
        if len(places) > 1:
            found += 1
            if found <= MOST_TOLD:
                remark(f"policy {number} stands in {', '.join(books[place].name for place in places)}")
    if found > MOST_TOLD:
        remark(f"and {found - MOST_TOLD} more numbers stand in two books")
    return found


def tell_left_out(options: argparse.Namespace, asked: Asked) -> bool:
    """Reports that the lines of policies are left out, because a cluster does not send them back; returns whether it did."""
    are_lines = asked.words[0] in ("value", "state")
    if not are_lines or asked.parts or asked.are_rows_kept or options.totals:
        return False
    remark("the lines of policies are left out: --parts FOLDER has them written, and --totals asks for the totals alone")
    return True


def run_program(options: argparse.Namespace, books: list[ListedBook]) -> int:
    asked = asked_of(options, books)
    outcomes = work(asked, books)
    try:
        status = print_own(options, outcomes) if asked.is_own else print_all(outcomes)
        sys.stdout.flush()
    finally:
        forget_rows(outcomes)
    write_list_of_parts(asked, outcomes)
    failed = [outcome.status for outcome in outcomes if outcome.status]
    twice = tell_twice(books, outcomes)
    lacks = tell_left_out(options, asked)
    return failed[0] if failed else 1 if twice or lacks or any(outcome.doubt for outcome in outcomes) else status


def arguments(parser: argparse.ArgumentParser) -> None:
    books_help.use_for(parser)
    parser.add_argument("list", metavar="LIST", help="the list of books")
    parser.add_argument("words", metavar="WORDS", nargs="+", help=" or ".join(WORDS))
    parser.add_argument("--last", action="store_true", help="position-on: the position of the last command of the day or before")
    parser.add_argument("--at", metavar="LIST2", help="a position for each book: rows of a name and a position")
    parser.add_argument("--mean", action="store_true", help="value by mean reserves")
    parser.add_argument("--deficiency", action="store_true", help="value with the minimum reserves")
    parser.add_argument("--workers", metavar="N", help="threads of each valuation or projection")
    parser.add_argument("--processes", metavar="N", help="books at once on this machine (as many as processors)")
    parser.add_argument("--scheduler", metavar="ADDRESS", help="a scheduler of Dask, as tcp://HOST:PORT")
    parser.add_argument("--wait", metavar="SECONDS", default="0", help="how long to wait for a book in use (0)")
    parser.add_argument("--send", action="store_true", help="send the workers what they need, since they don't see the folders")
    parser.add_argument("--parts", metavar="FOLDER", help="write the lines of each book to a file in this folder, on its machine")
    parser.add_argument("--sqlite", action="store_true", help="parts as SQLite files and not as CSV")
    add_arguments(parser)
    books_split.add_arguments(parser)
    books_own.add_arguments(parser)
    parser.add_argument("--totals", action="store_true", help="leave out the lines of policies")


def word_in(options: argparse.Namespace) -> str:
    """Returns the command for the list.

    `headroom` may precede the list, and `audit` may precede the commands that it has for one book.
    """
    if options.list == "headroom":
        options.list, options.words = options.words[0], ["headroom", *options.words[1:]]
    if options.words[0] == "audit" and set(options.words[1:2]) & set(books_audit.WORDS):
        del options.words[0]
    return str(options.words[0])


def run(options: argparse.Namespace) -> int:
    if options.list == "split":
        books_own.demand_options(options, "split")
        return books_split.run(options)
    word = word_in(options)
    demand(word in WORDS, f"{word} is none of {', '.join(WORDS)}")
    books_own.demand_options(options, word)
    if word in OWN:
        books_own.demand_files(options)
    books = books_at(options.list)
    if word in ("position-on", "headroom"):
        words, processes = program_words(options), processes_in(options)
        if word == "headroom":
            return run_headroom(books, wanted_of(options), processes)
        return run_position_on(books, number_at(day_in(words[1])), options.last, processes)
    return run_program(options, books)
