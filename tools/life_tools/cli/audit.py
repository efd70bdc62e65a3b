"""What an auditor looks at: doubtful postings, a sample of the policies, and
papers and letters on it.

    life-tools audit flags [--after P0] [--at P]
        postings that are rare or doubtful, for people to look at, as CSV
    life-tools audit sample N --seed S --on DAY > SAMPLE
        a monetary unit sample of a valuation's rows
    life-tools audit papers SAMPLE --html FILE | --pdf FILE
        a page to print for each policy of a sample
    life-tools audit letters SAMPLE [--html FILE]
        what a letter of confirmation says of each policy, as CSV or to print

Example: life-tools audit sample 25 --seed 7 --on 2025-12-31 > sample
`life-tools audit flags --help` and so on show the arguments of each.
"""
from __future__ import annotations

import argparse
import os
import sys
from collections import Counter
from typing import Sequence

from life_tools.valuations.class_bases import Bases, basis_arguments, bases_in, class_arguments
from life_tools.journal.copied_folder import JOURNAL
from life_tools.audit.drawn_samples import sample_of
from life_tools.cli.report import add_title
from life_tools.common.cells import write_rows
from life_tools.common.files import write_text, written_whole
from life_tools.cli.why import position_in
from life_tools.audit.flags import DAYS_LATE, FLAGS, Flag, flags_at
from life_tools.common.formats import Wrong, day_in, demand, money, number_of, remark
from life_tools.audit.letters import HEADS, letter_page, letters_of
from life_tools.audit.paper_pages import page
from life_tools.audit.papers import NotTheSample, Papers, papers_of
from life_tools.common.printing import demand_printer, write_pdf
from life_tools.reports.provenance import book_name
from life_tools.audit.samples import BY, MEASURED, Sample, asked_in, sample_at, seed_in, text_of

MOST_DAYS = 36_500
FLAG_HEADS = ("flag", "position", "policy", "kind", "day", "amount", "since", "why")


def folder_arguments(parser: argparse.ArgumentParser) -> None:
    parser.add_argument("--folder", metavar="FOLDER", default=".", help="where journal.life, the basis and the tables lie (.)")


# --- flags ---

def late_argument(parser: argparse._ActionsContainer, default: str | None) -> None:
    parser.add_argument("--late", metavar="DAYS", default=default, help="flags: a maturity is reported if it is more than so "
                        f"many days after the end ({DAYS_LATE})")


def flags_arguments(parser: argparse.ArgumentParser) -> None:
    parser.add_argument("--after", metavar="P0", help="only postings after this position, such as that of the last year-end")
    parser.add_argument("--at", metavar="P", help="only the first P postings (all)")
    late_argument(parser, str(DAYS_LATE))
    folder_arguments(parser)
    parser.set_defaults(piece=run_flags)


def late_in(text: str) -> int:
    days = number_of(text, 0, MOST_DAYS)
    if days is None:
        raise Wrong(f"--late {text}: 0 to {MOST_DAYS} days are wanted")
    return days


def row_of(flag: Flag) -> list[str]:
    numbers = [str(flag.position), str(flag.policy), flag.kind, str(flag.day), money(flag.cents), str(flag.since)]
    return [flag.flag, *numbers, flag.why]


def tell_flags(found: Sequence[Flag]) -> int:
    counts = Counter(each.flag for each in found)
    remark("; ".join(f"{flag}: {counts[flag]}" for flag in FLAGS))
    return 1 if found else 0


def run_flags(options: argparse.Namespace) -> int:
    days, after = late_in(options.late), position_in(options.after) or 0
    flags = flags_at(os.path.join(options.folder, JOURNAL), position_in(options.at), days)
    found = [each for each in flags if each.position > after]
    write_rows(sys.stdout, [FLAG_HEADS, *map(row_of, found)])
    sys.stdout.flush()
    return tell_flags(found)


# --- a sample ---

def sample_arguments(parser: argparse.ArgumentParser) -> None:
    parser.add_argument("count", metavar="N", help="how many rows are wished for; fewer come where rows are above the interval")
    parser.add_argument("--seed", metavar="S", required=True, help="a whole number: the same seed draws the same rows")
    parser.add_argument("--on", metavar="DAY", required=True, help="the day of the valuation")
    parser.add_argument("--at", metavar="P", help="the position (the newest)")
    parser.add_argument("--by", choices=BY, default="reserve", help="the size of a row: the amount insured on the day, or the "
                        "reserve's upper bound (reserve)")
    basis_arguments(parser)
    parser.add_argument("--mean", dest="measure", action="store_const", const=MEASURED[1], default=MEASURED[0],
                        help="by mean reserves")
    parser.add_argument("--life", metavar="PROGRAM", help="the program to ask")
    folder_arguments(parser)
    parser.set_defaults(piece=run_sample)


def run_sample(options: argparse.Namespace) -> int:
    """Draws and prints a sample.

    The status is 1 if rows have a word: by their reserve they count for nothing, although the policies are insured.
    """
    asked, seed, on = asked_in(options.count), seed_in(options.seed), day_in(options.on)
    bases, at = bases_in(options.basis, options.classes, options.bases), position_in(options.at)
    drawn = sample_of(options.folder, on, asked, seed, options.by, bases, at, options.measure, options.life)
    sys.stdout.write(text_of(drawn.sample))
    sys.stdout.flush()
    for line in drawn.told():
        remark(line)
    return 1 if drawn.words and options.by == "reserve" else 0


# --- papers and letters on a sample ---

def paper_arguments(parser: argparse._ActionsContainer) -> None:
    """Adds the arguments for the files that papers are written to."""
    parser.add_argument("--html", metavar="FILE", help="one page, which needs no network")
    parser.add_argument("--pdf", metavar="FILE", help="the page as PDF, by Chromium or LibreOffice, where one is there")


def papers_arguments(parser: argparse.ArgumentParser) -> None:
    parser.add_argument("sample", metavar="SAMPLE", help="what audit sample printed")
    paper_arguments(parser.add_mutually_exclusive_group(required=True))
    class_arguments(parser)
    add_title(parser)
    parser.add_argument("--life", metavar="PROGRAM", help="the program to ask")
    folder_arguments(parser)
    parser.set_defaults(piece=run_papers)


def write_papers(papers: Papers, html: str | None, pdf: str | None) -> int:
    """Writes the papers, and reports each row that is not right, with status 1."""
    text = page(papers)
    written_whole(pdf or html or "", lambda path: write_pdf(path, text) if pdf else write_text(path, text))
    for number in papers.wrong:
        remark(f"wrong: the printed row of policy {number} isn't what was worked out")
    return 1 if papers.wrong else 0


def bases_of(sample: Sample, options: argparse.Namespace) -> Bases:
    """Returns the bases of a sample: the one that it names, or with classes those given by --classes and --bases."""
    is_told = options.classes or len(sample.bases) == 1
    demand(is_told, f"{options.sample} is by classes: --classes and --bases are wanted")
    return bases_in(None if options.classes else sample.bases[0], options.classes, options.bases)


def run_papers(options: argparse.Namespace) -> int:
    """Writes the papers of a sample, or nothing if the seed draws other rows from this book."""
    sample = sample_at(options.sample)
    bases = bases_of(sample, options)
    if options.pdf:
        demand_printer()
    try:
        papers = papers_of(sample, options.folder, bases, options.life, options.title)
    except NotTheSample as other:
        remark(f"wrong: {options.sample}: {other}")
        return 1
    return write_papers(papers, options.html, options.pdf)


def letters_arguments(parser: argparse.ArgumentParser) -> None:
    parser.add_argument("sample", metavar="SAMPLE", help="what audit sample printed")
    parser.add_argument("--html", metavar="FILE", help="the letters as pages to print, one for each policy, in place of the CSV")
    add_title(parser)
    folder_arguments(parser)
    parser.set_defaults(piece=run_letters)


def run_letters(options: argparse.Namespace) -> int:
    book = book_name(options.folder, options.title)
    rows = letters_of(sample_at(options.sample), os.path.join(options.folder, JOURNAL), book)
    if options.html:
        written_whole(options.html, lambda path: write_text(path, letter_page(rows, book, {})))
    else:
        write_rows(sys.stdout, [HEADS, *rows])
    return 0


def arguments(parser: argparse.ArgumentParser) -> None:
    pieces = parser.add_subparsers(dest="what", metavar="PIECE", required=True)
    for name, (tell, does) in PIECES.items():
        tell(pieces.add_parser(name, help=does, description=does))


PIECES = {
    "flags": (flags_arguments, "postings that are rare or doubtful, for people to look at; the status is 1 where there are any: "
              "claims within a year of a reinstatement, claims on the very day of the policy's posting before them, claims that "
              "are settled to the cent on their own day, reinstatements on the last day of the right, maturities long after the "
              "end"),
    "sample": (sample_arguments, "a monetary unit sample of a valuation's rows"),
    "papers": (papers_arguments, "a page to print for each policy of a sample: its row worked out, its postings, its basis row"),
    "letters": (letters_arguments, "what a letter of confirmation says of each policy of a sample, as CSV or as pages to print"),
}


def run(options: argparse.Namespace) -> int:
    status: int = options.piece(options)
    return status
