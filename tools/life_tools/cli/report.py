"""A valuation's rows joined with their policies, and added up exactly by groups.

    life-tools report 2022-12-31 --at 11 --by plan
    life-tools report 2022-12-31 --at 11 --by plan,status --xlsx december.xlsx
    life-tools report 2022-12-31 --at 11 --mean --bundle year-end.html --rows 20

A group is one or several of plan, status, issue-year, age-band and basis-row;
each --by is a table. The rows are those that the program prints of the book at
the position. Every table adds up to the printed total; otherwise nothing is
written and the status is 1. Amounts insured are those in force or paid up;
ages are those at issue. Policies issued after ON are counted if the position
has them; their reserve is 0.
"""
from __future__ import annotations

import argparse
import sys
from typing import Sequence

from life_tools.valuations.class_bases import Bases, basis_arguments, bases_in
from life_tools.cli.why import measure_arguments, position_in
from life_tools.common.arrays import np
from life_tools.common.formats import Wrong, day_in, demand, remark
from life_tools.journal.day_columns import number_at
from life_tools.valuations.groups import KEYS, Groups, Sums, demand_whole, grouped, whole
from life_tools.valuations.printed_columns import ColumnValuation
from life_tools.valuations.joined_rows import read_both
from life_tools.audit.bundles import bundle
from life_tools.audit.drawn_samples import sample_of
from life_tools.audit.papers import papers_of
from life_tools.audit.samples import MEASURED, asked_in, seed_in
from life_tools.reports.provenance import provenance, with_program
from life_tools.reports.report_files import Tables, lines_of, write_csv
from life_tools.reports.report_pages import page
from life_tools.reports.report_sheets import sheet_of
from life_tools.reports.sheet_files import warning_rows, write_workbook
from life_tools.reports.sheets import HEADS
from life_tools.reports.wording import keys_text
from life_tools.common.files import write_text, written_whole

DEFAULT = ("plan", "status", "issue-year")


def arguments(parser: argparse.ArgumentParser) -> None:
    parser.add_argument("on", metavar="ON", help="the day of the valuation")
    parser.add_argument("--at", metavar="P", help="the position (the newest)")
    parser.add_argument("--by", metavar="KEYS", action="append", help=f"{', '.join(KEYS)}; several with commas (each of "
                                                                      f"{', '.join(DEFAULT)})")
    basis_arguments(parser)
    parser.add_argument("--folder", metavar="FOLDER", default=".", help="where journal.life, the basis and the tables lie (.)")
    parser.add_argument("--life", metavar="PROGRAM", help="the program to ask")
    files = parser.add_mutually_exclusive_group()
    files.add_argument("--csv", metavar="FILE", help="the tables as CSV")
    files.add_argument("--xlsx", metavar="FILE", help="the tables as a workbook (python3-openpyxl)")
    files.add_argument("--html", metavar="FILE", help="one page with pictures, which needs no network")
    files.add_argument("--bundle", metavar="FILE", help="one page to hand over: the tables with charts, sampled rows worked out, "
                       "the seal, and how to check it all")
    parser.add_argument("--rows", metavar="N", default="10", help="bundle: how many rows are asked for (10)")
    parser.add_argument("--seed", metavar="S", default="1", help="bundle: the seed by which they are drawn (1)")
    add_title(parser)
    measure_arguments(parser)


def add_title(parser: argparse.ArgumentParser) -> None:
    parser.add_argument("--title", metavar="WORDS", help="company and book, for a page or a workbook (the folder's name)")


def keys_in(given: list[str] | None) -> list[list[str]]:
    """Returns the keys of each table."""
    tables = [text.split(",") for text in given] if given else [[key] for key in DEFAULT]
    for keys in tables:
        for key in keys:
            demand(key in KEYS, f"{key} is none of {', '.join(KEYS)}")
        demand(len(set(keys)) == len(keys), f"{','.join(keys)} has a key twice")
    return tables


def facts_of(options: argparse.Namespace, position: int) -> dict[str, str]:
    """Returns the facts that say where a page or a workbook comes from."""
    return provenance(options.folder, position, options.title, options.life)


def demand_bundle(options: argparse.Namespace) -> None:
    """Raises Wrong, before the program is asked for anything, if a bundle cannot be made."""
    if options.bundle:
        asked_in(options.rows), seed_in(options.seed)
        demand(options.measure in MEASURED, "--bundle has terminal or mean reserves, of which rows can be sampled")
        demand(not options.classes, "--bundle is of one basis, and not of classes")


def write_bundle(options: argparse.Namespace, valuation: ColumnValuation, total: Sums, tables: Tables, heads: Sequence[str],
                 bases: Bases) -> None:
    """Writes the page to hand over; all of it is of the position of the valuation."""
    told = facts_of(options, valuation.position)
    papers = None
    if valuation.total[-1]:
        drawn = sample_of(options.folder, valuation.on, asked_in(options.rows), seed_in(options.seed), "reserve", bases,
                          valuation.position, options.measure, options.life)
        papers = papers_of(drawn.sample, options.folder, bases, options.life, options.title)
    title = f"{told['book']}: valuation on {valuation.on} at position {valuation.position}, {valuation.measure}"
    text = bundle(title, told, valuation, total, tables, heads, papers, bases.names)
    written_whole(options.bundle, lambda path: write_text(path, text))


def run(options: argparse.Namespace) -> int:
    day_in(options.on)
    demand_bundle(options)
    wanted = keys_in(options.by)
    bases = bases_in(options.basis, options.classes, options.bases)
    valuation, rows = read_both(options.folder, position_in(options.at), options.life, options.on, bases, options.measure)
    total = whole(rows)
    later = int(np.count_nonzero(rows.policies.issued > number_at(valuation.on)))
    if later:
        remark(f"policies issued after {valuation.on}, which are counted as the position has them, with a reserve of 0: {later}")
    tables: list[tuple[list[str], Groups]] = [(keys, grouped(rows, keys)) for keys in wanted]
    try:
        for keys, groups in tables:
            demand_whole(groups, keys, valuation)
    except Wrong as wrong:
        remark(f"wrong: {wrong}")
        return 1
    heads = HEADS[len(valuation.total)]
    columns = ["policies", "insured", "amount insured", *heads, "words"]
    title = f"Valuation on {valuation.on} at position {valuation.position}"
    if options.csv:
        warnings = warning_rows(facts_of(options, valuation.position))
        written_whole(options.csv, lambda path: write_csv(path, tables, total, columns, warnings))
    elif options.xlsx:
        sheets = [sheet_of(keys, groups, total, columns, True) for keys, groups in tables]
        told = {"valuation": f"{title}, {valuation.measure}", **facts_of(options, valuation.position)}
        written_whole(options.xlsx, lambda path: write_workbook(path, f"{told['book']}: {title}", told, sheets))
    elif options.html:
        checks = ["The rows add up to the printed total.", "Each row is that of the policy that the state prints in its place.",
                  *(f"The groups by {keys_text(keys)} add up to the printed total." for keys, _ in tables)]
        told = facts_of(options, valuation.position)
        text = page(f"{told['book']}: {title}", told, valuation, total, tables, heads, checks)
        written_whole(options.html, lambda path: write_text(path, text))
    elif options.bundle:
        write_bundle(options, valuation, total, tables, heads, bases)
    else:
        print(with_program(f"{valuation.on} at position {valuation.position}, {valuation.measure}", options.life))
        for keys, groups in tables:
            sys.stdout.write("\n" + "\n".join(lines_of(keys, groups, total, columns)) + "\n")
    return 0
