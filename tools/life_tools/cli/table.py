"""Looks at a table's file before a book is valued by it, or makes one that the
program takes.

    life-tools table check FILE
        the program's verdict; which rates they are, of whom, what is strange
    life-tools table convert FILE OUT
        out of UTF-16, a DOCTYPE, CDATA, prefixes, long fractions, a factor,
        empty cells
    life-tools table round FILE OUT
        only the rates, to nine places; all else stays the same to the byte
    life-tools table join SELECT ULTIMATE OUT
        select rates and ultimate rates of two files in one

Example: life-tools table convert fetched.xml cso.xml
What is written was taken by the program before. Each change is reported on
standard error. No rate is invented: ages in steps of five are refused, with
the reason.

The status is 0 if a table is taken as it is, or made; 1 if `check` reports
something; 2 if it could not be done.
"""
from __future__ import annotations

import argparse
import os

from life_tools.scripts.explanations import CURES, WANTED, line_and_column, shown
from life_tools.tables.foreign import MOST_BYTES, document_at, document_of
from life_tools.common.formats import Wrong, demand, read_whole, remark
from life_tools.tables.conversion import FACTORS, converted, joined
from life_tools.tables.parts import lines_of
from life_tools.tables.remarks import kind_of, remarks_on, whose
from life_tools.tables.rounding import rounded_file
from life_tools.tables.basis import NotXml, read_table, root_of
from life_tools.valuations.table_verdicts import STANDS_FOR, name_for, verdict_on
from life_tools.common.files import written_whole


def arguments(parser: argparse.ArgumentParser) -> None:
    pieces = parser.add_subparsers(dest="what", metavar="WHAT", required=True)
    for name, (run_it, files, does) in PIECES.items():
        piece = pieces.add_parser(name, help=does, description=does)
        for file in files:
            piece.add_argument(file.lower(), metavar=file)
        if name in ("convert", "join"):
            piece.add_argument("--factor", choices=FACTORS, help="what a ScalingFactor is for, if the rates do not show it")
        piece.add_argument("--life", metavar="PROGRAM", help="the program to ask")
        piece.set_defaults(piece=run_it)


# --- check ---

def tell_refused(path: str, data: bytes, verdict: str) -> None:
    """Prints the program's line, the place in the file, and what `convert` would do about it."""
    _, _, place, word = verdict.split(",")
    print(f"{path} isn't taken: {verdict}")
    if word in WANTED:
        line, column = line_and_column(data, int(place))
        print(f"line {line}, byte {column} in it: {shown(data[int(place):]) or 'the file has ended'}\nwanted: {WANTED[word]}")
    if word in CURES:
        print(f"cure:   {CURES[word]}")
    try:
        changes = converted(document_of(data))[1]
    except Wrong as wrong:
        print(f"table convert can't make it one: {wrong}")
    else:
        print(f"table convert makes it one: {'; '.join(changes) or 'nothing is changed but its layout'}")


def tell_taken(path: str, data: bytes) -> int:
    """Prints what is taken from a file, and what is strange about it. Returns 1 if something is."""
    try:
        root, table = root_of(data), read_table(data, os.path.basename(path))
    except NotXml as wrong:
        print(f"{path} is taken, and no XML parser reads it: {wrong}")
        return 1
    print(f"{path} is taken: {kind_of(table)}\n{whose(root)}")
    print("\n".join(lines_of(path, table, root, lambda element: line_and_column(data, element.at)[0])))
    found = remarks_on(root, table)
    for each in found:
        print(f"look:   {each}")
    return 1 if found else 0


def run_check(options: argparse.Namespace) -> int:
    data = read_whole(options.file, MOST_BYTES, bytes)
    verdict = verdict_on(data, name_for(options.file), options.life)
    if not verdict:
        return tell_taken(options.file, data)
    tell_refused(options.file, data, verdict)
    return 1


# --- what is made ---

def write_table(path: str, data: bytes, changes: list[str], life: str | None) -> int:
    """Writes a table that the program takes, and reports what was changed."""
    verdict = verdict_on(data, STANDS_FOR, life)
    demand(not verdict, f"what would be written isn't taken: {verdict}")
    demand(not os.path.lexists(path), f"{path} is there already")

    def write(part: str) -> None:
        with open(part, "wb") as file:
            file.write(data)

    written_whole(path, write)
    for change in changes or ["nothing had to be changed"]:
        remark(change)
    return 0


def run_convert(options: argparse.Namespace) -> int:
    data, changes = read_whole(options.file, MOST_BYTES, lambda found: converted(document_of(found), options.factor))
    return write_table(options.out, data, changes, options.life)


def run_round(options: argparse.Namespace) -> int:
    data, rounding = read_whole(options.file, MOST_BYTES, rounded_file)
    return write_table(options.out, data, [rounding.line()] if rounding.count else [], options.life)


def run_join(options: argparse.Namespace) -> int:
    document = joined(document_at(options.select), document_at(options.ultimate))
    data, changes = converted(document, options.factor)
    return write_table(options.out, data, changes, options.life)


PIECES = {
    "check": (run_check, ("FILE",), "the program's own verdict on a table, and what people should look at; 1 where it isn't "
              "taken, or something is strange"),
    "convert": (run_convert, ("FILE", "OUT"), "makes a table that the program takes out of one in another form"),
    "round": (run_round, ("FILE", "OUT"), "rounds the rates to nine places, and changes nothing else"),
    "join": (run_join, ("SELECT", "ULTIMATE", "OUT"), "puts the ultimate rates of one file after the select rates of another"),
}


def run(options: argparse.Namespace) -> int:
    status: int = options.piece(options)
    return status
