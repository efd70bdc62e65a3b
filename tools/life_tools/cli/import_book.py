"""Makes a script of issues and premiums, sorted by day, from a CSV file of
another system, and a list of what could not be mapped.

    life-tools import book.csv --map map.csv --script new.csv --left left.csv

The map is a CSV file that says what each field is taken from:

"""
from __future__ import annotations

import argparse
import contextlib
import os
from typing import Iterator

from life_tools.scripts import foreign_books
from life_tools.rules.commands import words_of
from life_tools.common.cells import write_csv_file
from life_tools.scripts.foreign_books import LAST, NEAREST, Mapped, map_at, mapped
from life_tools.common.formats import MOST_LANES, MOST_SCRIPT_BYTES, Wrong, demand, number_of, remark

assert __doc__ and foreign_books.__doc__
__doc__ += foreign_books.__doc__.partition("\n\n")[2].partition("\n\n")[2] + """
The file and the map are UTF-8. Each premium is of the day on which it was due,
and of the present premium; a lapse is of the first day on which it is taken,
and a policy is made paid up on the day of its next premium. A script with
`paidup` begins with an upgrade. All lines of a policy are in one lane. A script
has at most 16 MiB: a longer one is written in parts, SCRIPT with -1, -2 and so
on before its ending, to be sent in this order. A row that cannot be mapped is
left out as a whole, and is in the file LEFT with its line and the reason; the
status is then 1.
"""


def lines_of(made: Mapped, lanes: int) -> Iterator[str]:
    lane_of = {commands[0].number: 1 + place % lanes for place, commands in enumerate(made.policies)}
    for command in made.commands():
        yield ",".join([str(lane_of.get(command.number, 1)), *words_of(command)]) + "\n"


def parts_of(lines: Iterator[str]) -> list[list[str]]:
    """Returns the lines in parts of at most the size of a script."""
    parts: list[list[str]] = [[]]
    size = 0
    for line in lines:
        if size + len(line) > MOST_SCRIPT_BYTES:
            parts.append([])
            size = 0
        parts[-1].append(line)
        size += len(line)
    return parts


def names_of(script: str, parts: int) -> list[str]:
    """Returns the script's own name, or the names of its parts, padded to one length so that `*.csv` lists them in order."""
    front, ending = os.path.splitext(script)
    width = len(str(parts))
    return [script] if parts == 1 else [f"{front}-{part:0{width}}{ending}" for part in range(1, parts + 1)]


def write(options: argparse.Namespace, made: Mapped, parts: list[list[str]]) -> list[str]:
    """Writes the parts and the list of rows that are left; if one cannot be written, all of them are removed."""
    names, written = names_of(options.script, len(parts)), []
    for name in (*names, options.left, *([options.classes] if options.classes else [])):
        demand(not os.path.lexists(name), f"{name} is there already")
    try:
        for name, part in zip(names, parts):
            with open(name, "x", encoding="ascii") as file:
                written.append(name)
                file.writelines(part)
        if options.classes:
            written.append(options.classes)
            write_csv_file(options.classes, made.classes)
        written.append(options.left)
        write_csv_file(options.left, [("line", "reason", "row"), *((row.line, reason, row.text) for row, reason in made.left)])
    except OSError as error:
        for name in written:
            with contextlib.suppress(OSError):
                os.remove(name)
        raise Wrong(f"{error.filename or options.script}: {error.strerror}") from error
    return names


def arguments(parser: argparse.ArgumentParser) -> None:
    parser.add_argument("file", metavar="FILE", help="the CSV of the other system, with a header row")
    parser.add_argument("--map", metavar="MAP.csv", required=True, help="what its columns are")
    parser.add_argument("--script", metavar="SCRIPT", required=True, help="the new script")
    parser.add_argument("--left", metavar="LEFT", required=True, help="the new list of what could not be mapped")
    parser.add_argument("--classes", metavar="CLASSES", help="the new list of the policies' classes, if the map has a class")
    parser.add_argument("--age", choices=(NEAREST, LAST),
                        help="the age at issue by the nearest or the last birthday, if the map has the day of birth (last)")
    parser.add_argument("--lanes", metavar="N", default="1", help="so many lanes take the policies in turn, 1 to 8 (1)")


def run(options: argparse.Namespace) -> int:
    lanes = number_of(options.lanes, 1, MOST_LANES)
    if lanes is None:
        raise Wrong(f"--lanes {options.lanes}: 1 to {MOST_LANES} are wanted")
    given = map_at(options.map)
    demand(options.age is None or "birth" in given.column, f"--age: {options.map} has an age, which says nothing of birthdays")
    demand(("class" in given.column) == (options.classes is not None), f"--classes and a class in {options.map} go together")
    made = mapped(options.file, given, options.age or LAST)
    parts = parts_of(lines_of(made, lanes))
    names = write(options, made, parts)
    lines, scripts = sum(map(len, parts)), ", ".join(names)
    remark(f"{len(made.policies)} policies, {lines} lines in {scripts}; {len(made.left)} rows in {options.left}")
    return 1 if made.left else 0
