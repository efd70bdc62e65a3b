"""Reads what the program prints of a book, and adds it up over many books, exactly and in whole cents."""
from __future__ import annotations

import os
from dataclasses import dataclass
from typing import IO, Callable, Sequence

from life_tools.common.formats import Wrong, demand, measure_of, money, printed_cents

# a printed line to add up: ADDED says where its numbers begin, CENTS and COUNT how a number is read and written
Line = list[str]
CENTS: tuple[Callable[[str], int], Callable[[int], str]] = printed_cents, money
COUNT: tuple[Callable[[str], int], Callable[[int], str]] = int, str
ADDED = {"total": 1, "year": 2, "unvalued": 1, "balance": 2, "count": 1, "checkpoint": 1}
# the first fields of all lines other than those of policies
KINDS = {b"0", *(kind.encode() for kind in ADDED), b"project"}
# the first field of the last line of each command's output
LAST = {"value": "total", "project": "unvalued", "state": "count", "checkpoint": "checkpoint"}


def way_of(line: Line, place: int) -> tuple[Callable[[str], int], Callable[[int], str]]:
    """Returns how a field is read and written: at the end of some lines there is a number of policies or commands."""
    is_count = line[0] in ("unvalued", "count", "checkpoint") or line[0] == "total" and place == len(line) - 1
    return COUNT if is_count else CENTS


def added(lines: Sequence[Line]) -> Line:
    """Returns the sum of lines of the same kind."""
    first = lines[0]
    start = ADDED[first[0]]
    demand(all(len(line) == len(first) and line[:start] == first[:start] for line in lines), "lines of several kinds")
    return [*first[:start], *(way_of(first, place)[1](sum(way_of(line, place)[0](line[place]) for line in lines))
                              for place in range(start, len(first)))]


def head_of(word: str, line: Line) -> tuple[Line, int]:
    """Returns from the first line what must be the same for all books, and the position."""
    if word == "value":
        measure = measure_of(line)
        demand(measure, f"{','.join(line)} is no first line of a valuation")
        return [line[1], line[2], *line[5:]], int(line[3])
    demand(line[:1] == ["project"] and len(line) == 5, f"{','.join(line)} is no first line of a projection")
    return [line[0], line[1], line[4]], int(line[2])


@dataclass
class Text:
    """What is added up of a book's text: its first line (None if that line is added up as well), head, position, and lines."""

    first: Line | None
    head: Line
    position: int
    lines: list[Line]


# the beginnings of the lines of policies, of which there may be millions
POLICY_LINES = {"value": b"row,", "state": b"policy,"}
# all other lines together are shorter than this
MOST_BYTES = 1 << 16


def other_lines(word: str, file: IO[bytes]) -> list[Line]:
    """Returns the lines of a text without those of policies: the first line, and the last ones."""
    file.seek(0)
    first = file.readline(MOST_BYTES)
    start = max(file.tell(), file.seek(0, os.SEEK_END) - MOST_BYTES)
    file.seek(start)
    begins = POLICY_LINES.get(word, b"\n")
    lines = [line for line in (first, *file.read().splitlines()) if line and not line.startswith(begins)]
    return [line.decode("ascii", "replace").rstrip("\n").split(",") for line in lines if line.partition(b",")[0] in KINDS]


def text_in(word: str, file: IO[bytes]) -> Text:
    """Returns what a text has to add up, and raises Wrong unless it ends as it should."""
    lines = other_lines(word, file)
    last = lines[-1] if lines else []
    demand(last[:1] == [LAST[word]], f"it ended with {','.join(last) or 'nothing'}")
    summed = [line for line in lines if line[0] in ADDED]
    if word in ("state", "checkpoint"):
        return Text(None, [word], int(last[1]), summed)
    head, position = head_of(word, lines[0])
    return Text(lines[0], head, position, summed)


def total_of(texts: Sequence[Text]) -> list[Line]:
    """Returns the lines of all books together, and raises Wrong unless they are of the same kind."""
    demand(all(text.head == texts[0].head and len(text.lines) == len(texts[0].lines) for text in texts),
           "the books printed texts of several kinds")
    try:
        return [added(lines) for lines in zip(*(text.lines for text in texts))]
    except ValueError as error:
        raise Wrong(f"a printed line has no number where one is due: {error}") from error
