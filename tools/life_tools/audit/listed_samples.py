"""Reads and writes a sample that is drawn from the valuations of many books together, as text with a part for each book.

    all,sample,BY,COUNT ASKED FOR,SEED,TOTAL IN CENTS,START,DAY,MEASURE
    NAME,0,value,DAY,POSITION,POLICIES[,mean]       for each book; its drawn rows follow it
    NAME,row,..
"""
from __future__ import annotations

from dataclasses import replace
from typing import Iterator

from life_tools.common.formats import ALL_BOOKS, MEASURES, demand, read_whole
from life_tools.audit.samples import (HEAD, MOST_SAMPLE_BYTES, Numbers, Sample, head_in, head_of, is_listed, is_sample,
                                      numbers_in, numbers_told, rows_in, sample_from, text_of_row)

# the part of each book, by its name
Parts = dict[str, Sample]


def lines_of(parts: Parts) -> Iterator[str]:
    """Yields the text of a sample that has a part for each book."""
    first = next(iter(parts.values()))
    yield ",".join([ALL_BOOKS, *numbers_told(first), str(first.on), first.measure])
    for name, part in parts.items():
        yield f"{name},{head_of(part)}"
        yield from (f"{name},{text_of_row(row)}" for row in part.rows)


def parts_in(text: str) -> Parts:
    """Returns the parts of a text that `books LIST sample` printed; the text does not say which bases were used."""
    first, *lines = text.splitlines() or [""]
    fields = first.split(",")[1:]
    demand(not is_sample([line.split(",") for line in (first, *lines[:1])]), "it is a sample of one book: audit papers and "
           "audit letters take it")
    is_one = is_listed(first) and len(fields) == HEAD + 2 and fields[-1] in MEASURES
    demand(is_one, "that is no sample that books LIST sample prints")
    numbers, blocks = numbers_in(fields[:HEAD]), blocks_in(lines)
    parts = {book: part_of(block, numbers) for book, block in blocks.items()}
    for book, part in parts.items():
        is_same = [str(part.on), part.measure] == fields[HEAD:]
        demand(is_same, f"the rows of {book} are of another day or measure than {first}")
    demand(any(part.rows for part in parts.values()), "the sample has no row")
    return parts


def blocks_in(lines: list[str]) -> dict[str, list[str]]:
    """Returns the lines of each book without its name; the lines of one book follow one another."""
    blocks: dict[str, list[str]] = {}
    for line in lines:
        name, _, rest = line.partition(",")
        if rest.startswith("0,value,"):
            demand(name not in blocks and name != ALL_BOOKS, f"the name {name} stands twice")
            blocks[name] = []
        demand(blocks and name == next(reversed(blocks)), f"{line[:200]} does not follow the first line of its book")
        blocks[name].append(rest)
    demand(blocks, "the sample is of no book")
    return blocks


def part_of(block: list[str], numbers: Numbers) -> Sample:
    head = head_in(block[0])
    return sample_from(head, (), numbers, rows_in(block[1:], head.policies))


def parts_at(path: str) -> Parts:
    return read_whole(path, MOST_SAMPLE_BYTES, lambda data: parts_in(data.decode("ascii", "replace")))


def with_bases(part: Sample, bases: tuple[str, ...]) -> Sample:
    return replace(part, bases=bases)
