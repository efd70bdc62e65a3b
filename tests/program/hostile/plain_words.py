"""Reads the arguments of a command line in a plain way (docs/reference/commands.md), and gives the shape of the output of
each."""
import datetime
import re
from dataclasses import dataclass
from typing import Any, Callable, Tuple

from life_tools.common.formats import (MOST_COMMANDS, MOST_LANES, MOST_NUMBER, MOST_WORKERS, MOST_YEARS, day_of, measure_of,
                                       number_of, printed_rows)
from life_tools.scripts.lines import Fault, read_script
from life_tools.tables.basis import NAME

OPTIONS: dict[str, tuple[str, ...]] = {
    "run": ("--basis",), "value": ("--at", "--workers", "--basis"), "project": ("--workers", "--basis"), "state": (),
    "checkpoint": (), "generate": (), "load": ()}
# options without a value; at most one of them may be given
FLAGS = {"value": ("--mean", "--deficiency")}
PLACES: dict[str, list[str]] = {
    "run": [], "value": ["day"], "project": ["day", "years"], "state": ["id"], "checkpoint": [],
    "generate": ["seed", "count", "lanes"], "load": ["seed", "count", "lanes", "workers"]}
LIMITS = {"years": (1, MOST_YEARS), "id": (1, MOST_NUMBER), "seed": (0, 2**31 - 1), "count": (1, 100_000),
          "lanes": (1, MOST_LANES),
          "workers": (1, MOST_WORKERS), "--at": (0, MOST_COMMANDS), "--workers": (1, MOST_WORKERS)}
AMOUNT = r"(0|[1-9][0-9]*)\.[0-9]{2}"


# the exit status and the text that was printed
Answer = Tuple[int, str]


@dataclass
class Meaning:
    """What is asked (`usage` if the arguments are wrong), a check whether status and text have the right shape, the policy's
    number, and the measure of a valuation."""

    mode: str
    fits: Callable[[Answer], bool]
    number: int = 0
    measure: str = "terminal"


def usage() -> Meaning:
    return Meaning("usage", lambda found: found == (2, "usage\n"))


def value_of(name: str, text: str) -> datetime.date | int | str | None:
    """Returns the value of an argument at its place or of its option, or None if it has none."""
    if name == "measure":
        return text
    if name == "day":
        return day_of(text)
    if name == "--basis":
        return text if NAME.fullmatch(text) else None
    return number_of(text, *LIMITS[name])


def split(words: list[str], mode: str) -> tuple[list[str], dict[str, str]] | None:
    """Splits the arguments into those that are no options and the options with their values; returns None if they don't fit."""
    plain, options, left = [], {}, list(words)
    while left:
        word = left.pop(0)
        if not word.startswith("-"):
            plain.append(word)
            continue
        if word in FLAGS.get(mode, ()):
            if "measure" in options:
                return None
            options["measure"] = word.lstrip("-")
            continue
        name, equals, value = word.partition("=")
        if name not in OPTIONS[mode] or name in options or not (equals or left):
            return None
        options[name] = value if equals else left.pop(0)
    return plain, options


def meaning_of(given: list[bytes], count: int) -> Meaning:
    """Returns what the arguments ask of a book in which this number of commands is accepted."""
    try:
        words = [word.decode("utf-8") for word in given]
    except UnicodeDecodeError:
        return usage()
    mode = words[0] if words else ""
    found = split(words[1:], mode) if mode in PLACES else None
    if found is None:
        return usage()
    plain, options = found
    places = PLACES[mode]
    if len(plain) != len(places) and not (mode == "state" and not plain):
        return usage()
    values = [value_of(place, word) for place, word in zip(places, plain)]
    asked = {name: value_of(name, word) for name, word in options.items()}
    if None in values or None in asked.values():
        return usage()
    return SHAPES[mode](values, asked, count)


def is_run(_: list[Any], __: dict[str, str], ___: int) -> Meaning:
    return Meaning("run", lambda found: found[0] == 0)


def is_state(values: list[int], _: dict[Any, Any], count: int) -> Meaning:
    def fits(found: Answer) -> bool:
        rows = printed_rows(found[1])
        if not values:
            return found[0] == 0 and rows[-1] == ["count", str(count)]
        entries = [row for row in rows if row[0] == "entry"]
        return found == (0, f"unknown,{values[0]}\n") or (found[0] == 0 and entries == rows[:-1]
                                                          and rows[-1][:2] == ["policy", str(values[0])])
    return Meaning("state", fits, values[0] if values else 0)


def is_checkpoint(_: list[Any], __: dict[Any, Any], count: int) -> Meaning:
    return Meaning("checkpoint", lambda found: found == (0, f"checkpoint,{count}\n"))


def is_by_another_basis(found: Answer, name: str) -> bool:
    """Returns whether the output is right for a basis other than basis.csv: no other file is there except the tables, which
    may not be a basis."""
    return found[0] == 4 and found[1] == f"badbasis,{name},0,absent\n" or name in ("q.xml", "g.xml", "m.xml", "select.xml")


def is_value(values: list[Any], asked: dict[str, Any], count: int) -> Meaning:
    position, name = asked.get("--at", count), asked.get("--basis", "basis.csv")
    measure = asked.get("measure", "terminal")

    def fits(found: Answer) -> bool:
        if name != "basis.csv":
            return is_by_another_basis(found, name)
        if position > count:
            return found == (10, f"refused,ahead,{count}\n")
        rows = printed_rows(found[1])
        is_block = rows[0][:4] == ["0", "value", str(values[0]), str(position)] and rows[-1][0] == "total"
        return bool(found[0] == 0 and is_block and measure_of(rows[0]) == measure)
    return Meaning("value", fits, measure=measure)


def is_project(values: list[Any], asked: dict[str, Any], count: int) -> Meaning:
    name = asked.get("--basis", "basis.csv")

    def fits(found: Answer) -> bool:
        if name != "basis.csv":
            return is_by_another_basis(found, name)
        rows = printed_rows(found[1])
        is_head = rows[0][:3] == ["project", str(values[0]), str(count)] and rows[0][4:] == [str(values[1])]
        return bool(found[0] == 0 and is_head and len(rows) == values[1] + 2)
    return Meaning("project", fits)


def is_generate(values: list[int], _: object, __: object) -> Meaning:
    count, lanes = values[1:]

    def fits(found: Answer) -> bool:
        lines = read_script("\n".join(found[1].split("\n", 400)[:400]).encode())
        if found[0] != 0 or found[1].count("\n") != 2 * count or isinstance(lines, Fault):
            return False
        return all(line.lane == 1 + at // 2 % lanes and line.posted.number == at // 2 + 1 for at, line in enumerate(lines))
    return Meaning("generate", fits)


def is_load(values: list[float], _: Any, __: Any) -> Any:
    def fits(found: Any) -> Any:
        line = re.fullmatch(rf"load,([0-9]+),([0-9]+),[0-9]+,{AMOUNT},{AMOUNT},[0-9]+\n", found[1])
        return found[0] == 0 and line is not None and int(line[1]) + int(line[2]) == 2 * values[1]
    return Meaning("load", fits)


SHAPES: dict[str, Callable[..., Meaning]] = {
    "run": is_run, "state": is_state, "checkpoint": is_checkpoint, "value": is_value, "project": is_project,
    "generate": is_generate, "load": is_load}
