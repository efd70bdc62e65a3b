"""Reads what the files and lines of `life` consist of: days, amounts, whole numbers, rows of fields, and their limits.

Like everything in tools/, this is written from docs/reference/ alone and shares no code with the program, so that it can check
the program.
"""
from __future__ import annotations

import datetime
import io
import os
import re
import stat
import sys
from dataclasses import dataclass
from functools import lru_cache
from typing import Callable, TypeVar

FIRST_DAY = datetime.date(1900, 1, 1)
LAST_DAY = datetime.date(2199, 12, 31)
MOST_NUMBER = 2**32 - 1
MOST_CENTS = 10**10
MOST_REINSTATEMENT_CENTS = 4 * 10**10
MOST_COMMANDS = 4_000_000
MOST_SCRIPT_BYTES = 16 * 2**20
MOST_BASIS_BYTES = 4 * 2**20
MOST_BASIS_ROWS = 1000
MOST_POINTS = 2000
MOST_VALUATIONS = 16
MOST_WORKERS = 64
MOST_LANES = 8
MOST_YEARS = 131
# what stands in place of a book's name before what is of all books of a list, such as their total
ALL_BOOKS = "all"

PLANS = {1: "term", 2: "whole", 3: "endowment", 4: "limited"}
KINDS = {1: "issue", 2: "premium", 3: "alter", 4: "lapse", 5: "reinstate", 6: "claim", 7: "settle", 8: "mature", 9: "upgrade",
         10: "paidup"}
# in the order of their codes in a checkpoint, which count from 1
STATUSES = ("inforce", "lapsed", "claimed", "matured", "expired", "settled", "paidup")
# what a valuation may show; the first line of a valuation names its measure, except the default one, `terminal`
MEASURES = ("terminal", "mean", "deficiency")
# the fields that a posting has after its day
FIELDS = {
    "issue": ("plan", "age", "years", "amount", "premium"),
    "premium": ("amount",),
    "alter": ("amount", "premium"),
    "lapse": (),
    "reinstate": ("amount",),
    "claim": (),
    "settle": ("amount",),
    "mature": (),
    "paidup": ("amount",),
    # an upgrade has no policy number and no day either
    "upgrade": (),
}

Read = TypeVar("Read")


class Wrong(Exception):
    """Something is not as it must be. The text says what, and the tool ends with the status."""

    status = 2


def demand(right: object, message: str) -> None:
    if not right:
        raise Wrong(message)


def remark(message: str) -> None:
    print(message, file=sys.stderr)


def opened(path: str) -> io.BufferedReader:
    """Opens a file for reading. It refuses a pipe, for which a tool would wait, and a device, which a tool might never finish."""
    try:
        handle = os.open(path, os.O_RDONLY | os.O_NONBLOCK | os.O_CLOEXEC)
    except OSError as error:
        raise Wrong(f"{path}: {error.strerror}") from error
    kind = os.fstat(handle).st_mode
    if not stat.S_ISREG(kind) and not os.path.samestat(os.fstat(handle), os.stat(os.devnull)):
        os.close(handle)
        raise Wrong(f"{path}: {'Is a directory' if stat.S_ISDIR(kind) else 'it is a pipe or a device: save it as a file first'}")
    return os.fdopen(handle, "rb")


def bytes_of(path: str) -> bytes:
    try:
        with opened(path) as file:
            return file.read()
    except OSError as error:
        raise Wrong(f"{path}: {error.strerror}") from error


def read_whole(path: str, most: int, read: Callable[[bytes], Read]) -> Read:
    """Reads a file of at most `most` bytes and returns what `read` makes of it; an error is reported with the file's name."""
    data = bytes_of(path)
    try:
        demand(len(data) <= most, f"it has {len(data)} bytes, and at most {most} are read")
        return read(data)
    except Wrong as wrong:
        raise Wrong(f"{path}: {wrong}") from wrong


def printed_text(path: str) -> str:
    """Returns the text of a file that holds output of the program."""
    return bytes_of(path).decode("ascii", "replace")


# --- numbers, amounts, days ---

NUMBER = re.compile("0|[1-9][0-9]{0,18}")
CENTS = re.compile(r"(0|[1-9][0-9]{0,16})\.[0-9]{2}")
DAY = re.compile("[0-9]{4}-[0-9]{2}-[0-9]{2}")


def number_of(text: str, least: int, most: int) -> int | None:
    """Returns the whole number of a text of decimal digits without a sign or a leading zero, or None if it is outside the
    limits."""
    if not NUMBER.fullmatch(text):
        return None
    return int(text) if least <= int(text) <= most else None


def cents_of(text: str, most: int = MOST_CENTS) -> int | None:
    """Returns an amount with a point and two digits, from 0.01 up to `most`, in cents, or None if the text is no such amount."""
    if not CENTS.fullmatch(text):
        return None
    cents = int(text.replace(".", ""))
    return cents if 1 <= cents <= most else None


def printed_cents(text: str) -> int:
    """Returns an amount or a balance in cents; the text has the form in which the program prints it."""
    demand(re.fullmatch(r"-?(0|[1-9][0-9]{0,18})\.[0-9]{2}", text), f"{text[:40]} is no amount")
    return int(text.replace(".", ""))


def money(cents: int) -> str:
    return f"{'-' if cents < 0 else ''}{abs(cents) // 100}.{abs(cents) % 100:02}"


@lru_cache(2**17)
def day_of(text: str) -> datetime.date | None:
    """Returns the day of a text `YYYY-MM-DD` from 1900-01-01 to 2199-12-31, or None if it is no such day."""
    if not DAY.fullmatch(text):
        return None
    try:
        day = datetime.date.fromisoformat(text)
    except ValueError:
        return None
    return day if FIRST_DAY <= day <= LAST_DAY else None


def day_in(text: str) -> datetime.date:
    """Returns the day of a text and raises Wrong if it is none."""
    day = day_of(text)
    if day is None:
        raise Wrong(f"{text} is no day YYYY-MM-DD from {FIRST_DAY} to {LAST_DAY}")
    return day


# --- rows of fields ---

@dataclass(frozen=True, slots=True)
class Row:
    """A row of a file: its number, the line on which it begins in an editor (both count from 1), its fields, and its text."""

    number: int
    line: int
    fields: tuple[str, ...]
    text: str


QUOTED = re.compile('"([^"]*(?:""[^"]*)*)("?)([^,\r\n]*)')
PLAIN = re.compile("[^,\r\n]*")
LINE_END = re.compile("\r\n|\r|\n")


def text_of(data: bytes) -> str:
    """Returns a file's text without a byte order mark.

    Bytes that are not UTF-8 become surrogates, so that they can be recognized.
    """
    mark = b"\xef\xbb\xbf"
    return data[len(mark) if data.startswith(mark) else 0:].decode("utf-8", "surrogateescape")


def field_at(text: str, at: int) -> tuple[str, int]:
    """Returns the field that begins at a place of the text, and the place after it."""
    quoted = QUOTED.match(text, at)
    if not quoted:
        plain = PLAIN.match(text, at)
        assert plain
        return plain[0], plain.end()
    if not quoted[2]:
        # a quoted field without a closing quote goes on to the end of the text
        return quoted[1].replace('""', '"'), len(text)
    return quoted[1].replace('""', '"') + quoted[3], quoted.end()


def rows_in(data: bytes) -> list[Row]:
    """Returns the rows of a file as the program's library `csv` reads them: an empty line is not a row."""
    text = text_of(data)
    return quoted_rows(text) if '"' in text else plain_rows(text)


def plain_rows(text: str) -> list[Row]:
    """Returns the rows of a text without quotes, in which each row is one line."""
    lines = text.replace("\r\n", "\n").replace("\r", "\n").split("\n")
    full = ((number, line) for number, line in enumerate(lines, 1) if line)
    return [Row(row, number, tuple(line.split(",")), line) for row, (number, line) in enumerate(full, 1)]


def quoted_rows(text: str) -> list[Row]:
    at, line = 0, 1
    rows: list[Row] = []
    while at < len(text):
        ended = LINE_END.match(text, at)
        if ended:
            at, line = ended.end(), line + 1
            continue
        start = at
        fields: list[str] = []
        while True:
            field, at = field_at(text, at)
            fields.append(field)
            if text[at:at + 1] != ",":
                break
            at += 1
        rows.append(Row(len(rows) + 1, line, tuple(fields), text[start:at]))
        line += len(LINE_END.findall(text, start, at))
    return rows


def measure_of(head: list[str]) -> str | None:
    """Returns the measure of a valuation by the fields of its first line, or None if they are not the first line of a
    valuation."""
    if len(head) not in (5, 6) or head[1] != "value":
        return None
    named = head[5] if len(head) == 6 else MEASURES[0]
    return named if named in MEASURES and (len(head) == 6) == (named != MEASURES[0]) else None


def printed_rows(text: str) -> list[list[str]]:
    """Returns the lines that the program printed, split into fields; the program never prints a quote."""
    return [line.split(",") for line in text.splitlines() if line]
