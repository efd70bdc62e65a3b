"""Writes many rows of whole numbers and amounts as CSV at once: the digits are columns of bytes, of which some are left out."""
from __future__ import annotations

from typing import Sequence

from life_tools.common.arrays import Array, Cents, np

ZERO, MINUS, POINT, COMMA, LINE_END = (np.uint8(ord(letter)) for letter in "0-.,\n")
# an amount has at least one digit before its point, and two after it
LEAST = 3


class Letters:
    """Columns of letters with a row for each line, and which of the letters are written."""

    def __init__(self, rows: int) -> None:
        self.rows = rows
        self.letters: list[Array] = []
        self.written: list[Array] = []

    def add(self, letters: Array, written: Array) -> None:
        self.letters.append(letters)
        self.written.append(written)

    def add_letter(self, letter: np.uint8, written: Array | None = None) -> None:
        """Adds the same letter to each row, or to the rows for which `written` is true."""
        where = np.ones((self.rows, 1), bool) if written is None else written[:, None]
        self.add(np.full((self.rows, 1), letter, np.uint8), where)

    def add_number(self, numbers: Array) -> None:
        self.add(*digits_of(numbers, 1))

    def add_amount(self, cents: Cents) -> None:
        letters, written = digits_of(np.abs(cents), LEAST)
        self.add_letter(MINUS, cents < 0)
        self.add(letters[:, :-2], written[:, :-2])
        self.add_letter(POINT)
        self.add(letters[:, -2:], written[:, -2:])

    def add_texts(self, texts: Sequence[str], places: Array) -> None:
        """Adds to each row one of a few texts of ASCII letters."""
        widest = max(map(len, texts))
        table = np.array([list(text.encode("ascii").ljust(widest)) for text in texts], np.uint8).reshape(len(texts), widest)
        lengths = np.array([len(text) for text in texts])
        self.add(table[places], np.arange(widest) < lengths[places][:, None])

    def text(self) -> bytes:
        """Returns the rows as text, each with a line end."""
        self.add_letter(LINE_END)
        made: bytes = np.concatenate(self.letters, axis=1)[np.concatenate(self.written, axis=1)].tobytes()
        return made


def digits_of(numbers: Array, least: int) -> tuple[Array, Array]:
    """Returns the decimal digits of numbers from 0 on, and which are written: leading zeros are not, except in the last
    `least`."""
    width = max(len(str(int(numbers.max(initial=0)))), least)
    letters, left = np.empty((len(numbers), width), np.uint8), numbers
    for place in range(width - 1, -1, -1):
        higher = left // 10
        letters[:, place] = left - 10 * higher
        left = higher
    written = np.maximum.accumulate(letters != 0, axis=1)
    written[:, width - least:] = True
    return letters + ZERO, written
