"""Splits a source into tokens."""
import functools
import re
from typing import NamedTuple

TOKEN = re.compile(r"""
    (?P<space>\s+)
  | (?P<doc>///[^\n]*|//![^\n]*)
  | (?P<remark>//[^\n]*)
  | (?P<string>b?"(?:[^"\\]|\\.)*")
  | (?P<char>b?'(?:[^'\\\n]|\\x[0-9a-fA-F]{2}|\\u\{[0-9a-fA-F]+\}|\\.)')
  | (?P<lifetime>'[A-Za-z_]\w*)
  | (?P<number>\d[\w]*(?:\.\d+)?)
  | (?P<word>[^\W\d]\w*)
  | (?P<sign>::|->|=>|\.\.=|\.\.|==|!=|<=|>=|&&|\|\||[+\-*/%]=|.)
""", re.X | re.S)
OPEN, CLOSE = {"(": ")", "[": "]", "{": "}"}, {")": "(", "]": "[", "}": "{"}


class Token(NamedTuple):
    """A token: its kind, its text, its line counted from 1, and where it begins in the text."""

    kind: str
    text: str
    line: int
    at: int


@functools.lru_cache(maxsize=2048)
def tokens_of(text: str) -> tuple[Token, ...]:
    """Returns all tokens, including comments, without white space."""
    found, line = [], 1
    for one in TOKEN.finditer(text):
        kind = one.lastgroup or ""
        if kind != "space":
            found.append(Token(kind, one[0], line, one.start()))
        line += one[0].count("\n")
    return tuple(found)


def code_of(tokens: tuple[Token, ...]) -> list[Token]:
    return [one for one in tokens if one.kind not in ("doc", "remark")]


def closing(tokens: list[Token], at: int) -> int:
    """Returns the place of the bracket that closes the one at this place. Only round, square and curly brackets count."""
    depth = 0
    for place in range(at, len(tokens)):
        if tokens[place].kind == "sign":
            depth += (tokens[place].text in OPEN) - (tokens[place].text in CLOSE)
        if depth == 0:
            return place
    raise ValueError(f"line {tokens[at].line}: nothing closes this bracket")
