"""Finds what a statement asks for and what it shows: the definitions that it names, by the side of the arrow on which they stand.

A proof of `A → B` shows B and asks for A. In `A → ⊥` and `¬ A`, A is asked for. A record shows what its fields show. The clauses
of a definition with several clauses, and the sides of `⊎`, are choices: one of them is enough.
"""

import functools
import re

from . import specs

OPEN, CLOSE = "({⦃", ")}⦄"
BINDER = re.compile(r"^[^():→×⊎{}]+ : (.*)$", re.S)
LAMBDA = re.compile(r"^λ[^.]*(?:\([^)]*\))?[^.]*\. (.*)$", re.S)
NEGATION = re.compile(r"^¬\s*(.*)$", re.S)
NAME_ENDS = re.compile(r"\b(?!\s*:)")


def bare(text: str) -> str:
    return "\n".join(line.split(" -- ")[0] for line in text.splitlines() if not line.strip().startswith(("--", "//")))


def split(text: str, marks: str) -> list[str]:
    """Splits a text at these marks, except in brackets."""
    if not any(mark in text for mark in marks):
        return [text]
    parts, depth, begun = [], 0, 0
    for place, letter in enumerate(text):
        if letter in OPEN:
            depth += 1
        elif letter in CLOSE:
            depth -= 1
        elif letter in marks and depth == 0:
            parts.append(text[begun:place])
            begun = place + 1
    return parts + [text[begun:]]


@functools.cache
def groups(text: str) -> tuple[str, list[str]]:
    """Returns what stands outside brackets, and what is in each of the outermost brackets."""
    outside, inside, depth, begun = [], [], 0, 0
    for place, letter in enumerate(text):
        if letter in OPEN:
            depth += 1
            if depth == 1:
                begun = place + 1
        elif letter in CLOSE:
            depth -= 1
            if depth == 0:
                inside.append(text[begun:place])
                outside.append(" ")
        elif depth == 0:
            outside.append(letter)
    return "".join(outside), inside


class Sides:
    """The words of a statement that are certainly shown, those that may be shown, and those that are asked for."""

    def __init__(self) -> None:
        self.sure: set[str] = set()
        self.choice: set[str] = set()
        self.asked: set[str] = set()

    def read(self, text: str, shown: bool = True, sure: bool = True) -> "Sides":
        parts = split(text, "→")
        for part in parts[:-1]:
            self.read_part(part, not shown, sure)
        self.read_part(parts[-1], shown, sure)
        return self

    def read_part(self, text: str, shown: bool, sure: bool) -> None:
        sides = split(text, "⊎")
        for side in sides:
            for factor in split(side, "×"):
                self.read_factor(factor.strip(), shown, sure and len(sides) == 1)

    def read_factor(self, text: str, shown: bool, sure: bool) -> None:
        negation = NEGATION.match(text)
        if negation:
            self.read_part(negation.group(1), not shown, sure)
            return
        outside, inside = groups(text)
        into = (self.sure if sure else self.choice) if shown else self.asked
        into.update(specs.WORD.findall(outside))
        for group in inside:
            for form in (BINDER, LAMBDA):
                found = form.match(group.strip())
                if found:
                    group = found.group(1)
            self.read(group, shown, sure)


def fields_of(lines: list[str]) -> list[str]:
    """Returns the types of a record's fields, each with the lines that continue it."""
    fields = []
    for line in lines:
        begins = re.match(r"\s+pub [^\s:]+ : (.*)$", line)
        if begins:
            fields.append(begins.group(1))
        elif fields:
            fields[-1] += "\n" + line
    return fields


def clauses_of(name: str, lines: list[str]) -> list[str]:
    clauses = []
    for line in lines:
        bare_line = line.lstrip()
        if bare_line.startswith(name) and NAME_ENDS.match(bare_line, len(name)) and " =" in line:
            clauses.append(line[line.index(" =") + 2:])
        elif clauses:
            clauses[-1] += "\n" + line
    return clauses


def body_of(one: specs.Definition) -> str:
    """Returns what a definition says: the fields of a record, or its clauses."""
    lines = bare("\n".join(one.lines)).splitlines()
    if re.match(r"\s*pub record", lines[0]):
        return "\n".join(fields_of(lines))
    return "\n".join(clauses_of(one.name, lines))


def sides_of(one: specs.Definition) -> Sides:
    """Returns what a definition shows and asks for. If it has several clauses, each is a choice."""
    lines = bare("\n".join(one.lines)).splitlines()
    sides = Sides()
    if re.match(r"\s*pub record", lines[0]):
        for field in fields_of(lines):
            sides.read(field)
        return sides
    clauses = clauses_of(one.name, lines)
    for clause in clauses:
        sides.read(clause, True, len(clauses) == 1)
    return sides
