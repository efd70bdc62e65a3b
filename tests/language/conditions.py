"""Reads what a worked case shows, and under which hypotheses: the parts of a statement, each with what stands before its arrows.

A reader of `A → B` has nothing of B before A is shown. A hypothesis is met if a case shows it, under no hypothesis or under met
ones, for some values of its variables; `⊥` is never met. A binder is a hypothesis, too, unless its type is plain data, which has
a value. In `A → B → ⊥`, B is denied and A is supposed; likewise in `A × B → ⊥`.
"""
import functools
import re
from collections.abc import Callable, Iterator
from dataclasses import dataclass

from . import statements

BINDER = re.compile(r"^([^():→×⊎{}≡]+) : (.*)$", re.S)
LAMBDA = re.compile(r"λ\s+(.*?)\.\s", re.S)
SIGNS = "→≡≢≤<∷"

# What a name means in a file in which its meaning is read: its parameters, its clauses, and its own file.
Meaning = tuple[list[str], list[str], str]


@dataclass(frozen=True)
class Part:
    """A part of what a case shows: its text, what it supposes, the variables that stand for any value, and its names' files."""

    case: str
    text: str
    supposed: tuple[str, ...]
    names: frozenset[str]
    places: frozenset[str]


# The parts that are shown, by their shapes.
Shown = dict[tuple[str, int], list[Part]]


@functools.cache
def bare(text: str) -> str:
    """Returns the text in one line, without brackets around the whole."""
    text = " ".join(text.split())
    while text.startswith("(") and closes(text) == len(text) - 1:
        text = text[1:-1].strip()
    return text


@functools.cache
def closes(text: str) -> int:
    """Returns the place of the bracket that closes the one with which the text begins."""
    depth = 0
    for place, letter in enumerate(text):
        depth += (letter in statements.OPEN) - (letter in statements.CLOSE)
        if depth == 0:
            return place
    return -1


def binders(text: str) -> list[tuple[list[str], str]]:
    """Returns the names and the type of each binder if the text consists of binders, such as `(a b : T) (c : U)`; otherwise
    none."""
    found, rest = [], text.strip()
    while rest.startswith(("(", "{", "⦃")):
        end = closes(rest)
        one = BINDER.match(rest[1:end].strip())
        # a bracket in a quoted text may have no counterpart
        if not one or end < 0:
            return []
        found.append((one[1].split(), one[2]))
        rest = rest[end + 1:].strip()
    return [] if rest else found


@functools.cache
def items(text: str) -> tuple[str, ...]:
    """Returns the words of a term; a part in brackets is one word."""
    found, rest = [], text.strip()
    while rest:
        end = closes(rest) + 1 or len(rest) if rest[0] in statements.OPEN else len(re.split(r"[\s({⦃]", rest, maxsplit=1)[0])
        found.append(rest[:end])
        rest = rest[end:].strip()
    return tuple(found)


@functools.cache
def sides(text: str) -> tuple[str, tuple[str, ...]]:
    """Returns the outermost sign of a term and the terms on its sides; if there is no sign, the words of the term."""
    for sign in SIGNS:
        found = statements.split(text, sign)
        if len(found) > 1:
            return sign, tuple(map(bare, found))
    return "", tuple(map(bare, items(text)))


def put(text: str, values: dict[str, str]) -> str:
    """Returns the text with these values in place of its names."""
    if not values:
        return text
    word = re.compile(r"(?<![\w.\"?-])(" + "|".join(map(re.escape, values)) + r")(?![\w\"?-])")
    return word.sub(lambda found: values[found[1]], text)


class Reader:
    """Reads what a case shows. `meaning` returns what a name of a worked file means, if that is known; `is_data` returns
    whether a type is plain data, which has a value. `heads` are the names with which the parts begin."""

    def __init__(self, case: str, meaning: Callable[[str, str], Meaning | None],
                 is_data: Callable[[str, frozenset[str]], bool]) -> None:
        self.case, self.meaning, self.is_data = case, meaning, is_data
        self.parts: list[Part] = []
        self.heads: set[str] = set()

    def read(self, text: str, within: Part) -> None:
        """Reads a text; `within` is the part around it."""
        before = statements.split(bare(text), "→")
        after = before.pop().strip()
        denied = before.pop() if after == "⊥" and before else ""
        names, supposed = within.names, within.supposed
        for one in before:
            names |= {name for group in binders(one) for name in group[0]}
            supposed += self.asked(one, within.places)
        within = Part(self.case, after, supposed, names, within.places)
        if denied:
            self.read_denied(denied, within)
        else:
            self.read_factors(within)

    def asked(self, one: str, places: frozenset[str]) -> tuple[str, ...]:
        bound = binders(one)
        return tuple(bare(kind) for _, kind in bound if not self.is_data(kind, places)) if bound else (bare(one),)

    def read_denied(self, text: str, within: Part) -> None:
        """Reads a denied text. Of several factors the last is denied, and the others are supposed. A denial of `⊥` says
        nothing."""
        *others, last = statements.split(self.unfolded(bare(text), within), "×")
        supposed = within.supposed + tuple(one for other in others for one in self.asked(other, within.places))
        denied = " × ".join(self.asked(last, within.places)) or bare(last)
        if denied == "⊥":
            supposed += ("⊥",)
        self.parts.append(Part(self.case, f"{denied} → ⊥", supposed, within.names, within.places))

    def unfolded(self, text: str, within: Part) -> str:
        """Returns the text with the meaning of a name of a worked file in its place, if that meaning is one statement."""
        words = items(text)
        meant = self.meant(words[0], within) if words else None
        if meant and len(meant[0]) == len(words) - 1 and len(meant[1]) == 1:
            return self.unfolded(bare(put(meant[1][0], dict(zip(meant[0], words[1:])))), within)
        return text

    def meant(self, word: str, within: Part) -> Meaning | None:
        return next(filter(None, (self.meaning(word, place) for place in sorted(within.places))), None)

    def read_factors(self, whole: Part) -> None:
        factors = statements.split(whole.text, "×")
        if len(factors) == 1:
            self.read_one(bare(whole.text), whole)
            return
        for one in factors:
            bound = binders(one)
            for text in [kind for _, kind in bound] if bound else [one]:
                self.read(text, whole)

    def read_one(self, text: str, within: Part) -> None:
        if any(len(statements.split(text, mark)) > 1 for mark in "→×"):
            self.read(text, within)
        elif len(statements.split(text, "⊎")) > 1:
            self.read_choices(statements.split(text, "⊎"), within)
        elif text.startswith("¬"):
            self.read_denied(text[1:], within)
        elif not self.read_meaning(items(text), within):
            self.heads.update(items(text)[:1])
            self.parts.append(Part(self.case, text, within.supposed, within.names, within.places))
            for group in statements.groups(text)[1]:
                if "→" in group:
                    inner = LAMBDA.match(group.strip())
                    names = within.names | set(re.findall(r"\w+", inner[1]) if inner else ())
                    said = group.strip()[inner.end() if inner else 0:]
                    self.read(said, Part(self.case, "", within.supposed, names, within.places))

    def read_choices(self, choices: list[str], within: Part) -> None:
        """Reads several choices. Only one of them holds, so none of them is shown."""
        known = len(self.parts)
        for one in choices:
            self.read(one, within)
        self.parts[known:] = [Part(self.case, "⊎", one.supposed, one.names, one.places) for one in self.parts[known:]]

    def read_meaning(self, words: tuple[str, ...], within: Part) -> bool:
        meant = self.meant(words[0], within) if words else None
        if not meant or len(meant[0]) != len(words) - 1:
            return False
        self.heads.add(words[0])
        inside = Part(self.case, "", within.supposed, within.names, within.places | {meant[2]})
        clauses = [put(clause, dict(zip(meant[0], words[1:]))) for clause in meant[1]]
        if len(clauses) == 1:
            self.read(clauses[0], inside)
        else:
            self.read_choices(clauses, inside)
        return True


def fits(one: str, names: frozenset[str], other: str, others: frozenset[str], bound: dict[str, str]) -> bool:
    """Returns whether the second term is the first one for some values of these names, which are noted in `bound`. Values that
    the second term's own names must have are noted, too, with a mark, since each of these stands for any value, but only for
    one at a time."""
    if one in names:
        return bound.setdefault(one, other) == other
    if other in others:
        return bound.setdefault("'" + other, one) == one
    if one == other:
        return True
    (sign, left), (same, right) = sides(one), sides(other)
    if not sign and len(left) == 1 and len(right) == 1:
        return fits_member(one, names, other, bound)
    return sign == same and len(left) == len(right) and all(
        fits(a, names, b, others, bound) for a, b in zip(left, right))


def fits_member(one: str, names: frozenset[str], other: str, bound: dict[str, str]) -> bool:
    """Compares `g.reads` and `called.reads`: they are the same member, of a value that the name may have."""
    (owner, _, member), (value, _, same) = one.partition("."), other.partition(".")
    return bool(member) and member == same and owner in names and bound.setdefault(owner, value) == value


@functools.cache
def may_fit(one: str, names: frozenset[str], other: str, others: frozenset[str]) -> bool:
    """Returns whether the second term fits the first one if nothing is known yet about the names."""
    return one != "⊥" and fits(one, names, other, others, {})


def by_shape(parts: list[Part], before: Shown | None = None) -> Shown:
    """Returns the parts by their signs and numbers of terms, after the parts in `before`."""
    found = {shape: list(known) for shape, known in (before or {}).items()}
    for part in parts:
        sign, terms = sides(part.text)
        found.setdefault((sign, len(terms)), []).append(part)
    return found


def unmet(part: Part, shown: Shown) -> Iterator[str]:
    """Yields what the part supposes and none of these parts shows."""
    bound: dict[str, str] = {}
    for one in part.supposed:
        sign, terms = sides(one)
        for other in shown.get((sign, len(terms)), []):
            tried = dict(bound)
            if may_fit(one, part.names, other.text, other.names) and fits(one, part.names, other.text, other.names, tried):
                bound = {name: value for name, value in tried.items() if name[0] != "'"}
                break
        else:
            yield one


def met(parts: list[Part]) -> tuple[list[Part], list[Part]]:
    """Returns the parts that stand under no hypothesis or only under met ones, and the other parts."""
    shown: list[Part] = []
    shapes: Shown = {}
    others = parts
    while True:
        more: list[Part] = []
        left: list[Part] = []
        for part in others:
            (left if any(unmet(part, shapes)) else more).append(part)
        if not more:
            return shown, others
        shown, others, shapes = shown + more, left, by_shape(more, shapes)
