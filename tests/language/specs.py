"""Reads the definitions of specs/, and finds what each of them rests on.

A definition is counted in the `specs/` folder of the repository in which it stands, also if it stands in a `where` block. A type
of the code that a definition names is counted separately; definitions of the kit aren't counted.
"""
import functools
import re
from collections.abc import Iterable
from dataclasses import dataclass, field
from pathlib import Path

from .source import CRATES

LIST = "Names.antt"
NAME = r"[^\s:{}()\[\],.;⦃⦄]+"
USE = re.compile(r"use\s+Rattle\.([\w.]+)\.\{([^}]*)\}")
BEGINS = re.compile(r"(?:(?:abbrev|unfoldable)\s+pub|pub\s+(?:record|data)|record|data|abbrev|unfoldable|pub)\s+"
                    r"(?:record\s+|data\s+)?(" + NAME + ")")
PRIVATE = re.compile(r"(" + NAME + r")\s*:\s")
WORD = re.compile(r"(?<![.\w])[^\s:{}()\[\],.;⦃⦄×⊎λ→≡]+")

# by file: what its imported names mean
Imports = dict[str, dict[str, str]]


@dataclass
class Definition:
    """A definition: its place, its name, the line on which it begins, the comment directly above it, and its lines."""

    place: str
    name: str
    line: int
    comment: str
    lines: list[str] = field(default_factory=list)

    @property
    def key(self) -> str:
        return f"{self.place}.{self.name}"

    @property
    def within(self) -> list[str]:
        found: list[str] = []
        margin = -1
        for line in self.lines:
            indent = len(line) - len(line.lstrip())
            if line.strip() == "where":
                margin = 0
            elif margin >= 0 and line.strip() and not line.strip().startswith("--"):
                margin = margin or indent
                begins = PRIVATE.match(line.strip())
                if begins and indent == margin:
                    found.append(begins[1])
        return found

    @property
    def words(self) -> int:
        return sum(len(line.split(" -- ")[0].split()) for line in self.lines)


@dataclass(frozen=True)
class Count:
    """How much there is to read: the numbers of definitions, files, lines and words."""

    definitions: int
    files: int
    lines: int
    words: int


def counted(definitions: Iterable[Definition]) -> Count:
    some = list(definitions)
    return Count(sum(1 + len(one.within) for one in some), len({one.place for one in some}),
                 sum(len(one.lines) for one in some), sum(one.words for one in some))


def imports_of(text: str) -> dict[str, str]:
    """Returns what each imported name means, as crate.specs.Path.name, also if a list of imports passes it on."""
    found = {}
    for place, names in USE.findall(text):
        for entry in names.split(","):
            words = entry.split()
            if words:
                local = words[-1] if len(words) == 3 and words[1] == "as" else words[0]
                found[local] = passed_on(place).get(words[0], f"{place}.{words[0]}")
    return found


@functools.cache
def passed_on(place: str) -> dict[str, str]:
    """Returns what each name of a list of imports means; nothing if the place isn't such a list."""
    file = CRATES / (place.replace(".", "/") + ".antt")
    return imports_of(file.read_text(encoding="utf-8")) if file.name == LIST and file.exists() else {}


def place_of(file: Path) -> str:
    return ".".join(file.relative_to(CRATES).with_suffix("").parts)


def read_specs() -> tuple[dict[str, Definition], Imports]:
    definitions: dict[str, Definition] = {}
    imports: Imports = {}
    for file in sorted(CRATES.glob("*/specs/**/*.antt")):
        if file.name not in ("Lib.antt", "inside.antt", LIST):
            text = file.read_text(encoding="utf-8")
            imports[place_of(file)] = imports_of(text)
            definitions |= definitions_in(place_of(file), text)
    return definitions, imports


def definitions_in(place: str, text: str) -> dict[str, Definition]:
    """Returns the definitions of a file, each with its lines: the line with which it begins, and the indented lines after it."""
    found: dict[str, Definition] = {}
    current, comment, margin = None, list[str](), 0
    for number, line in enumerate(text.splitlines(), 1):
        bare, indent = line.strip(), len(line) - len(line.lstrip())
        if bare.startswith("--"):
            comment.append(bare[2:].strip())
            continue
        above, comment = comment, []
        if not bare or line.startswith(("use ", "pub mod")):
            continue
        if bare.startswith("module _"):
            margin, current = indent + 2, None
            continue
        margin = margin if indent else 0
        begins = BEGINS.match(bare) or PRIVATE.match(bare)
        if indent == margin and begins and not bare.startswith("unfolding"):
            current = found.setdefault(f"{place}.{begins[1]}", Definition(place, begins[1], number, " ".join(above)))
        if current is not None:
            current.lines.append(line)
    return found


def named_in(one: Definition, imports: Imports, definitions: dict[str, Definition]) -> set[str]:
    """Returns the definitions and the types of the code that this definition names."""
    found = set()
    for line in one.lines:
        for word in WORD.findall(line.split(" -- ")[0]):
            if word in imports[one.place]:
                found.add(imports[one.place][word])
            elif f"{one.place}.{word}" in definitions:
                found.add(f"{one.place}.{word}")
    return found


def reach(roots: set[str], definitions: dict[str, Definition], imports: Imports, given: set[str]) -> tuple[set[str], set[str]]:
    """Returns all definitions, and all types of the code, that these definitions rest on; nothing below those in `given` is
    included."""
    seen, types, left = set[str](), set[str](), set(roots)
    while left:
        name = left.pop()
        if ".specs.declared." in name:
            parts = name.split(".TheVariants")[0].split(".")
            types.add(".".join(parts[:-1] if parts[-1] == parts[-2] else parts))
        elif name not in seen and name not in given and name in definitions:
            seen.add(name)
            left |= named_in(definitions[name], imports, definitions)
    return seen, types


def roots_of(name: str, definitions: dict[str, Definition]) -> set[str]:
    """Returns what a name means: a definition, or, for a file of the code, all ghost names of its contracts."""
    if name.endswith(".rt"):
        return set(imports_of((CRATES / name).read_text(encoding="utf-8")).values())
    if name not in definitions:
        raise KeyError(f"there is no definition {name}")
    return {name}
