"""Decides whether a type is plain data, which has a value: a function that is given plain data is asked for nothing.

Each word of the type must be known: a type of the kit, a type of the code (which has no enumeration without values), a record of
such fields, a `data` of which a value can be made from such types, a name for such a type, or a type parameter of a function.
Everything else is taken for a statement.
"""
import re
from pathlib import Path

from . import conditions, specs, statements
from .source import ROOT
from .specs import Imports

OF_THE_KIT = {f"std.specs.{name}" for name in (
    "Prelude.ℕ", "Prelude.ℤ", "Prelude.Bool", "Prelude.List", "Prelude.Option", "Prelude.String", "Global.Global")}
PARAMETERS = set("DEH")
PLAIN = re.compile(r"[\w\s()×]+")
FIELD = re.compile(r"^\s+(?:pub )?[^\s:]+ : ", re.M)
CONSTRUCTOR = re.compile(r"^\s+[^\s:]+ : (.*)$", re.M)
NO_VALUES = re.compile(r"\benum\s+(\w+)[^{;]*\{\s*\}")


class PlainData:
    """Decides for types whether they are plain data, by the definitions of specs/ and by what the names of each file mean."""

    def __init__(self, definitions: dict[str, specs.Definition], imports: Imports) -> None:
        self.definitions, self.imports = definitions, imports
        self.known: dict[str, bool] = {}

    def holds(self, kind: str, places: frozenset[str], given: frozenset[str] = frozenset()) -> bool:
        """Returns whether a type is plain data, as these files write it; `given` are its type parameters."""
        return bool(PLAIN.fullmatch(kind)) and all(
            word in given or self.of_word(word, places) for word in re.findall(r"[^\s()×]+", kind))

    def of_word(self, word: str, places: frozenset[str]) -> bool:
        keys = {self.imports[place][word] for place in places if word in self.imports[place]}
        keys |= {f"{place}.{word}" for place in places} & self.definitions.keys()
        return all(map(self.of_key, keys)) if keys else word in PARAMETERS

    def of_key(self, key: str) -> bool:
        """Returns whether a definition is plain data. A type that rests on itself isn't known to have a value while that is
        being decided."""
        if key not in self.known:
            self.known[key] = False
            self.known[key] = key in OF_THE_KIT or ".specs.declared." in key or self.of_definition(key)
        return self.known[key]

    def of_definition(self, key: str) -> bool:
        one = self.definitions.get(key)
        lines = statements.bare("\n".join(one.lines)).splitlines() if one else []
        if not one or not re.search(r": Type \d+( where)?\s*$", lines[0]):
            return False
        places = frozenset([one.place])
        if re.search(r"\brecord\b", lines[0]):
            bound = conditions.binders(lines[0].partition(one.name)[2].rpartition(" : ")[0])
            given = frozenset(name for names, kind in bound for name in names if kind.startswith("Type "))
            return self.holds(FIELD.sub(" ", "\n".join(["", *lines[1:]])), places, given)
        if re.search(r"\bdata\b", lines[0]):
            made = [statements.split(kind, "→") for kind in CONSTRUCTOR.findall("\n".join(lines[1:]))]
            return any(result.strip() == one.name and all(self.holds(part, places) for part in parts) for *parts, result in made)
        clauses = statements.clauses_of(one.name, lines)
        return len(clauses) == 1 and self.holds(" ".join(clauses[0].split()), places)


def without_values(code: dict[Path, str]) -> list[str]:
    return [f"{path.relative_to(ROOT)} has {name}" for path, text in code.items() if "enum" in text
            for name in NO_VALUES.findall(statements.bare(text))]
