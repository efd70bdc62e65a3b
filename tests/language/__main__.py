"""Reports what the definitions and sources say about themselves.

usage: python3 -m tests.language above CRATE          the crates that a change of this one has proved again
       python3 -m tests.language counts               how much is to be read for the main statements
       python3 -m tests.language counts --write       writes the list of clauses and definitions with their words anew
       python3 -m tests.language rests [--less NAME] NAME..    the definitions that a name rests on, by file
       python3 -m tests.language cases                what no worked case holds, and which cases are conditional

A NAME is a definition, such as life_app.specs.Headline.IsPromised, or a file of the code, such as life_app/src/program.rt.
"""
import argparse
import sys
from collections import defaultdict

from . import cases, counts, specs
from .promise import all_public
from .source import libraries


def above(crate: str) -> int:
    found: list[str] = []
    for name, below in libraries().items():
        if name == crate or not set(found).isdisjoint(below):
            found.append(name)
    print(*found, sep="\n")
    return 0 if found else 2


def rests(names: list[str], less: list[str]) -> int:
    definitions, imports = specs.read_specs()
    try:
        roots = set[str]().union(*(specs.roots_of(name, definitions) for name in names))
    except (KeyError, OSError) as wrong:
        print(f"rests: {wrong}", file=sys.stderr)
        return 2
    seen, types = specs.reach(roots, definitions, imports, set(less))
    files = defaultdict(list)
    for key in sorted(seen):
        files[definitions[key].place].append(definitions[key].name)
    for place, found in sorted(files.items()):
        print(f"{place}: {', '.join(found)}")
    print(*(f"  type {name}" for name in sorted(types)), sep="\n")
    count = specs.counted(definitions[key] for key in seen)
    print(f"definitions: {count.definitions} in {count.files} files, {count.lines} lines, {count.words} words; "
          f"{len(types)} types")
    return 0


def main() -> int:
    parser = argparse.ArgumentParser(prog="python3 -m tests.language", description=__doc__,
                                     formatter_class=argparse.RawDescriptionHelpFormatter)
    parser.add_argument("what", choices=("above", "counts", "rests", "cases"))
    parser.add_argument("names", nargs="*")
    parser.add_argument("--less", action="append", default=[])
    parser.add_argument("--write", action="store_true")
    asked = parser.parse_args()
    if asked.what in ("above", "rests") and not asked.names:
        parser.error("which one?")
    if asked.what == "above":
        return above(asked.names[0])
    if asked.what == "rests":
        return rests(asked.names, asked.less)
    if asked.what == "cases":
        found = cases.Found(cases.Texts())
        print(*sorted(found.bare), *(f"conditional {case}" for case in sorted(found.conditional)), *found.wrong, sep="\n")
    elif asked.write:
        counts.LIST.write_text(counts.list_of(all_public()), encoding="utf-8")
    else:
        print(counts.table_of(all_public()), end="")
    return 0


if __name__ == "__main__":
    sys.exit(main())
