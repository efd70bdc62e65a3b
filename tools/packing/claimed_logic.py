"""Compares the logic that the pages claim for the proof with the one that `sh life prove` noted.

usage: python3 tools/packing/claimed_logic.py           writes the number of the noted proof into each page
       python3 tools/packing/claimed_logic.py --check   ends with 1 and names each page that claims another number

The kit has a name as well, which may change while the logic stays the same. The pages claim the logic's number, 16 digits after
the word `logic`. It is noted in out/proved, from `rt version` at the time of the proof.
"""
from __future__ import annotations

import os
import re
import sys
from typing import Iterator

ROOT = os.path.dirname(os.path.dirname(os.path.dirname(os.path.abspath(__file__))))
CLAIM = re.compile(r"(\blogic\b[^\n0-9]{0,40}?)\b([0-9a-f]{16})\b")
NOTED = re.compile(r"^kit: .* logic ([0-9a-f]{16})$", re.M)


def text_of(path: str) -> str:
    with open(path, encoding="utf-8") as file:
        return file.read()


def noted_logic(root: str) -> str | None:
    """Returns the logic of the noted proof, or None if no proof is noted."""
    path = os.path.join(root, "out", "proved")
    found = NOTED.search(text_of(path)) if os.path.isfile(path) else None
    return found[1] if found else None


def pages_of(root: str) -> Iterator[str]:
    yield from (os.path.join(root, name) for name in sorted(os.listdir(root)) if name.endswith(".md"))
    for folder, below, names in os.walk(os.path.join(root, "docs")):
        below.sort()
        yield from (os.path.join(folder, name) for name in sorted(names) if name.endswith(".md"))


def claims_in(root: str) -> dict[str, set[str]]:
    """Returns the numbers that each page claims, for the pages that claim any."""
    found = {path: {claim[2] for claim in CLAIM.finditer(text_of(path))} for path in pages_of(root)}
    return {os.path.relpath(path, root): numbers for path, numbers in found.items() if numbers}


def write(root: str, logic: str) -> None:
    for name in claims_in(root):
        path = os.path.join(root, name)
        text = CLAIM.sub(lambda claim: claim[1] + logic, text_of(path))
        with open(path, "w", encoding="utf-8") as file:
            file.write(text)


def main(words: list[str], root: str = ROOT) -> int:
    logic = noted_logic(root)
    if logic is None:
        print("no proof is noted: sh life prove", file=sys.stderr)
        return 2
    if words != ["--check"]:
        write(root, logic)
        return 0
    others = {name: numbers for name, numbers in claims_in(root).items() if numbers != {logic}}
    for name, numbers in others.items():
        print(f"{name} claims the logic {', '.join(sorted(numbers))}, and the program is proved by {logic}", file=sys.stderr)
    return 1 if others else 0


if __name__ == "__main__":
    sys.exit(main(sys.argv[1:]))
