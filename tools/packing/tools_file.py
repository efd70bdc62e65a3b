"""Makes the tools of an installation: one file that Python runs, or their package in a folder; or the completion.

usage: tools_file.py PACKAGE OUT REVISION KIT SUM
       tools_file.py --completion TEMPLATE OUT
"""
from __future__ import annotations

import json
import os
import sys
import zipfile

if __name__ == "__main__":
    sys.dont_write_bytecode = True
    sys.path.insert(0, os.path.dirname(os.path.dirname(os.path.abspath(__file__))))

from life_tools.cli.entry import ENTRIES
from packing.changelog import newest_of

ROOT = os.path.dirname(os.path.dirname(os.path.dirname(os.path.abspath(__file__))))
FIRST_LINE = b"#!/usr/bin/env python3\n"
MAIN = "import sys\n\nfrom life_tools.cli.entry import main\n\nsys.exit(main())\n"
BUILT = "life_tools/built.json"
# each file gets this time, so that the same tools make the same bytes
TIME = (1980, 1, 1, 0, 0, 0)


def files_of(package: str) -> list[str]:
    """Returns the package's files, with names relative to the folder above it."""
    above = os.path.dirname(package)
    found = []
    for folder, below, names in os.walk(package):
        below[:] = [each for each in below if each != "__pycache__"]
        found += [os.path.relpath(os.path.join(folder, name), above) for name in names]
    return sorted(found)


def built_of(revision: str, kit: str, program_sum: str) -> dict[str, str]:
    """Returns what the tools know about the program that they belong to."""
    return {"version": newest_of(ROOT), "revision": revision, "kit": kit, "sum": program_sum}


def contents_of(package: str, built: dict[str, str]) -> dict[str, bytes]:
    """Returns each file of the tools by its name, including the one that says what they were built with."""
    package = os.path.abspath(package)
    contents = {}
    for name in files_of(package):
        with open(os.path.join(os.path.dirname(package), name), "rb") as part:
            contents[name] = part.read()
    return {**contents, BUILT: (json.dumps(built, indent=1) + "\n").encode()}


def pack(package: str, out: str, built: dict[str, str]) -> None:
    with open(out, "wb") as file:
        file.write(FIRST_LINE)
        with zipfile.ZipFile(file, "w", zipfile.ZIP_DEFLATED) as packed:
            for name, content in {"__main__.py": MAIN.encode(), **contents_of(package, built)}.items():
                packed.writestr(zipfile.ZipInfo(name, TIME), content, zipfile.ZIP_DEFLATED)


def completion_of(template: str) -> str:
    """Returns the completion of the arguments, with the names of all tools."""
    with open(template, encoding="utf-8") as file:
        return file.read().replace("@ENTRIES@", " ".join(ENTRIES))


def main(words: list[str]) -> None:
    if words[:1] == ["--completion"] and len(words) == 3:
        with open(words[2], "w", encoding="utf-8") as file:
            file.write(completion_of(words[1]))
    elif len(words) == 5:
        pack(words[0], words[1], built_of(*words[2:]))
    else:
        sys.exit(__doc__)


if __name__ == "__main__":
    main(sys.argv[1:])
