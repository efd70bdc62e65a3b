"""Reads the versions in CHANGELOG.md; the newest is the one that is packed.

Debian's packages have a changelog of another form.
"""
from __future__ import annotations

import datetime
import os
import re
import textwrap
from dataclasses import dataclass, field

from life_tools.common.formats import Wrong

HEADING = re.compile(r"## (\d+\.\d+\.\d+) \((\d{4}-\d{2}-\d{2})\)")


@dataclass
class Version:
    """A version: its number, its day, and what it brought, as a list of items."""

    number: str
    day: datetime.date
    items: list[str] = field(default_factory=list)


def versions_in(text: str) -> list[Version]:
    """Returns the versions of a changelog, the newest first."""
    found: list[Version] = []
    for line in text.splitlines():
        heading = HEADING.fullmatch(line)
        if heading:
            found.append(Version(heading[1], datetime.date.fromisoformat(heading[2])))
        elif line.startswith("## "):
            raise Wrong(f"CHANGELOG.md: a heading is `## NUMBER (DAY)`, and one is {line}")
        elif found and line.startswith("- "):
            found[-1].items.append(line[2:].strip())
        elif found and found[-1].items and line.startswith("  "):
            found[-1].items[-1] += " " + line.strip()
    if not found or not all(version.items for version in found):
        raise Wrong("CHANGELOG.md has no version, or one that brought nothing")
    return found


def changelog_of(root: str) -> list[Version]:
    try:
        with open(os.path.join(root, "CHANGELOG.md"), encoding="utf-8") as file:
            return versions_in(file.read())
    except OSError as error:
        raise Wrong(f"CHANGELOG.md: {error.strerror}") from error


def newest_of(root: str) -> str:
    """Returns the number of the newest version."""
    return changelog_of(root)[0].number


def debians(versions: list[Version], name: str, maintainer: str) -> str:
    """Returns the changelog in the form that Debian's packages have."""
    parts = []
    for version in versions:
        items = [textwrap.fill(re.sub("[`*]", "", item), 78, initial_indent="  * ", subsequent_indent="    ")
                 for item in version.items]
        day = version.day.strftime("%a, %d %b %Y 00:00:00 +0000")
        head = f"{name} ({version.number}) stable; urgency=medium"
        parts.append("\n\n".join([head, "\n".join(items), f" -- {maintainer}  {day}"]))
    return "\n\n".join(parts) + "\n"
