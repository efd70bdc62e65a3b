"""Reads the tables of docs/reference/rules.md: the checks of each command in their order, their refusals, and what is booked."""
from __future__ import annotations

import re
from pathlib import Path

PAGE = Path(__file__).resolve().parents[2] / "docs" / "reference" / "rules.md"


def table(heading: str) -> list[list[str]]:
    """Returns the cells of the rows of the first table under a heading, without the markup of code."""
    _, _, after = PAGE.read_text(encoding="utf-8").partition(f"\n## {heading}\n")
    lines = [line for line in after.partition("\n## ")[0].splitlines() if line.startswith("|")]
    return [[cell.strip().replace("`", "") for cell in line.strip("|").split("|")] for line in lines[2:]]


def booked(cell: str) -> dict[str, int]:
    """Returns the sign with which each account is booked."""
    return {account: 1 if sign == "+" else -1 for account, sign in re.findall(r"(\w+) ([+-])", cell)}


COMMANDS = table("What each command does")
# the names of the checks of each command, and the accounts that it books
CHECKS = {command: checks.split(", ") for command, checks, _, _ in COMMANDS}
BOOKED = {command: booked(cell) for command, _, _, cell in COMMANDS}
# the reason of each check
REASONS = {check: refused.partition(",")[0] for check, refused, _ in table("The checks in their order")}
MOST_COMMANDS = int(next(refused.partition(",")[2] for _, refused, _ in table("The checks in their order") if "full," in refused))
