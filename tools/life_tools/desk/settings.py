"""`desk.toml` beside the journal: which issues a person looks at before they are posted, and who may release what.

    [issues]
    days_back = 400                # an issue dated earlier is held
    days_ahead = 0                 # an issue dated later is held
    premium_below_amount = true    # an issue whose premium is not below its amount is held
    least_of_net = 0.5             # held below so many times the net premium of the basis
    most_of_net = 4.0              # held above

    [release]                      # without this table everybody may release everything
    anna = ["equal", "number"]
    head = ["all"]
"""
from __future__ import annotations

import os
import tomllib
from dataclasses import dataclass, field
from decimal import Decimal
from fractions import Fraction
from typing import Any, Callable

from life_tools.common.formats import Wrong, bytes_of

NAME = "desk.toml"
MOST_DAYS = 100_000
# why a row is held: it equals a posting; its day; its premium; its number is in use; an earlier row of its policy is held
EQUAL, DAY, PREMIUM, NUMBER, POLICY = REASONS = ("equal", "day", "premium", "number", "policy")
ALL = "all"


@dataclass(frozen=True)
class Settings:
    """What `desk.toml` sets, with the defaults for what it does not set."""

    days_back: int = 400
    days_ahead: int = 0
    premium_below_amount: bool = True
    least_of_net: Fraction = Fraction(1, 2)
    most_of_net: Fraction = Fraction(4)
    # the reasons for which each person may release a row, by name; None if everybody may release every row
    release: dict[str, tuple[str, ...]] | None = field(default=None)

    def may_release(self, name: str, reason: str) -> bool:
        """Returns whether a person may release a row that is held for this reason.

        Whoever may release for any reason may also release rows that are held only because an earlier row is.
        """
        if self.release is None:
            return True
        allowed = self.release.get(name, ())
        return ALL in allowed or reason in allowed or (reason == POLICY and bool(allowed))


def days_in(value: Any, where: str) -> int:
    if isinstance(value, bool) or not isinstance(value, int) or not 0 <= value <= MOST_DAYS:
        raise Wrong(f"{where} is {value!r}: a number of days from 0 to {MOST_DAYS} is wanted")
    return value


def flag_in(value: Any, where: str) -> bool:
    if not isinstance(value, bool):
        raise Wrong(f"{where} is {value!r}: true or false is wanted")
    return value


def times_in(value: Any, where: str) -> Fraction:
    if isinstance(value, bool) or not isinstance(value, (int, Decimal)) or not 0 <= value <= 10**6:
        raise Wrong(f"{where} is {value!r}: a number from 0 to 1000000 is wanted")
    return Fraction(value)


READ: dict[str, Callable[[Any, str], Any]] = {
    "days_back": days_in, "days_ahead": days_in, "premium_below_amount": flag_in, "least_of_net": times_in,
    "most_of_net": times_in}


def releases_in(table: Any, path: str) -> dict[str, tuple[str, ...]]:
    if not isinstance(table, dict):
        raise Wrong(f"{path}: [release] has to be a table of names")
    found = {}
    for name, reasons in table.items():
        if not isinstance(reasons, list) or any(each not in (*REASONS, ALL) for each in reasons):
            raise Wrong(f"{path}, [release] {name}: a list of some of {', '.join((*REASONS, ALL))} is wanted")
        found[name] = tuple(reasons)
    return found


def settings_in(data: bytes, path: str) -> Settings:
    """Returns the settings of a file's bytes. An unknown key is refused, since a mistyped key would otherwise set nothing."""
    try:
        read = tomllib.loads(data.decode("utf-8"), parse_float=Decimal)
    except (tomllib.TOMLDecodeError, UnicodeDecodeError) as error:
        raise Wrong(f"{path} is not TOML: {error}") from error
    unknown = set(read) - {"issues", "release"}
    issues = read.get("issues", {})
    if not isinstance(issues, dict):
        raise Wrong(f"{path}: [issues] has to be a table")
    unknown |= set(issues) - set(READ)
    if unknown:
        raise Wrong(f"{path}: {', '.join(sorted(unknown))} is unknown; known are [issues] with {', '.join(READ)}, and [release]")
    values = {key: READ[key](value, f"{path}, {key}") for key, value in issues.items()}
    release = releases_in(read["release"], path) if "release" in read else None
    settings = Settings(**values, release=release)
    if settings.least_of_net > settings.most_of_net:
        raise Wrong(f"{path}: least_of_net is above most_of_net, so every issue would be held")
    return settings


def settings_of(folder: str) -> Settings:
    """Returns the settings of a book's folder."""
    path = os.path.join(folder, NAME)
    return settings_in(bytes_of(path), path) if os.path.lexists(path) else Settings()
