"""Makes journals of up to 4,000,000 records, as arrays of numpy, because encoding one record after another takes too long.

The kinds policies and greatest are issues of the numbers from 1 on; greatest has the greatest amount and premium. The other kinds
are records of one policy, of which the first is its issue: alterations by one cent each; premiums, which the rules refuse after
131; or a claim, and settlements of one cent.
"""
from collections.abc import Callable
from pathlib import Path
from typing import Any

from life_tools.common.arrays import Array, np
from life_tools.common.formats import MOST_CENTS
from life_tools.journal.file import EMPTY, FIRST_GATE
from life_tools.journal.records import ALTER, CLAIM, ISSUE, PREMIUM, RECORD, SETTLE
from life_tools.rules.tables import LAST_AGE, PLAN_CODES

# 2020-01-01 in days since 1970-01-01, and the days of its anniversaries up to 2151
DAY = 18262
ANNIVERSARIES = (np.arange(2020, 2021 + LAST_AGE).astype(str).astype("M8[D]")).astype(int)


def records(count: int, **fields: Any) -> Array:
    """Returns records with a commit byte of 1, with these values or columns as their fields."""
    made = np.zeros(count, RECORD)
    for name, value in {"gate": 1, "number": 1, "day": DAY, **fields}.items():
        made[name] = value
    return made


def alike(numbers: Array, **fields: Any) -> Array:
    """Returns issues that differ only in their numbers."""
    return records(len(numbers), **{"kind": ISSUE, "plan": PLAN_CODES["endowment"], "years": 3, "number": numbers,
                                    "amount": 100_000, "premium": 40_000, **fields})


ONE = np.array([1])
KINDS: dict[str, Callable[[int], list[Array]]] = {
    "policies": lambda count: [alike(np.arange(1, count + 1))],
    "greatest": lambda count: [alike(np.arange(1, count + 1), amount=MOST_CENTS, premium=MOST_CENTS)],
    "alterations": lambda count: [alike(ONE, amount=MOST_CENTS), records(
        count - 1, kind=ALTER, amount=np.arange(MOST_CENTS - 1, MOST_CENTS - count, -1), premium=1)],
    "premiums": lambda count: [alike(ONE, plan=PLAN_CODES["whole"], years=0), records(
        count - 1, kind=PREMIUM, day=ANNIVERSARIES[np.minimum(np.arange(count - 1), LAST_AGE)], amount=40_000)],
    "settlements": lambda count: [alike(ONE, amount=MOST_CENTS), records(1, kind=CLAIM), records(
        count - 2, kind=SETTLE, amount=1)],
}


def write_records(path: str | Path, *parts: Array) -> None:
    """Writes a journal of these records."""
    with open(path, "wb") as file:
        file.write(EMPTY[:FIRST_GATE])
        for part in parts:
            # numpy joins and computes records in the byte order of the machine
            part.astype(RECORD, copy=False).tofile(file)
        file.write(b"\0")


def write(kind: str, count: int, path: str) -> None:
    write_records(path, *KINDS[kind](count))
