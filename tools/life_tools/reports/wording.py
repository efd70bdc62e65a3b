"""Says on pages and in workbooks what the program and the CSV files say in words of their own."""
from __future__ import annotations

import re
from typing import Sequence

STATUS_WORDS = {"inforce": "in force", "lapsed": "lapsed", "claimed": "claimed", "matured": "matured", "expired": "expired",
                "settled": "settled", "paidup": "paid up"}
# what policies are grouped by
KEY_WORDS = {"plan": "plan", "status": "status", "issue-year": "year of issue", "age-band": "age at issue",
             "basis-row": "row of the basis", "book": "book"}
# the column with the number of policies that have a word in place of bounds, and what is said in place of each word
NOT_VALUED = "not valued"
NO_VALUE = {"nobasis": "issued before the basis", "belowtable": "too young for the table", "pasttable": "cover beyond the table",
            "ratehigh": "first rate above one half"}
AGES = re.compile("0*([0-9]+)-0*([0-9]+)")


def keys_text(keys: Sequence[str]) -> str:
    return ", ".join(KEY_WORDS[key] for key in keys)


def group_text(keys: Sequence[str], group: Sequence[str]) -> str:
    """Returns the name of a group, whose parts are those of its keys."""
    return ", ".join(part_text(key, part) for key, part in zip(keys, group))


def part_text(key: str, part: str) -> str:
    if key == "age-band":
        ages = AGES.fullmatch(part)
        return f"{ages[1]} to {ages[2]}" if ages else part
    if key == "status":
        return STATUS_WORDS.get(part, part)
    return "issued before the basis" if key == "basis-row" and part == "none" else part
