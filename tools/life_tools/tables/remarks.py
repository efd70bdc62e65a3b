"""Makes remarks on a table for people who will value by it: whose rates they are, and whether they are rates of death."""
from __future__ import annotations

import re
from fractions import Fraction
from typing import Sequence

from life_tools.tables.basis import AnyTable, Element, SelectTable, Table, path_of

CLASSES = ("male", "female", "unisex", "nonsmoker", "smoker", "composite", "preferred", "residual", "aggregate")
AGES = {"nearest": re.compile(r"\bANB\b|nearest", re.I), "last": re.compile(r"\bALB\b|last birthday", re.I)}
YEAR = re.compile(r"\b(1[89]|20)[0-9]{2}\b")
# words by which a file says that its rates are not rates of death
OTHERS = ("lapse", "withdrawal", "surrender", "improvement", "projection scale", "disability", "morbidity", "termination",
          "remarriage")
SAYING = ("TableName", "ContentType", "TableDescription", "KeyWord")
# if the rates fall over more than this part of the steps, they are not taken for rates of death
MOST_FALLING = Fraction(1, 3)


def texts_in(root: Element) -> dict[str, str]:
    """Returns what the file says about itself, by the name of the element that says it."""
    heads = root.those("ContentClassification") + [data for table in root.those("Table")[:1] for data in table.those("MetaData")]
    found: dict[str, str] = {}
    for head in heads:
        for name in SAYING:
            words = " ".join(part.text.strip() for part in head.those(name) if part.text.strip())
            if words:
                found[name] = f"{found[name]} {words}" if name in found else words
    return found


def classes_in(words: str) -> list[str]:
    """Returns the classes of lives that are named; `female` and `nonsmoker` do not also count as `male` and `smoker`."""
    said = re.sub(r"non-?\s?smok", "nonsmok", words.lower())
    return [name for name in CLASSES if re.search(rf"\b{name}s?\b", said)]


def whose(root: Element) -> str:
    """Returns a line with the class of lives, the age basis and the year, as the file states them."""
    told = texts_in(root)
    words = " ".join(told.values())
    found = classes_in(told.get("TableName", "")) or classes_in(words)
    ages = [name for name, pattern in AGES.items() if pattern.search(words)]
    year = YEAR.search(told.get("TableName", "")) or YEAR.search(words)
    parts = [", ".join(found) or "no class of lives", f"age {' or '.join(ages)} birthday" if ages else "no age basis",
             f"year {year[0]}" if year else "no year"]
    return f"the file says: {'; '.join(parts)}"


def axis_names(root: Element) -> list[str]:
    """Returns the names of the first table's axes."""
    axes = [part for table in root.those("Table")[:1] for data in table.those("MetaData") for part in data.those("AxisDef")]
    names = [(part.first("AxisName") or part.first("ScaleType")) for part in axes]
    return [name.text.strip() for name in names if name]


def of_axis(root: Element, table: AnyTable) -> list[str]:
    """Returns remarks if labels that are read as ages are not named as ages."""
    path, _ = path_of(root)
    if isinstance(table, SelectTable):
        return []
    found = []
    names = axis_names(root)
    if names and not any("age" in name.lower() for name in names):
        found.append(f"the axis is named {', '.join(names)}, and its labels are taken as ages")
    if "t" in path[-1].attributes:
        found.append(f"the first axis has t={path[-1].attributes['t'][:10]} as that of an issue age: its rates are taken by age, "
                     "and those of further axes aren't; table convert puts them into one axis")
    return found


def is_falling(rates: Sequence[Fraction]) -> bool:
    """Returns whether the rates fall in a way in which rates of death do not."""
    steps = list(zip(rates, rates[1:]))
    falling = sum(later < earlier for earlier, later in steps)
    return len(steps) > 2 and (rates[-1] < rates[0] or falling > len(steps) * MOST_FALLING)


def of_rates(root: Element, table: AnyTable) -> list[str]:
    by_age = table.ultimate if isinstance(table, SelectTable) else table
    told = texts_in(root)
    words = f"{told.get('TableName', '')} {told.get('ContentType', '')}".lower()
    found = [f"the file names {name}: are these rates of death?" for name in OTHERS if name in words]
    if is_falling(by_age.rates):
        first, last = float(by_age.rates[0]), float(by_age.rates[-1])
        found.append(f"the rates fall, from {first:.6f} at age {by_age.first} to {last:.6f} at age {by_age.last}, as lapse rates "
                     "do")
    if by_age.rates[-1] < 1:
        found.append(f"the last rate, of age {by_age.last}, is {float(by_age.rates[-1]):.6f}, and not 1")
    return found


def kind_of(table: AnyTable) -> str:
    if isinstance(table, Table):
        return f"rates by age, of the ages {table.first} to {table.last}"
    longest = max(len(period) for period in table.periods)
    return (f"select and ultimate rates, of the issue ages {table.first} to {table.last} with up to {longest} durations, and of "
            f"the ages {table.ultimate.first} to {table.ultimate.last}")


def remarks_on(root: Element, table: AnyTable) -> list[str]:
    """Returns what people should look at; the list is empty if nothing is unusual."""
    return [*of_axis(root, table), *of_rates(root, table)]
