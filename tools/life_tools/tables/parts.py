"""Describes what is read from a table's file, what the file calls it, and what is skipped (docs/howto/tables.md)."""
from __future__ import annotations

from fractions import Fraction
from typing import Callable

from life_tools.tables.basis import (AnyTable, Element, SelectTable, Table, durations_of, factor_of, issue_axes_of, path_of,
                                     rows_by_duration, ultimate_rows_of)

Places = Callable[[Element], int]


def ends_of(first: Fraction, last: Fraction) -> str:
    return f"  first {float(first):.9f}, last {float(last):.9f}"


def ends_by_age(table: Table) -> str:
    return ends_of(table.rates[0], table.rates[-1]) + ("" if table.rates[-1] == 1 else ", which is below 1")


def factor_in(table: Element) -> str:
    factor = factor_of(table)
    return (factor.text.strip() or "empty") if factor else "none"


def names_in(root: Element) -> list[str]:
    """Returns the names that the file gives to the table, its rates and the axes of the first Table; nothing checks them."""
    head = root.first("ContentClassification")
    found = [head.first(name) for name in ("TableName", "ContentType")] if head else []
    axes = [part for data in root.those("Table")[:1] for one in data.those("MetaData") for part in one.those("AxisDef")]
    names = [part.text.strip() for part in found if part]
    of_axes = (part.first("AxisName") or part.first("ScaleType") for part in axes)
    names += [f"axis {name.text.strip()}" for name in of_axes if name]
    # the document was read byte for byte, but its texts are UTF-8 as a rule
    return [name.encode("iso-8859-1").decode("utf-8", "replace") for name in names if name]


# --- what is passed over ---

def further_by_age(table: Element) -> int:
    """Returns how many Values and Axis elements of a table by age are skipped."""
    values = table.those("Values")
    axes = values[0].those("Axis")
    return len(values) - 1 + len(axes) - 1 + len(axes[0].those("Axis"))


def further_by_duration(path: list[Element]) -> int:
    """Returns how many Values and Axis elements of a table by issue age and duration are skipped."""
    _, table, values, axis = path
    axes = issue_axes_of(path)
    beside = 0 if axes[0] is axis else len(values.those("Axis")) - 1
    inside = sum(len(issue.those("Axis")) - (0 if issue.first("Y") else 1) for issue in axes)
    return len(table.those("Values")) - 1 + beside + inside


def rows_without_rate(path: list[Element]) -> int:
    return sum(len(rows_by_duration(axis)) - len(durations_of(axis)) for axis in issue_axes_of(path))


def elements_over(root: Element, taken: int) -> list[str]:
    others = sorted({child.name for child in root.children} - {"Table"})
    others += [f"MetaData/{child.name}" for table in root.those("Table")[:taken] for data in table.those("MetaData")
               for child in data.children if child.name != "ScalingFactor"]
    return list(dict.fromkeys(others))


def passed_over(path: list[Element], table: AnyTable) -> list[str]:
    """Returns what of a document is not read, apart from the path to the rates."""
    root, is_select = path[0], isinstance(table, SelectTable)
    taken = 2 if is_select else 1
    found = []
    tables = len(root.those("Table")) - taken
    if tables:
        found.append(f"{tables} further Table: only the first {'two are' if is_select else 'is'} read")
    further = further_by_age(root.those("Table")[taken - 1]) + (further_by_duration(path) if is_select else 0)
    if further:
        found.append(f"{further} further Values or Axis")
    blank = rows_without_rate(path) if is_select else 0
    if blank:
        found.append(f"{blank} Y without a rate after the last duration")
    rows = path[-1].those("Y") if not is_select else [row for axis in issue_axes_of(path) for row in durations_of(axis)]
    extra = sorted({name for row in rows for name in row.attributes} - {"t"})
    if extra:
        found.append(f"attributes of Y: {', '.join(extra)}")
    others = elements_over(root, taken)
    if others:
        found.append(f"elements: {', '.join(others)}")
    return found


# --- the lines ---

def by_age(path: str, table: Table, parts: list[Element], line_of: Places) -> list[str]:
    axis = parts[-1]
    lines = [f"taken of {path}: the rates of the ages {table.first} to {table.last}, from line {line_of(axis)} on",
             ends_by_age(table),
             f"  scaling factor: {factor_in(parts[1])}; the axis is taken as ages, whatever its name says"]
    if "t" in axis.attributes:
        lines.append(f'  the first Axis has t="{axis.attributes["t"]}" as that of an issue age, but the rates directly in it, so '
                     "that they are taken by age: where they are by duration, put the Axis of all issue ages into one without t")
    return lines


def by_duration(path: str, table: SelectTable, parts: list[Element], line_of: Places) -> list[str]:
    root = parts[0]
    counts = [len(period) for period in table.periods]
    durations = f"{min(counts)} to {max(counts)}" if min(counts) < max(counts) else str(counts[0])
    ultimate = table.ultimate
    return [f"taken of {path}: the select rates of the issue ages {table.first} to {table.last}, {durations} durations each, "
            f"from line {line_of(issue_axes_of(parts)[0])} on",
            ends_of(table.periods[0][0], table.periods[-1][-1]),
            f"and the ultimate rates of the ages {ultimate.first} to {ultimate.last}, "
            f"from line {line_of(ultimate_rows_of(root)[0])} on",
            ends_by_age(ultimate),
            f"  scaling factors: {factor_in(parts[1])}, {factor_in(root.those('Table')[1])}; the axes are taken as issue ages, "
            "durations and ages, whatever their names say"]


def lines_of(path: str, table: AnyTable, root: Element, line_of: Places) -> list[str]:
    """Returns the lines about the file at this path; `line_of` gives the line in an editor on which an element begins."""
    parts, _ = path_of(root)
    told = by_duration(path, table, parts, line_of) if isinstance(table, SelectTable) else by_age(path, table, parts, line_of)
    names = names_in(root)
    return [*told, *([f"  the file says: {'; '.join(names)}"] if names else []),
            "passed over: " + ("; ".join(passed_over(parts, table)) or "nothing")]
