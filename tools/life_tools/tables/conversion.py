"""Converts a foreign table into one that the program takes: labels, rates, factors.

Each change is noted, and no rate is invented.
"""
from __future__ import annotations

import re
from dataclasses import dataclass, field
from fractions import Fraction

from life_tools.tables.foreign import Document, bytes_with
from life_tools.common.formats import Wrong, demand
from life_tools.tables.basis import (FINEST, WHITE, AnyTable, BadBasis, Element, NotXml, SelectTable, factor_of, is_blank,
                                     is_select, issue_axes_of, path_of, read_table, rows_by_duration, ultimate_rows_of)

NUMBER = re.compile(r"([0-9]+([.,][0-9]*)?|[.,][0-9]+)([Ee][+-]?[0-9]{1,3})?")
WHOLE = re.compile(r"\s*([0-9]{1,3})(\.0*)?\s*")
FACTORS = ("divide", "multiply")
HALF = Fraction(1, 2)
PLACES = 9


@dataclass
class Rounding:
    """How many rates were rounded to nine places, and the largest change with the place where it was made."""

    count: int = 0
    largest: Fraction = Fraction(0)
    where: str = ""

    def take(self, exact: Fraction, rounded: Fraction, where: str) -> None:
        if exact != rounded:
            self.count += 1
            if abs(exact - rounded) > self.largest:
                self.largest, self.where = abs(exact - rounded), where

    def line(self) -> str:
        return f"rates rounded to nine places: {self.count}, the largest change {float(self.largest):.2e}, of {self.where}"


def rounded_units(exact: Fraction) -> int:
    """Returns the nearest whole number of 10^-9; a half is rounded up."""
    return int((exact * FINEST + HALF) // 1)


def rate_text(units: int) -> str:
    return f"{units // FINEST}.{units % FINEST:0{PLACES}}".rstrip("0").rstrip(".")


def exact_rate(row: Element, where: str) -> Fraction:
    text = row.text.strip(WHITE)
    if row.children or not NUMBER.fullmatch(text):
        raise Wrong(f"the rate of {where} (line {row.at}) is {text[:40]!r}, which is no number")
    return Fraction(text.replace(",", "."))


@dataclass
class Conversion:
    """The tree of a file while it is converted, and the changes in the order in which they are made."""

    root: Element
    changes: list[str]
    factor: str | None = None
    rounding: Rounding = field(default_factory=Rounding)
    exact: list[Fraction] = field(default_factory=list)
    blanks: int = 0
    labels: int = 0
    commas: int = 0

    def label(self, element: Element, what: str) -> int:
        text = element.attributes.get("t", "")
        found = WHOLE.fullmatch(text)
        if not found:
            raise Wrong(f"line {element.at}: {what} has t={text[:20]!r}, which is no whole number of up to three digits")
        self.labels += text != found[1]
        element.attributes["t"] = found[1]
        return int(found[1])

    def labelled(self, elements: list[Element], what: str) -> list[int]:
        """Returns the labels of elements, and raises Wrong unless each is one more than the one before; gaps are not filled."""
        found = [self.label(element, what) for element in elements]
        for element, before, label in zip(elements[1:], found, found[1:]):
            why = "what lies between isn't invented" if label > before else "it isn't known which is right"
            demand(label == before + 1, f"line {element.at}: {what} {label} comes after {before}: {why}")
        return found

    def without_blanks(self, axis: Element) -> list[Element]:
        """Removes the blank rows at the end of an axis and returns the others; a blank row elsewhere is an error later."""
        rows = axis.those("Y")
        while rows and is_blank(rows[-1]):
            axis.children.remove(rows.pop())
            self.blanks += 1
        return rows

    def take_rows(self, axis: Element, what: str, scale: Fraction, whose: str = "") -> None:
        rows = self.without_blanks(axis)
        for label, row in zip(self.labelled(rows, what), rows):
            where = f"{whose}{what} {label}"
            self.commas += "," in row.text
            exact = exact_rate(row, where) * scale
            demand(0 <= exact <= 1, f"the rate of {where} (line {row.at}) is {float(exact):g}, and rates lie from 0 to 1")
            units = rounded_units(exact)
            self.rounding.take(exact, Fraction(units, FINEST), where)
            self.exact.append(exact)
            row.text = rate_text(units)

    def scale_of(self, table: Element, rows: list[Element]) -> Fraction:
        """Returns the number by which a table's rates are multiplied, according to its scaling factor, and removes the factor."""
        element = factor_of(table)
        text = element.text.strip(WHITE) if element else ""
        if element is None or not text or re.fullmatch("[01]([.]0*)?", text):
            if element is not None and text not in ("", "0", "1"):
                element.text = "1"
            return Fraction(1)
        demand(NUMBER.fullmatch(text), f"the ScalingFactor is {text[:40]!r}, which is no number")
        factor = Fraction(text.replace(",", "."))
        demand(factor > 0, "the ScalingFactor is 0")
        most = max((exact_rate(row, "a row") for row in rows if not is_blank(row)), default=Fraction(0))
        how = self.factor or way_of(factor, most)
        element.text = "1"
        self.changes.append(f"ScalingFactor {text}: each rate is {'divided by' if how == 'divide' else 'multiplied with'} it")
        return 1 / factor if how == "divide" else factor

    def take_by_age(self, table: Element, axis: Element) -> None:
        self.take_rows(axis, "age", self.scale_of(table, axis.those("Y")))

    def take_select(self, path: list[Element]) -> None:
        root, table, *_ = path
        tables = root.those("Table")
        demand(len(tables) > 1 and ultimate_rows_of(root), "it has select rates alone: table join SELECT ULTIMATE puts a file of "
               "ultimate rates after them")
        axes = issue_axes_of(path)
        scale = self.scale_of(table, [row for axis in axes for row in rows_by_duration(axis)])
        for age, axis in zip(self.labelled(axes, "issue age"), axes):
            inner = axis if axis.first("Y") else axis.first("Axis")
            demand(inner, f"line {axis.at}: issue age {age} has no rates")
            assert inner is not None
            self.take_rows(inner, "duration", scale, f"issue age {age}, ")
        self.drop_empty_ages(path, axes)
        values = tables[1].first("Values")
        ultimate = values.first("Axis") if values else None
        assert ultimate is not None
        self.take_by_age(tables[1], ultimate)

    def drop_empty_ages(self, path: list[Element], axes: list[Element]) -> None:
        """Removes the last issue ages if they have no rates: for later issue ages all rates are ultimate."""
        holder = path[2] if axes[0] is path[3] else path[3]
        dropped = []
        while axes and not rows_by_duration(axes[-1]):
            dropped.append(axes[-1].attributes["t"])
            holder.children.remove(axes.pop())
        demand(axes, "no issue age has a rate")
        if dropped:
            self.changes.append(f"issue ages without a rate are dropped: {', '.join(reversed(dropped))}")

    def told(self) -> list[str]:
        if self.blanks:
            self.changes.append(f"empty cells at the end are dropped: {self.blanks}")
        if self.labels:
            self.changes.append(f"labels written as whole numbers: {self.labels}")
        if self.commas:
            self.changes.append(f"decimal commas written as points: {self.commas}")
        if self.rounding.count:
            self.changes.append(self.rounding.line())
        return self.changes


def way_of(factor: Fraction, most: Fraction) -> str:
    """Returns whether the rates are to be divided or multiplied by the factor.

    Raises Wrong unless exactly one of the two brings rates above 1 to at most 1.
    """
    ways = {"divide": most / factor, "multiply": most * factor}
    right = [way for way, scaled in ways.items() if most > 1 >= scaled]
    if len(right) != 1:
        raise Wrong(f"its ScalingFactor is {float(factor):g} and its greatest rate {float(most):g}: --factor divide or --factor "
                    "multiply says what is meant")
    return right[0]


def rates_in(table: AnyTable) -> list[Fraction]:
    """Returns all rates in the order of the file."""
    if isinstance(table, SelectTable):
        return [rate for period in table.periods for rate in period] + list(table.ultimate.rates)
    return list(table.rates)


def demand_path(root: Element, whose: str = "") -> list[Element]:
    """Returns the elements from the root to the axis of the rates, and raises Wrong if one is missing."""
    path, is_whole = path_of(root)
    demand(is_whole, f"{whose}the path XTbML, Table, Values, Axis with rates Y in it breaks off after {path[-1].name[:40]} "
           f"(line {path[-1].at})")
    return path


def in_one_axis(path: list[Element]) -> bool:
    """Puts the issue axes into one axis if they are directly in Values with rates directly in them; returns whether it did.

    Without this they would be read as a table by age.
    """
    values, axis = path[2:]
    axes = values.those("Axis")
    if is_select(path) or len(axes) < 2 or not all("t" in each.attributes for each in axes):
        return False
    values.children = [each for each in values.children if each.name != "Axis"]
    values.children.append(Element("Axis", axis.at, children=axes))
    return True


def converted(document: Document, factor: str | None = None) -> tuple[bytes, list[str]]:
    """Returns a document's file as the program takes it, and the changes; each rate is that of the document, to nine places."""
    path, changes = demand_path(document.root), list(document.changes)
    if in_one_axis(path):
        path = demand_path(document.root)
        changes.append("issue axes that had their rates directly in them lie in one axis")
    work = Conversion(document.root, changes, factor)
    if is_select(path):
        work.take_select(path)
    else:
        work.take_by_age(path[1], path[-1])
    demand(work.exact, "it has no rate")
    changes, data = work.told(), bytes_with(document.root)
    try:
        rates = rates_in(read_table(data, "the new table"))
    except (BadBasis, NotXml) as bad:
        raise Wrong(f"what would be written isn't taken: {bad}") from bad
    same = len(rates) == len(work.exact) and all(abs(one - other) * FINEST <= HALF for one, other in zip(rates, work.exact))
    demand(same, "what would be written has other rates than the file")
    return data, changes


def joined(select: Document, ultimate: Document) -> Document:
    """Returns the document of select rates with the first table of the document of ultimate rates inserted after its first
    table."""
    paths = [demand_path(select.root, "the select file: "), demand_path(ultimate.root, "the ultimate file: ")]
    changes = [*(f"select: {change}" for change in select.changes), *(f"ultimate: {change}" for change in ultimate.changes)]
    if in_one_axis(paths[0]):
        paths[0] = demand_path(select.root)
        changes.append("select: issue axes that had their rates directly in them lie in one axis")
    demand(is_select(paths[0]), "the select file has its rates by age: name the one with issue ages first")
    demand(not is_select(paths[1]), "the ultimate file has issue ages: name the one with rates by age second")
    first, *further = select.root.those("Table")
    select.root.children = [each for each in select.root.children if each not in further]
    select.root.children.insert(select.root.children.index(first) + 1, paths[1][1])
    if further:
        changes.append(f"select: further tables are dropped: {len(further)}")
    return Document(select.root, [*changes, "the ultimate rates follow the select ones"])
