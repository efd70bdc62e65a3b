"""Rounds the rates of a table to nine places in the file as it is, and changes nothing else in it."""
from __future__ import annotations

import re
from fractions import Fraction

from life_tools.common.formats import Wrong, demand
from life_tools.tables.conversion import NUMBER, Rounding, rate_text, rounded_units
from life_tools.tables.basis import (FINEST, WHITE, Element, NotXml, is_select, issue_axes_of, path_of, root_of,
                                     rows_by_duration, ultimate_rows_of)

# the opening tag of a row, and the row's text
ROW = re.compile(rb"<Y(?:[^>\"']|\"[^\"]*\"|'[^']*')*>([^<]*)<")


def rows_of(root: Element) -> list[tuple[str, Element]]:
    """Returns the rows of a table, each with a text that says which rate it is."""
    path, is_whole = path_of(root)
    demand(is_whole, "there is no XTbML, Table, Values, Axis with rates Y in it")
    if not is_select(path):
        return [(f"age {row.attributes.get('t', '')}", row) for row in path[-1].those("Y")]
    found = [(f"issue age {axis.attributes.get('t', '')}, duration {row.attributes.get('t', '')}", row)
             for axis in issue_axes_of(path) for row in rows_by_duration(axis)]
    return found + [(f"age {row.attributes.get('t', '')}", row) for row in ultimate_rows_of(root)]


def rounded_file(data: bytes) -> tuple[bytes, Rounding]:
    """Returns the bytes of a file in which rates with more than nine places are rounded to the nearest, and what was changed."""
    rounding, parts, done = Rounding(), [], 0
    try:
        root = root_of(data)
    except NotXml as wrong:
        raise Wrong(f"{wrong}; table convert reads more") from wrong
    for where, row in sorted(rows_of(root), key=lambda pair: pair[1].at):
        text = row.text.strip(WHITE)
        if not row.is_plain or not NUMBER.fullmatch(text) or "," in text:
            continue
        exact, tag = Fraction(text), ROW.match(data, row.at)
        units = rounded_units(exact)
        if (exact * FINEST).denominator == 1:
            continue
        if tag is None:
            raise Wrong(f"the row of {where} isn't found at byte {row.at}")
        rounding.take(exact, Fraction(units, FINEST), where)
        parts += [data[done:tag.start(1)], rate_text(units).encode()]
        done = tag.end(1)
    return b"".join([*parts, data[done:]]), rounding
