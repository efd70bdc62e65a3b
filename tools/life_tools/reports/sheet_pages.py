"""Makes sheets one page of HTML that needs no network: tables on a wide screen, and on a phone a card for each row."""
from __future__ import annotations

from html import escape
from typing import Sequence

from life_tools.reports.report_pages import all_apart, apart
from life_tools.common.program import UNPROVED
from life_tools.reports.sheets import MOST_COLUMNS, TEXT, Part, Row, Sheet, cell_text, parts_of
from life_tools.reports.whole_pages import fact_list, whole_page

STYLE = """
:root { color-scheme: light }
* { box-sizing: border-box }
body { font: 16px/1.45 system-ui, sans-serif; color: #1b1f23; background: #fff; margin: 0 auto; padding: 1rem; max-width: 92rem }
h1 { font-size: 1.5rem; margin: .2rem 0 } h2 { font-size: 1.15rem; margin: 2rem 0 .5rem }
h3 { font-size: 1rem; margin: 1rem 0 .3rem } p { margin: .3rem 0 }
dl { display: grid; grid-template-columns: max-content 1fr; gap: .1rem 1rem; font-size: .9rem }
dd { margin: 0; overflow-wrap: anywhere }
dt, p, li { color: #57606a } p, li { font-size: .85rem }
table { border-collapse: collapse; width: 100%; font-size: .8rem; font-variant-numeric: tabular-nums }
th, td { padding: .25rem .4rem; text-align: right; border-bottom: 1px solid #d9dee3; vertical-align: bottom }
td { white-space: nowrap } td span { display: none } td.text, th.text { text-align: left; white-space: normal }
tr.total td { font-weight: 600; border-top: 2px solid #1b1f23 }
@media screen and (max-width: 62rem) {
  body { padding: .6rem } dl { display: block } li, p { overflow-wrap: anywhere }
  thead { display: none } table, tbody, tr { display: block }
  tr { border: 1px solid #d9dee3; border-radius: .4rem; margin: .5rem 0; padding: .4rem .6rem }
  tr.total { border: 2px solid #1b1f23 }
  td, tr.total td { display: flex; justify-content: space-between; gap: 1rem; border: 0; padding: .1rem 0; font-size: .9rem }
  td, td.text { white-space: normal; overflow-wrap: anywhere }
  td span { display: inline; color: #57606a; font-weight: 400; white-space: normal } td:first-child { font-weight: 600 }
  td:first-child span, td.none, tr.total td.none { display: none }
}
@media print {
  body { max-width: none; padding: 0 } h2, h3 { break-after: avoid } tr { break-inside: avoid } table { font-size: 8.5pt }
}
"""


def head_cell(name: str, kind: str) -> str:
    """Returns the header cell of a column; the part of its name that it shares with the next one is above the rest."""
    return f"<th scope=\"col\"{' class=text' if kind == TEXT else ''}>{escape(name).replace(': ', '<br>')}</th>"


def row_cells(row: Row, sheet: Sheet, part: Part) -> str:
    cells = []
    for place, name in zip(part.places, part.names):
        cell, column = row.cells[place], sheet.columns[place]
        text = cell_text(cell, column)
        shown = text if column.kind == TEXT else apart(text)
        # in a wide table a value of 0 is left out of a card
        is_none = cell in (None, "") or cell == 0 and len(sheet.columns) > MOST_COLUMNS
        kinds = [*(["text"] if column.kind == TEXT else []), *(["none"] if is_none else [])]
        named = f" class=\"{' '.join(kinds)}\"" if kinds else ""
        # a card shows the name that is in a table's header
        cells.append(f"<td{named}><span>{escape(name)}</span>{escape(shown)}</td>")
    return "".join(cells)


def table_of(sheet: Sheet, part: Part) -> list[str]:
    heads = "".join(head_cell(name, sheet.columns[place].kind) for place, name in zip(part.places, part.names))
    rows = (f"<tr{' class=total' if row.is_total else ''}>{row_cells(row, sheet, part)}</tr>" for row in sheet.rows)
    return [f"<h3>{escape(part.title)}</h3>" if part.title != sheet.title else "",
            f"<table><thead><tr>{heads}</tr></thead>", "<tbody>", *rows, "</tbody></table>"]


def section(sheet: Sheet) -> str:
    """Returns a sheet with its notes and checks."""
    tables = [line for part in parts_of(sheet) for line in table_of(sheet, part)]
    return "\n".join([f"<section id=\"{escape(sheet.name)}\"><h2>{escape(sheet.title)}</h2>", *tables,
                      *(f"<p>{escape(all_apart(note))}</p>" for note in sheet.notes),
                      "<ul>", *(f"<li>{escape(check)}</li>" for check in sheet.checks), "</ul></section>"])


def page(title: str, facts: dict[str, str], sheets: Sequence[Sheet]) -> str:
    """Returns the whole page, which is printed in landscape format."""
    proved = "What the program printed is proved. " if UNPROVED not in facts else ""
    says = f"{proved}What was added is compared with printed totals, as the notes below each sheet say."
    parts = [fact_list(facts), f"<p>Amounts in the journal's currency. {says}</p>", *(section(sheet) for sheet in sheets)]
    return whole_page(title, STYLE, facts, parts, is_wide=True)
