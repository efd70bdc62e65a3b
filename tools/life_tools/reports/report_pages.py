"""Makes a report one page of HTML that needs no network: totals, groups with a picture of each, words, checks."""
from __future__ import annotations

import re
from html import escape
from typing import Sequence

from life_tools.common.formats import money as plain_money
from life_tools.valuations.groups import Groups, Sums
from life_tools.valuations.printed_columns import NO_WORDS, ColumnValuation, Rows
from life_tools.reports.whole_pages import fact_list, whole_page
from life_tools.reports.wording import NOT_VALUED, NO_VALUE, group_text, keys_text
from life_tools.reserves.worked_rows import WORDS

# at most so many policies are listed for each word
NAMED = 20
STYLE = """
:root { color-scheme: light }
* { box-sizing: border-box }
body { font: 16px/1.45 system-ui, sans-serif; color: #1b1f23; background: #fff; margin: 0 auto; padding: 1rem; max-width: 76rem }
h1 { font-size: 1.5rem; margin: .2rem 0 } h2 { font-size: 1.15rem; margin: 2rem 0 .5rem } p { margin: .4rem 0 }
.facts { display: grid; grid-template-columns: repeat(auto-fit, minmax(14rem, 1fr)); gap: .6rem; margin: 1rem 0 }
.facts div { background: #f3f6f9; border-radius: .4rem; padding: .6rem .8rem }
.facts b { display: block; font-size: 1.1rem; font-variant-numeric: tabular-nums; overflow-wrap: anywhere }
dl { display: grid; grid-template-columns: max-content 1fr; gap: .1rem 1rem; font-size: .85rem; color: #57606a }
dd { margin: 0; overflow-wrap: anywhere }
.facts span { color: #57606a; font-size: .85rem }
.wide { overflow-x: auto }
table { border-collapse: collapse; width: 100%; font-size: .85rem; font-variant-numeric: tabular-nums }
th, td { padding: .3rem .6rem; text-align: right; white-space: nowrap; border-bottom: 1px solid #d9dee3 }
th:first-child, td:first-child { text-align: left } tr.total td { font-weight: 600; border-top: 2px solid #1b1f23 }
th, .why td { white-space: normal }
@media (max-width: 66rem) { table { font-size: .66rem } th, td { padding: .3rem .2rem } }
@media print { tr { break-inside: avoid } tr.total { break-before: avoid } }
.bars { margin: .6rem 0 }
.bar { display: grid; grid-template-columns: minmax(6rem, 12rem) 1fr minmax(5rem, auto); gap: .6rem; align-items: center }
.bar { font-size: .85rem; margin: .2rem 0 }
.bar > span { overflow-wrap: anywhere } .bar > div { background: #eef1f4; border-radius: .2rem }
.bar i { display: block; height: 1rem; background: #1f6feb; border-radius: .2rem }
.bar > span:last-child { text-align: right; font-variant-numeric: tabular-nums; overflow-wrap: normal }
@media (max-width: 30rem) { body { padding: .6rem } .bar { grid-template-columns: 6rem 1fr minmax(5rem, auto) } }
"""


# an amount in a sentence
AMOUNT = re.compile(r"[0-9]+\.[0-9]{2}")


def apart(number: str) -> str:
    """Returns an amount or a count with separators of thousands, and any other text unchanged."""
    parts = re.fullmatch(r"(-?)([0-9]+)(\.[0-9]{2})?", number)
    return f"{parts[1]}{int(parts[2]):,}{parts[3] or ''}" if parts else number


def all_apart(sentence: str) -> str:
    """Returns a sentence in which each amount has separators of thousands."""
    return AMOUNT.sub(lambda it: apart(it[0]), sentence)


def money(cents: int) -> str:
    return apart(plain_money(cents))


def table(heads: Sequence[str], rows: Sequence[Sequence[str]], total: Sequence[str] | None = None) -> str:
    """Returns a table; a row of totals is set apart at its end if there is one."""
    lines = ["<div class=\"wide\"><table>", "<tr>" + "".join(f"<th>{escape(each)}</th>" for each in heads) + "</tr>"]
    lines += ["<tr>" + "".join(f"<td>{escape(each)}</td>" for each in row) + "</tr>" for row in rows]
    if total:
        lines.append("<tr class=\"total\">" + "".join(f"<td>{escape(each)}</td>" for each in total) + "</tr>")
    return "\n".join([*lines, "</table></div>"])


def most_of(tables: Sequence[tuple[Sequence[str], Groups]], place: int) -> int:
    """Returns the greatest sum of all groups, to which all bars of a page are scaled."""
    return max((each.bounds[place] for _, groups in tables for each in groups.values()), default=0)


def picture(keys: Sequence[str], groups: Groups, place: int, most: int) -> str:
    """Returns a bar for each group, by one of its sums."""
    lines = ["<div class=\"bars\">"]
    for name, sums in groups.items():
        permille = 1000 * sums.bounds[place] // most if most > 0 else 0
        lines.append(f"<div class=\"bar\"><span>{escape(group_text(keys, name))}</span><div><i style=\"width:{permille // 10}."
                     f"{permille % 10}%\"></i></div><span>{money(sums.bounds[place])}</span></div>")
    return "\n".join([*lines, "</div>"])


def facts(valuation: ColumnValuation, total: Sums, heads: Sequence[str]) -> str:
    told = [("day", str(valuation.on)), ("position", f"{valuation.position:,}"), ("measure", valuation.measure),
            ("policies", f"{total.policies:,}"), ("of these insured", f"{total.insured:,}"),
            ("amount insured", money(total.amount))]
    told += [(name, money(each)) for name, each in zip(heads, valuation.total)]
    told.append((f"policies {NOT_VALUED}, in no sum", apart(str(valuation.words))))
    return "<div class=\"facts\">" + "".join(f"<div><span>{escape(name)}</span><b>{escape(value)}</b></div>"
                                             for name, value in told) + "</div>"


def words_of(rows: Rows) -> str:
    """Returns a table of the policies without bounds, by their word."""
    cells = []
    for word in sorted(WORDS):
        numbers = rows.number[rows.word == NO_WORDS.index(word)]
        if len(numbers):
            more = f" and {len(numbers) - NAMED:,} more" if len(numbers) > NAMED else ""
            cells.append([NO_VALUE[word], WORDS[word], f"{len(numbers):,}", ", ".join(map(str, numbers[:NAMED].tolist())) + more])
    if not cells:
        return "<p>Each policy has bounds.</p>"
    return f"<div class=\"why\">{table([NOT_VALUED, 'why', 'policies', 'numbers'], cells)}</div>"


def page(title: str, provenance: dict[str, str], valuation: ColumnValuation, total: Sums,
         tables: Sequence[tuple[Sequence[str], Groups]], heads: Sequence[str], checks: Sequence[str]) -> str:
    """Returns the whole page."""
    parts = [fact_list(provenance),
             "<p>Amounts in the journal's currency. The exact reserve lies between the lower and the upper bound. Bars are the "
             f"{escape(heads[-1])}, all to one scale.</p>", facts(valuation, total, heads)]
    columns, last = ["policies", "insured", "amount insured", *heads, NOT_VALUED], len(valuation.total) - 1
    for keys, groups in tables:
        parts.append(f"<h2>By {keys_text(keys)}</h2>")
        parts.append(picture(keys, groups, last, most_of(tables, last)))
        cells = [[group_text(keys, name), *map(apart, sums.cells())] for name, sums in groups.items()]
        parts.append(table([keys_text(keys), *columns], cells, ["total", *map(apart, total.cells())]))
    parts += [f"<h2>Policies {NOT_VALUED}</h2>", words_of(valuation.rows), "<h2>Checks that were made</h2><ul>"]
    parts += [f"<li>{escape(each)}</li>" for each in checks]
    return whole_page(title, STYLE, provenance, [*parts, "</ul>"])
