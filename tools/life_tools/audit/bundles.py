"""Makes a valuation to hand over, as one page that needs no network.

It has the sheets and charts, sampled rows worked out with their postings, the seal, and how to check all of it without us.
"""
from __future__ import annotations

from html import escape
from typing import Mapping, Sequence

from life_tools.audit.paper_pages import PRINTED, contents, postings_text
from life_tools.audit.papers import Papers
from life_tools.journal.seals import text_of
from life_tools.reports import charts
from life_tools.reports.report_files import Tables
from life_tools.reports.report_pages import STYLE, apart, facts, money, table, words_of
from life_tools.reports.whole_pages import fact_list, whole_page
from life_tools.reports.wording import NOT_VALUED, group_text, keys_text
from life_tools.valuations.groups import Groups, Sums
from life_tools.valuations.printed_columns import ColumnValuation

# a chart with more groups cannot be read; if there are more, the last ones are shown, such as the latest years of issue
MOST_GROUPS = 24
CHARTS = """
svg.chart { display: block; width: 100%; max-width: 46rem; height: auto } svg.chart text { font-size: 13px; fill: #57606a }
svg.chart .left { text-anchor: end } svg.chart .middle { text-anchor: middle } svg.chart .axis { font-style: italic }
svg.chart .grid { stroke: #e2e6ea } svg.chart .zero { stroke: #aeb7c1 }
.legend { display: flex; flex-wrap: wrap; gap: .2rem 1rem; list-style: none; padding: 0; font-size: .85rem }
h2 { break-after: avoid } .legend li::before { content: "\\25a0  "; color: var(--mark) }
code { overflow-wrap: anywhere } li { margin: .4rem 0 }
.whole { break-inside: avoid }
.c1 { fill: #2b6ca3; --mark: #2b6ca3 } .c2 { fill: #d08a2e; --mark: #d08a2e }
"""


def chart_of(keys: Sequence[str], groups: Groups) -> str:
    """Returns a chart of the amounts insured and the reserves of the groups, side by side."""
    some = list(groups.items())[-MOST_GROUPS:]
    axes = charts.Axes(keys_text(keys), [group_text(keys, name) for name, _ in some], "amount")
    series = [charts.Series("amount insured", "c2", [sums.amount for _, sums in some]),
              charts.Series("reserve, upper bound", "c1", [sums.bounds[-1] for _, sums in some])]
    left = f"<p>The last {len(some)} of {len(groups)} groups.</p>" if len(some) < len(groups) else ""
    return charts.columns(f"Amount insured and reserve by {keys_text(keys)}", axes, series) + left


def sheets(tables: Tables, total: Sums, columns: Sequence[str]) -> list[str]:
    parts = []
    for keys, groups in tables:
        cells = [[group_text(keys, name), *map(apart, sums.cells())] for name, sums in groups.items()]
        parts += [f"<div class=\"whole\"><h2>By {keys_text(keys)}</h2>", chart_of(keys, groups), "</div>",
                  table([keys_text(keys), *columns], cells, ["total", *map(apart, total.cells())])]
    return parts


def sampled(papers: Papers | None) -> list[str]:
    """Returns the sampled rows, each worked out beside the printed one."""
    if papers is None:
        return ["<h2>Sampled rows</h2><p>Every row has a reserve of 0, so none was drawn.</p>"]
    sample = papers.sample
    parts = [f"<h2>Sampled rows</h2><p>{len(papers.all)} rows, drawn by the upper bound of the reserve with the seed "
             f"{sample.seed}: the same seed draws the same rows.</p>", contents(papers)]
    for _, paper in papers.all:
        policy = paper.policy
        verdict = "The printed row is what was worked out." if paper.is_right else "The printed row isn't what was worked out."
        parts += [f"<section id=\"policy-{policy.number}\"><h3>Policy {policy.number}</h3>",
                  f"<p{'' if paper.is_right else ' class=wrong'}>{verdict} Basis {escape(paper.basis_row)}.</p>",
                  f"<pre>{escape(chr(10).join(paper.worked))}</pre>", f"<pre>{escape(postings_text(paper))}</pre></section>"]
    return parts


def checks_of(valuation: ColumnValuation, told: Mapping[str, str], papers: Papers | None, bases: Sequence[str]) -> list[str]:
    """Returns the commands with which anybody can check the page against the book, and what each has to print."""
    at, on, basis = valuation.position, valuation.on, f" --basis {bases[0]}"
    measure = "" if valuation.measure == "terminal" else f" --{valuation.measure}"
    steps = [("The journal up to this position", f"head -c {17 + 65 * at} journal.life | sha256sum",
              told["journal"].removeprefix("SHA-256 ").partition(" ")[0]),
             ("The total", f"life-tools at {at} value {on}{measure}{basis} | tail -n 1",
              ",".join(["total", *(money(each).replace(",", "") for each in valuation.total), str(valuation.words)]))]
    if papers is not None:
        sample = papers.sample
        drawn = f"{sample.asked} --seed {sample.seed} --on {on} --at {at}{measure}{basis}"
        steps += [("The sample", f"life-tools audit sample {drawn}",
                   f"sample,{sample.by},{sample.asked},{sample.seed},{sample.total},{sample.start},... and the rows above"),
                  ("The sampled rows, by the exact formulas", f"life-tools check-values journal.life {bases[0]} SAMPLE",
                   f"{len(sample.rows)} of {sample.policies} rows are right"),
                  ("The seal, kept as a file", "life-tools seal --check SEAL", "status 0")]
    items = "".join(f"<li>{escape(says)}: <code>{escape(command)}</code><br>has to give <code>{escape(wanted)}</code></li>"
                    for says, command, wanted in steps)
    return ["<h2>Check this yourself</h2><p>In the folder of the book, with <code>life-tools</code>; SAMPLE is a file with what "
            f"the third line prints, and SEAL one with the lines of the seal above.</p><ol>{items}</ol>"]


def bundle(title: str, told: Mapping[str, str], valuation: ColumnValuation, total: Sums, tables: Tables, heads: Sequence[str],
           papers: Papers | None, bases: Sequence[str]) -> str:
    """Returns the whole page."""
    seal = [] if papers is None else ["<h2>Seal</h2>", f"<pre>{escape(text_of(papers.books[0].seal))}</pre>"]
    columns = ["policies", "insured", "amount insured", *heads, NOT_VALUED]
    parts = [fact_list(told), "<p>Amounts in the journal's currency. The exact reserve lies between the lower and the upper "
             "bound. Each table adds up to the total that the program printed.</p>", facts(valuation, total, heads),
             *sheets(tables, total, columns), f"<h2>Policies {NOT_VALUED}</h2>", words_of(valuation.rows), *sampled(papers),
             *seal, *checks_of(valuation, told, papers, bases)]
    return whole_page(title, STYLE + PRINTED + CHARTS, told, parts)
