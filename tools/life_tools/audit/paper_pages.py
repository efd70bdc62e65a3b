"""Makes the papers of a sample one page of HTML to print: first what was drawn and how, then a sheet for each policy."""
from __future__ import annotations

from fractions import Fraction
from html import escape
from typing import Sequence

from life_tools.common.formats import money as plain_money
from life_tools.audit.papers import BookPapers, Paper, Papers
from life_tools.reports.report_pages import STYLE, apart, money, table
from life_tools.common.revisions import made_now, revision
from life_tools.journal.seals import text_of
from life_tools.reports.whole_pages import whole_page
from life_tools.reserves.worked_rows import decimal

PLACES = 6
PRINTED = """
section { break-before: page; border-top: 2px solid #1b1f23; margin-top: 2rem }
pre { font: .8rem/1.4 ui-monospace, monospace; white-space: pre-wrap; overflow-wrap: anywhere; background: #f3f6f9;
  border-radius: .4rem; padding: .6rem .8rem }
.box { display: inline-block; width: .9rem; height: .9rem; border: 1px solid #1b1f23; vertical-align: -.1rem }
.sign { display: grid; grid-template-columns: repeat(auto-fit, minmax(12rem, 1fr)); gap: 1rem; margin: 1rem 0 }
.sign div { border-bottom: 1px solid #1b1f23; padding-top: 1.6rem; color: #57606a; font-size: .85rem }
.wrong { color: #b00020; font-weight: 600 }
@media (max-width: 30rem) { table { font-size: .68rem } th, td { padding: .3rem .2rem } th { white-space: normal } }
@media print {
  body { max-width: none; padding: 0; font-size: 10pt } section { border: 0; margin: 0 } pre { font-size: 8pt }
  .wide { overflow: visible } table { font-size: 8.5pt } th, td { padding: .15rem .35rem }
}
"""


def facts(told: Sequence[tuple[str, str]]) -> str:
    return "<div class=\"facts\">" + "".join(f"<div><span>{escape(name)}</span><b>{escape(value)}</b></div>"
                                             for name, value in told) + "</div>"


def chance_text(chance: Fraction) -> str:
    return "certain" if chance == 1 else decimal(chance, PLACES)


def signed() -> str:
    return "<div class=\"sign\"><div>looked at by</div><div>on</div><div>remarks</div></div>"


def verdict(paper: Paper) -> str:
    return "right" if paper.is_right else "wrong"


def book_facts(papers: Papers) -> list[tuple[str, str]]:
    """Returns the facts about the books and their positions."""
    if len(papers.books) == 1:
        [book] = papers.books
        return [("book", book.book), ("position", apart(str(book.sample.position)))]
    return [("books", f"{papers.title}: {len(papers.books)}")]


def cover_of(papers: Papers) -> list[str]:
    sample, draw = papers.sample, papers.draw
    policies, rows = sum(it.sample.policies for it in papers.books), sum(len(it.papers) for it in papers.books)
    told = [*book_facts(papers), ("day", str(sample.on)),
            ("measure", sample.measure), ("policies", apart(str(policies))), ("drawn by", sample.by),
            ("rows wished for", apart(str(sample.asked))), ("seed", str(sample.seed)),
            (f"total {sample.by}", money(sample.total)), ("interval", f"{money(sample.total)} / {sample.asked}"),
            ("start", f"{plain_money(sample.start)} / {sample.asked}"), ("rows drawn", apart(str(rows))),
            ("certain rows", apart(str(draw.certain))), ("rows of 0, not drawn", apart(str(draw.nothing))),
            *papers.program.items(), ("revision of the tools", revision()), ("made", made_now())]
    return [facts(told), contents(papers), *seals(papers)]


def seals(papers: Papers) -> list[str]:
    if len(papers.books) == 1:
        return ["<h2>The book's seal</h2>", f"<pre>{escape(text_of(papers.books[0].seal))}</pre>"]
    each = (f"<h3>{escape(it.book)}</h3><pre>{escape(text_of(it.seal))}</pre>" for it in papers.books)
    return ["<h2>The books' seals</h2>", *each]


def contents(papers: Papers) -> str:
    """Returns a table with a row for each drawn policy; if there is more than one book, its first column has the book."""
    are_many = len(papers.books) > 1
    rows = [[*([book.book] * are_many), str(it.policy.number), money(it.size), chance_text(it.chance),
             *([it.row.word, ""] if it.row.word else map(money, it.row.bounds)), verdict(it)]
            for book, it in papers.all]
    drawn = [paper for _, paper in papers.all]
    total = ["drawn", *([""] * are_many), money(sum(it.size for it in drawn)), "",
             *(money(sum(it.row.bounds[place] for it in drawn)) for place in range(2)), ""]
    heads = [*(["book"] * are_many), "policy", papers.sample.by, "chance", "lower bound", "upper bound", "row"]
    return "<h2>What was drawn</h2>" + table(heads, rows, total)


def postings_text(paper: Paper) -> str:
    """Returns the lines of a policy's postings, each with its position before it."""
    width = len(apart(str(paper.postings[-1][0])))
    return "\n".join(f"{apart(str(position)):>{width}}  {line}" for position, line in paper.postings)


def sheet(paper: Paper, book: BookPapers) -> list[str]:
    """Returns the sheet of a policy, which states the book and the policy."""
    policy, sample = paper.policy, book.sample
    right = "" if paper.is_right else "<p class=\"wrong\">The printed row isn't what was worked out.</p>"
    is_of = f"{book.book} on {sample.on} at position {sample.position:,}; {sample.by} {money(paper.size)}"
    return [f"<section id=\"{escape(book.book)}-{policy.number}\"><h2>Policy {policy.number}</h2>",
            f"<p>{escape(is_of)}, chance {chance_text(paper.chance)}. Basis {escape(paper.basis_row)}.</p>", right,
            f"<h3>The row, worked out</h3><pre>{escape(chr(10).join(paper.worked))}</pre>",
            f"<h3>Its postings</h3><pre>{escape(postings_text(paper))}</pre>",
            "<p><span class=\"box\"></span> application seen &ensp; <span class=\"box\"></span> premiums traced &ensp; "
            "<span class=\"box\"></span> letter answered</p>", signed(), "</section>"]


def page(papers: Papers) -> str:
    """Returns the whole page, which needs no network."""
    at = f" at position {papers.sample.position}" if len(papers.books) == 1 else ""
    title = f"Audit papers: {papers.title} on {papers.sample.on}{at}"
    parts = [*cover_of(papers), signed()]
    for book, paper in papers.all:
        parts += sheet(paper, book)
    return whole_page(title, STYLE + PRINTED, papers.program, parts)
