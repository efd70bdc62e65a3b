"""Makes a page of HTML in one file that needs no network: its head and style, and what is printed on each sheet of paper."""
from __future__ import annotations

from html import escape
from typing import Mapping, Sequence

from life_tools.common.program import UNPROVED

# the bar on a page whose numbers the proved program did not print; on paper it is above each sheet as well
BAR = """
h1, h2, h3 { overflow-wrap: anywhere }
.unproved { background: #9b1c1c; color: #fff; font-weight: 600; margin: 0 0 1rem; padding: .7rem 1rem; max-width: none }
"""
PAPER = """
@page { size: A4 %(way)s; margin: 15mm 12mm 14mm;
  @top-left { content: "%(title)s"; font: 8pt system-ui, sans-serif; color: #57606a }
  @top-right { content: "%(warning)s"; font: 700 8pt system-ui, sans-serif; color: #9b1c1c }
  @bottom-right { content: "page " counter(page) " of " counter(pages); font: 8pt system-ui, sans-serif; color: #57606a } }
"""


def in_style(text: str) -> str:
    """Returns a text that can stand within the quotes of a style sheet, with all letters escaped that could end them."""
    return "".join(letter if letter.isalnum() or letter in " .,:;-()" else f"\\{ord(letter):06x}" for letter in text)


def bar_of(facts: Mapping[str, str]) -> list[str]:
    """Returns the bar above everything else if the facts name a program that is not the proved one."""
    why = facts.get(UNPROVED)
    return [f"<p class=\"unproved\">{escape(UNPROVED[:1].upper() + UNPROVED[1:])}: {escape(why)}</p>"] if why else []


def whole_page(title: str, style: str, facts: Mapping[str, str], parts: Sequence[str], is_wide: bool = False) -> str:
    """Returns the page. The title is its heading, and is printed on each sheet of paper; a wide page is in landscape format."""
    paper = PAPER % {"way": "landscape" if is_wide else "portrait", "title": in_style(title),
                     "warning": in_style(UNPROVED) if UNPROVED in facts else ""}
    return "\n".join(["<!doctype html>", "<html lang=\"en\"><head><meta charset=\"utf-8\">",
                      "<meta name=\"viewport\" content=\"width=device-width, initial-scale=1\">",
                      f"<title>{escape(title)}</title><style>{style}{BAR}{paper}</style></head><body>", *bar_of(facts),
                      f"<h1>{escape(title)}</h1>", *parts, "</body></html>", ""])


def fact_list(facts: Mapping[str, str]) -> str:
    """Returns the facts as a list of names and values."""
    return "<dl>" + "".join(f"<dt>{escape(name)}</dt><dd>{escape(text)}</dd>" for name, text in facts.items()) + "</dl>"
