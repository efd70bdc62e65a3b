"""Defines what pages consist of: answers, tables with headers and cells, links to other pages."""
from __future__ import annotations

from dataclasses import dataclass, field
from typing import Any, Callable, Iterable, Mapping, Sequence, Union

from life_tools.reports.report_pages import apart

# a cell on the right has a number or an amount
RIGHT = "right"
# a tablet has space for so many columns, and for so many digits side by side
MOST_HEADS, MOST_LETTERS = 9, 88


@dataclass(frozen=True)
class Page:
    """A page: its template, its title, and the values for the template."""

    template: str
    title: str
    values: Mapping[str, Any]
    # the view of the page if it is not the one of its address
    of: Any = None


@dataclass(frozen=True)
class Progress:
    """A frame in a page: how far a piece of work is, and a link to the page with its result. A frame has no field, so it can
    reload by itself while somebody types into the page around it."""

    says: str
    link_says: str = ""
    link: str = ""
    # the frame reloads after so many seconds; 0 if there is nothing to wait for
    refresh: int = 0


@dataclass(frozen=True)
class File:
    """A download: its name, its type, and its text in parts or its bytes."""

    name: str
    kind: str
    parts: Union[Iterable[str], bytes]


@dataclass(frozen=True)
class Elsewhere:
    """The answer is a redirect to another page."""

    link: str


Answer = Union[Page, Progress, File, Elsewhere]


@dataclass(frozen=True)
class Head:
    """The header of a column; if the list can be sorted by it, the link for that, and the present direction."""

    text: str
    kind: str = ""
    link: str = ""
    sorted: str = ""


@dataclass(frozen=True)
class Cell:
    """The content of a cell: a text, perhaps with a link, or a picture."""

    text: str
    link: str = ""
    picture: str = ""


@dataclass(frozen=True)
class Table:
    """A table; each cell belongs to a header, so that rows can be shown as cards on a narrow page."""

    caption: str
    heads: Sequence[Head]
    rows: Sequence[Sequence[Cell]]
    totals: Sequence[Sequence[Cell]] = field(default_factory=list)
    # for each row, whether it is a sum of the rows above
    is_sum: Sequence[bool] = ()
    # `list` is a list of policies or postings, in which a row takes two lines on a narrow page
    kind: str = ""

    @property
    def is_wide(self) -> bool:
        """Returns whether a tablet is too narrow for the table, which then has a card for each row there."""
        columns = [column for head, column in zip(self.heads, zip(*self.rows)) if head.kind == RIGHT]
        letters = sum(max(len(cell.text) for cell in column) for column in columns)
        return len(self.heads) > MOST_HEADS or self.kind != "list" and letters > MOST_LETTERS


def cells(texts: Iterable[object]) -> list[Cell]:
    """Returns texts as cells, with separators of thousands in counts and amounts."""
    return [Cell(apart(str(text))) for text in texts]


def counted_policies(count: int) -> str:
    return f"{count:,} {'policy' if count == 1 else 'policies'}"


def heads(names: Sequence[str], left: int = 1) -> list[Head]:
    """Returns headers; the first `left` columns have words, the others numbers."""
    return [Head(name, "" if place < left else RIGHT) for place, name in enumerate(names)]


def sorting_head(says: str, kind: str, way: str, address: Callable[[str], str]) -> Head:
    """Returns the header of a column by which a list can be sorted; `way` is the present direction, or ""."""
    return Head(says, kind, address("down" if way == "ascending" else "up"), way)
