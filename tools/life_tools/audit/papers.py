"""Makes the papers of a sample, book by book: each drawn policy with its worked row, its postings and its basis row."""
from __future__ import annotations

import os
from dataclasses import dataclass, replace
from fractions import Fraction
from typing import Iterable, Iterator, NamedTuple, Sequence

from life_tools.common.arrays import Cents, np
from life_tools.valuations.class_bases import BasisRows, Bases
from life_tools.valuations.class_columns import valued_columns
from life_tools.journal.columns import Columns, columns_at
from life_tools.rules.commands import words_of
from life_tools.journal.copied_folder import JOURNAL
from life_tools.journal.day_columns import day_at
from life_tools.audit.drawn_samples import Drawable, drawable_of
from life_tools.valuations.explained_rows import compared
from life_tools.common.formats import Wrong, demand
from life_tools.journal.at_position import BookAt, book_at
from life_tools.valuations.groups import demand_same
from life_tools.valuations.printed_books import ValuedRow, policy_of
from life_tools.valuations.printed_columns import blocks_of, state_of
from life_tools.common.program import program_asked
from life_tools.common.progress import Progress
from life_tools.reports.provenance import book_name
from life_tools.reserves.exact import row_for
from life_tools.rules.policies import Policy
from life_tools.audit.samples import Sample
from life_tools.audit.sampling import Draw, chance_of, draw
from life_tools.journal.seals import Seal, seal_of
from life_tools.tables.basis import BasisRow
from life_tools.reserves.worked_rows import Worked


class NotTheSample(Wrong):
    """A sample is not what its seed draws from the book."""


@dataclass(frozen=True)
class Paper:
    """The paper of one policy: its printed row, size and chance, the worked lines and whether they agree, postings, basis row."""

    policy: Policy
    row: ValuedRow
    size: int
    chance: Fraction
    worked: list[str]
    is_right: bool
    postings: list[tuple[int, str]]
    basis_row: str


class BookPapers(NamedTuple):
    """A book's part of a sample, with the seal of the book at its position, and the papers of its drawn policies."""

    book: str
    sample: Sample
    seal: Seal
    papers: list[Paper]


class Sheets(NamedTuple):
    """A book's papers, the size of each of its rows, and the places of the drawn rows, for drawing them once more."""

    of: BookPapers
    sizes: Cents
    places: list[int]


@dataclass(frozen=True)
class Papers:
    """All papers of a sample, book by book, and how it was drawn."""

    title: str
    draw: Draw
    books: list[BookPapers]
    # what the papers state about the program that printed the rows
    program: dict[str, str]

    @property
    def sample(self) -> Sample:
        return self.books[0].sample

    @property
    def all(self) -> list[tuple[BookPapers, Paper]]:
        return [(book, paper) for book in self.books for paper in book.papers]

    @property
    def wrong(self) -> list[int]:
        return [paper.policy.number for _, paper in self.all if not paper.is_right]


def postings_in(book: Columns, number: int) -> list[tuple[int, str]]:
    """Returns a policy's postings as lines of a script, each with its position."""
    places = book.records.places_of(number)
    return [(int(place) + 1, ",".join(words_of(command))) for place, command in zip(places, book.records.commands(places))]


def basis_row_of(basis: Sequence[BasisRow], policy: Policy) -> str:
    row = row_for(basis, policy.issued)
    if row is None:
        return "none: it was issued before the first day of the basis"
    return f"row {list(basis).index(row) + 1}: from {row.day}, {row.name}, {row.points} basis points"


def paper_of(policy: Policy, row: ValuedRow, size: int, sample: Sample, rows: BasisRows,
             postings: list[tuple[int, str]]) -> Paper:
    name, basis = rows.of(policy.number)
    worked = Worked(policy, sample.position, sample.on, basis, sample.measure)
    status, line = compared(worked, row)
    file = f"{name}, " * (len(sample.bases) > 1)
    chance = chance_of(size, sample.total, sample.asked)
    return Paper(policy, row, size, chance, [*worked.lines, line], status == 0, postings, file + basis_row_of(basis, policy))


# --- one book ---

def passing(parts: Iterable[bytes], numbers: set[int], found: dict[int, Policy]) -> Iterator[bytes]:
    """Yields a state as it is printed, and adds the policies of these numbers to `found`."""
    begins = {b"policy,%d" % number for number in numbers}
    for block in blocks_of(parts):
        for line in block.splitlines():
            if b",".join(line.split(b",", 2)[:2]) in begins:
                policy = policy_of(line.decode("ascii", "replace"))
                found[policy.number] = policy
        yield block


def printed_in(copy: BookAt, sample: Sample, bases: Bases) -> tuple[Drawable, dict[int, Policy]]:
    """Returns what can be drawn from and the sampled policies, as the program prints them from a copy."""
    policies: dict[int, Policy] = {}
    valuation = valued_columns(copy, str(sample.on), bases, sample.measure)
    state = state_of(passing(copy.streams("state"), {row.number for row in sample.rows}, policies))
    demand_same(valuation, state)
    return drawable_of(valuation, state.policies, sample.by), policies


def places_of(sample: Sample, of: Drawable, name: str) -> list[int]:
    """Returns the places of a sample's rows, and raises NotTheSample unless the same rows are printed now."""
    found = np.flatnonzero(np.isin(of.rows.number, [row.number for row in sample.rows])).tolist()
    if len(of.rows) != sample.policies or tuple(map(of.rows.row, found)) != sample.rows:
        raise NotTheSample(f"{name} has other rows at position {sample.position} than the sample")
    places: list[int] = found
    return places


def sheets_of(sample: Sample, folder: str, name: str, bases: Bases, life: str | None = None) -> Sheets:
    """Returns the papers of a book's part of a sample."""
    with book_at(folder, sample.position, bases.names, life) as copy:
        of, policies = printed_in(copy, sample, bases)
        rows, book = BasisRows(copy.folder, bases), columns_at(os.path.join(copy.folder, JOURNAL))
        seal = seal_of(copy.folder, None, bases.names)
    places = places_of(sample, of, name)
    found, progress = [], Progress("working out rows", len(places))
    for place, row in zip(places, sample.rows):
        policy = replace(policies[row.number], last=day_at(book.policies.last[place]))
        demand(policy == book.policies.policy(place), f"the state has another policy {row.number} than the journal")
        found.append(paper_of(policy, row, int(of.sizes[place]), sample, rows, postings_in(book, row.number)))
        progress.at(len(found))
    progress.end()
    return Sheets(BookPapers(name, sample, seal, found), of.sizes, places)


# --- all books ---

def together(title: str, books: Sequence[Sheets], program: dict[str, str]) -> Papers:
    """Returns the papers of all books of a sample; it is drawn once more, and must give the same rows."""
    sample = books[0].of.sample
    drawn = draw(np.concatenate([book.sizes for book in books]), sample.asked, sample.seed)
    begins = np.cumsum([0, *(len(book.sizes) for book in books)]).tolist()
    places = [begin + place for begin, book in zip(begins, books) for place in book.places]
    if (drawn.total, drawn.start, drawn.places) != (sample.total, sample.start, places):
        raise NotTheSample(f"seed {sample.seed} draws other rows of {title}")
    return Papers(title, drawn, [book.of for book in books], program)


def papers_of(sample: Sample, folder: str, bases: Bases, life: str | None = None, title: str | None = None) -> Papers:
    """Returns the papers of a sample of one folder's book, named by the title or else by the folder."""
    told, wanted = ", ".join(bases.names), ", ".join(sample.bases)
    demand(bases.names == sample.bases, f"the sample is of {wanted}, and not of {told}")
    name = book_name(folder, title)
    return together(name, [sheets_of(sample, folder, name, bases, life)], program_asked(life).facts())
