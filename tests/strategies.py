"""Strategies of hypothesis for books, scripts and journals: hypothesis reduces a case that fails before it shows it.

The functions of tests/support draw from a `random.Random`; hypothesis passes them one whose choices it can undo.
"""
from random import Random
from typing import Callable, TypeVar

from hypothesis import strategies as st

from life_tools.rules.commands import Command
from tests.rules.policies import Book
from tests.support.drawn_scripts import make_book, make_script
from tests.support.lived_books import lived_by

T = TypeVar("T")
# few enough rows that hypothesis keeps each choice
ROWS = range(1, 41)


def drawn(make: Callable[[Random], T]) -> st.SearchStrategy[T]:
    """A strategy for what a function draws."""
    return st.randoms(use_true_random=False).map(make)


def scripts(policies: int = 0) -> st.SearchStrategy[str]:
    """Scripts of up to eight lanes for a book of this number of policies. Most rows are near what the rules allow."""
    return drawn(lambda draw: make_script(draw, make_book(draw, policies), ROWS))


def lived_books(most: int = 6) -> st.SearchStrategy[list[Command]]:
    """The commands of books whose policies have had premiums, lapses and claims, with an upgrade among the commands."""
    return drawn(lambda draw: lived_by(draw, draw.randrange(most + 1)))


def posted_books() -> st.SearchStrategy[list[Command]]:
    """The commands that the rows of a script post, in the order of the rows."""
    def make(draw: Random) -> list[Command]:
        book: Book = make_book(draw, draw.randrange(1, 6))
        make_script(draw, book, ROWS)
        return book.commands
    return drawn(make)
