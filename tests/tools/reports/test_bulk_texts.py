"""Tests that rows of numbers and amounts which are made together are those that are made one by one."""
from hypothesis import given
from hypothesis import strategies as st

from life_tools.common.arrays import np
from life_tools.common.formats import money
from life_tools.reports.bulk_texts import COMMA, Letters

TEXTS = ["", "claims", "made paid up"]
AMOUNTS = st.one_of(st.integers(-10**15, 10**15), st.integers(-2000, 2000))


@given(st.lists(st.tuples(st.integers(0, 2**32 - 1), st.integers(0, 2), AMOUNTS), min_size=1, max_size=40))
def test_rows(rows: list[tuple[int, int, int]]) -> None:
    numbers, names, cents = (np.array(column) for column in zip(*rows))
    letters = Letters(len(rows))
    letters.add_number(numbers)
    letters.add_letter(COMMA)
    letters.add_texts(TEXTS, names)
    letters.add_letter(COMMA)
    letters.add_amount(cents)
    assert letters.text().decode() == "".join(f"{number},{TEXTS[name]},{money(amount)}\n" for number, name, amount in rows)
