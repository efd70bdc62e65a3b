"""Compares the reader of what `value` and `state` print that works on columns with the one that reads line by line, on drawn
texts, most of them with one byte changed. Whatever the first reader accepts, the second accepts; right texts are accepted by
both."""
from random import Random
from typing import Callable, TypeVar

import pytest

from life_tools.common.formats import PLANS, STATUSES, Wrong, money
from life_tools.journal.checkpoints import checkpoint_of
from life_tools.journal.day_columns import texts_at
from life_tools.valuations import printed_columns
from life_tools.valuations.printed_books import state_in, valuation_in
from life_tools.valuations.printed_columns import state_of, valuation_of
from tests.rules.policies import Book, balances_of
from tests.support.lived_books import lived

WORDS = ("nobasis", "belowtable", "pasttable", "ratehigh")
T = TypeVar("T")
BLOCKS = range(4)


def value_text(draw: Random, book: Book) -> str:
    measure = draw.choice(("", ",mean", ",deficiency"))
    lines, sums, words = list[str](), [0] * (4 if "def" in measure else 2), 0
    for policy in book.policies.values():
        head = f"row,{policy.number},{policy.status},{draw.randrange(132)}"
        if draw.random() < 0.1:
            lines.append(f"{head},{draw.choice(WORDS)}")
            words += 1
            continue
        bounds = [draw.randrange(draw.choice((10, 10**4, 10**10))) for _ in sums]
        sums = [one + other for one, other in zip(sums, bounds)]
        word = [draw.choice(("short", "enough", "close"))] if "def" in measure else []
        lines.append(",".join([head, *map(money, bounds), *word]))
    head = f"0,value,{draw.randrange(1990, 2040)}-02-28,{len(book.commands)},{len(lines)}{measure}"
    return "\n".join([head, *lines, ",".join(["total", *map(money, sums), str(words)])]) + "\n"


def state_text(book: Book) -> str:
    lines = [f"policy,{it.number},{it.status},{it.plan},{it.age},{it.years},{money(it.amount)},{money(it.premium)},{it.issued},"
             f"{it.paid},{money(it.outstanding)}" for it in checkpoint_of(book.commands).policies]
    lines += [f"balance,{name},{money(cents)}" for name, cents in balances_of(book.commands).items()]
    return "\n".join([*lines, f"count,{len(book.commands)}"]) + "\n"


def changed(draw: Random, text: str) -> bytes:
    data = bytearray(text.encode())
    what, at = draw.randrange(4), draw.randrange(len(data))
    if what == 1:
        del data[at]
    elif what == 2:
        data[at] = ord(draw.choice("0123456789,.-\nxrow:/"))
    elif what == 3:
        data[0:0] = draw.choice(text.splitlines(keepends=True)).encode()
    return bytes(data)


def said_of(read: Callable[[], T]) -> T | None:
    try:
        return read()
    except (Wrong, ValueError):
        return None


def parts_of(draw: Random, text: bytes) -> list[bytes]:
    """Returns the text in parts, as a pipe delivers it; the reader's blocks have another size."""
    printed_columns.BLOCK = draw.choice((50, 1000, 1 << 20))
    size = draw.choice((1, 7, 100, 10**6))
    return [text[at:at + size] for at in range(0, len(text), size)]


def compare_value(draw: Random, data: bytes) -> bool:
    """Returns whether the reader by columns accepts a valuation; if it does, both readers must agree."""
    found = said_of(lambda: valuation_of(parts_of(draw, data)))
    if found is None:
        return False
    rows = [found.rows.row(place) for place in range(len(found.rows))]
    slow = valuation_in(data.decode("ascii", "replace"))
    assert (found.on, found.position, found.measure, rows, found.total, found.words) == slow
    return True


def compare_state(draw: Random, data: bytes) -> bool:
    """Returns whether the reader by columns accepts a state; if it does, both readers must agree."""
    found = said_of(lambda: state_of(parts_of(draw, data)))
    if found is None:
        return False
    slow, of = state_in(data.decode("ascii", "replace")), found.policies
    made = [(int(number), STATUSES[status - 1], PLANS[plan], int(age), int(amount)) for number, status, plan, age, amount in
            zip(of.number, of.status, of.plan, of.age, of.amount)]
    assert made == [(it.number, it.status, it.plan, it.age, it.amount) for it in slow.policies]
    assert texts_at(of.issued) == [str(it.issued) for it in slow.policies]
    assert (found.balances, found.count) == (slow.balances, slow.count)
    return True


@pytest.mark.parametrize("block", BLOCKS)
def test_right_texts_are_taken_by_both_and_changed_ones_by_both_or_none(block: int) -> None:
    taken = []
    for seed in range(block, 1200, len(BLOCKS)):
        draw, book = Random(seed), Book(lived(seed, seed % 11))
        for compare, text in ((compare_value, value_text(draw, book)), (compare_state, state_text(book))):
            assert compare(draw, text.encode()), f"seed {seed}"
            taken.append(compare(draw, changed(draw, text)))
    assert len(taken) // 10 < sum(taken) < len(taken)


ROW = "0,value,2020-01-01,1,1\nrow,1,inforce,0,{amount},100.00\ntotal,{amount},100.00,0\n"
POLICY = ("policy,1,inforce,term,30,10,{amount},1.00,2020-01-01,0,0.00\nbalance,cash,0.00\nbalance,premiums,0.00\n"
          "balance,incurred,0.00\nbalance,payable,0.00\ncount,1\n")


@pytest.mark.parametrize(("amount", "is_taken"), {"80.00": True, "0.80": True, "080.00": False, "00.80": False, "80.0": False,
                                                  "8000": False, "-080.00": False, ".80": False, "+80.00": False}.items())
def test_an_amount(amount: str, is_taken: bool) -> None:
    draw = Random(amount)
    assert compare_value(draw, ROW.format(amount=amount).encode()) == is_taken
    assert compare_state(draw, POLICY.format(amount=amount).encode()) == is_taken
