"""Reads what `life value` and `life state` print in bulk: millions of lines, block by block, into numpy columns.

`printed_books` reads the same texts line by line into objects, and a test compares the two. A block ends at the end of a line.
Each field must have the form that the program prints, and the sums of the rows must equal the printed total.
"""
from __future__ import annotations

import datetime
import os
from collections import deque
from concurrent.futures import Future, ThreadPoolExecutor
from dataclasses import dataclass, fields
from functools import partial
from itertools import chain
from typing import Callable, Generic, Iterable, Iterator, NamedTuple, Sequence, TypeVar

from life_tools.common.arrays import Array, Cents, np
from life_tools.rules.commands import EPOCH
from life_tools.rules.tables import ACCOUNTS, OLDEST_AT_ISSUE
from life_tools.journal.day_columns import FIRST, LAST
from life_tools.common.formats import (MOST_NUMBER, MOST_YEARS, PLANS, STATUSES, Wrong, day_in, demand, measure_of, money,
                                       number_of, printed_cents)
from life_tools.journal.policy_columns import Policies, issue_terms
from life_tools.valuations.printed_books import ValuedRow
from life_tools.reserves.worked_rows import WORDS

LINE_END, COMMA, POINT, MINUS, ZERO = b"\n,.-0"
# BLOCK is the least number of bytes in a block, unless the text is shorter. THREADS threads read blocks, since numpy lets them
# run in parallel, and WAITING more blocks may wait for a thread.
BLOCK, THREADS, WAITING = 1 << 20, min(os.cpu_count() or 1, 3), 8
# number of bytes of a text that are read as one little-endian number, a word
WORD = 8
# masks for the first n and for the last n bytes of a word; HIGHEST has the highest bit of each byte, EACH the lowest
FIRSTS = np.array([2**(8 * many) - 1 for many in range(WORD)] + [2**64 - 1], np.uint64)
LASTS = ~FIRSTS[::-1]
HIGHEST, EACH = np.uint64(0x8080808080808080), np.uint64(0x0101010101010101)
# steps that add up neighbouring digits, then pairs, then fours: the factor, the shift, and the mask of what is kept
ADDED = [(np.uint64(ten << many | 1), np.uint64(many), np.uint64(kept)) for many, ten, kept in (
    (8, 10, 0x00ff00ff00ff00ff), (16, 100, 0x0000ffff0000ffff), (32, 10000, 0x00000000ffffffff))]
NO_WORDS = ("", *WORDS)
PREMIUMS = ("", "short", "enough", "close")


def blocks_of(parts: Iterable[bytes]) -> Iterator[bytes]:
    """Yields a text that comes in parts as blocks of whole lines."""
    held: list[bytes] = []
    size = 0
    for part in parts:
        held.append(part)
        size += len(part)
        if size >= BLOCK and (end := part.rfind(b"\n") + 1):
            yield b"".join([*held[:-1], part[:end]])
            held, size = [part[end:]], len(part) - end
    if size:
        demand(held[-1].endswith(b"\n"), "the last line isn't ended")
        yield b"".join(held)


class Field(NamedTuple):
    """A field of some lines: where it begins and ends in each, its lengths, and the least and the greatest length."""

    begins: Array
    ends: Array
    length: Array
    least: int
    most: int

    def mask(self, masks: Array, less: int = 0) -> Array:
        """Returns the masks for the field's lengths, at most a whole word, each for `less` bytes fewer."""
        is_one = self.least == self.most or self.least >= WORD
        length = np.minimum(self.length[:1] if is_one else self.length, WORD)
        mask: Array = masks[length - less]
        return mask


def between(begins: Array, ends: Array) -> Field:
    length = ends - begins
    return Field(begins, ends, length, int(length.min(initial=2 * WORD)), int(length.max(initial=0)))


@dataclass(frozen=True)
class Fields:
    """Lines of a block with the same number of fields: their places in the block, where each begins, and where its fields end.

    The text has one word of zero bytes before it and one after it.
    """

    text: Array
    lines: Array | slice
    starts: Array
    ends: Array

    def __len__(self) -> int:
        return len(self.starts)

    @property
    def words(self) -> Array:
        """Returns the words of the text, one beginning at each byte."""
        return np.ndarray(len(self.text) - WORD + 1, "<u8", self.text, strides=(1,))

    def field(self, field: int) -> Field:
        return between(self.ends[:, field - 1] + 1 if field else self.starts, self.ends[:, field])

    def wrong(self, right: Array) -> None:
        """Raises Wrong with the first line for which `right` is false, if there is one."""
        if not right.all():
            at = int(right.argmin())
            line = self.text[self.starts[at]:self.ends[at, -1]].tobytes().decode("ascii", "replace")
            raise Wrong(f"{line[:200]} isn't a line that life prints there")

    def demand_length(self, field: Field, least: int, most: int) -> None:
        if field.least < least or field.most > most:
            self.wrong((field.length >= least) & (field.length <= most))

    def digits(self, words: Array, mask: Array) -> Array:
        """Returns the numbers of the digits at the end of words."""
        digits: Array = (words ^ EACH * np.uint64(ZERO)) & mask
        # a byte above 9 now has its highest bit set, if it had not before
        high = digits + EACH * np.uint64(0x80 - 10) | digits
        if np.bitwise_or.reduce(high) & HIGHEST:
            self.wrong(high & HIGHEST == 0)
        for factor, many, kept in ADDED:
            digits *= factor
            digits >>= many
            digits &= kept
        return digits.view(np.int64)

    def number(self, field: Field) -> Array:
        """Returns the numbers of fields with at most sixteen digits."""
        self.demand_length(field, 1, 2 * WORD)
        number = self.digits(self.words[field.ends - WORD], field.mask(LASTS))
        if field.most > WORD:
            number += 10**WORD * self.higher(field)
        return number

    def higher(self, field: Field) -> Array:
        """Returns the numbers of the digits before the last eight."""
        return self.digits(self.words[np.maximum(field.ends - 2 * WORD, 0)], LASTS[np.clip(field.length - WORD, 0, WORD)])

    def whole(self, field: int, most: int) -> Array:
        of = self.field(field)
        value = self.number(of)
        self.wrong((value <= most) & ((self.text[of.begins] != ZERO) | (of.length == 1)))
        return value

    def cents(self, field: int) -> Cents:
        """Returns amounts in cents; a field has digits without a leading zero, a point and two digits, and may have a sign."""
        of = self.field(field)
        below = self.text[of.begins] == MINUS
        of = between(of.begins + below, of.ends) if below.any() else of
        self.demand_length(of, 4, 2 * WORD)
        self.wrong((self.text[of.begins] != ZERO) | (of.length == 4))
        last = self.words[of.ends - WORD]
        self.wrong(last >> np.uint64(40) & np.uint64(0xff) == POINT)
        # the digits before the point move into its place
        joined = (last & FIRSTS[5]) << np.uint64(8) | last & LASTS[2]
        cents = self.digits(joined, of.mask(LASTS, 1))
        if of.most > WORD:
            cents += 10**(WORD - 1) * self.higher(of)
        return np.where(below, -cents, cents) if below.any() else cents

    def days(self, field: int) -> Array:
        """Returns days YYYY-MM-DD as numbers from 1970-01-01."""
        of = self.field(field)
        self.demand_length(of, 10, 10)
        self.wrong((self.text[of.begins + 4] == MINUS) & (self.text[of.begins + 7] == MINUS))
        year, month, day = (self.number(between(of.begins + first, of.begins + end)) for first, end in ((0, 4), (5, 7), (8, 10)))
        found = np.searchsorted(SPELLED, year * 10000 + month * 100 + day)
        self.wrong(SPELLED[np.minimum(found, len(SPELLED) - 1)] == year * 10000 + month * 100 + day)
        days: Array = (found + FIRST).astype(np.int32)
        return days

    def codes(self, field: int, words: Sequence[str]) -> Array:
        """Returns the index of each field's word among these words, which have at most sixteen letters."""
        of, code = self.field(field), np.full(len(self), len(words), np.uint8)
        first, left = self.words[of.begins] & of.mask(FIRSTS), len(self)
        for place, word in enumerate(words):
            if not word or not left or not of.least <= len(word) <= of.most:
                continue
            spelled = np.frombuffer(word.encode().ljust(2 * WORD, b"\0"), "<u8")
            is_this = (first == spelled[0]) & (of.length == len(word))
            if len(word) > WORD:
                is_this &= self.words[of.begins + WORD] & FIRSTS[len(word) - WORD] == spelled[1]
            code[is_this] = place
            left -= np.count_nonzero(is_this)
        self.wrong(code < len(words))
        return code


def spelled_days() -> Array:
    """Returns the days of the calendar as numbers YYYYMMDD."""
    days = np.arange(FIRST, LAST + 1, dtype="datetime64[D]")
    months, years = days.astype("datetime64[M]"), days.astype("datetime64[Y]")
    year = years.astype(np.int64) + EPOCH.year
    month = (months - years.astype("datetime64[M]")).astype(np.int64) + 1
    found: Array = year * 10000 + month * 100 + (days - months.astype("datetime64[D]")).astype(np.int64) + 1
    return found


SPELLED = spelled_days()


def fields_in(block: bytes) -> dict[int, Fields]:
    """Returns the lines of a block, by the number of their fields."""
    text = np.frombuffer(b"".join((bytes(WORD), block, bytes(WORD))), np.uint8)
    is_end = text == LINE_END
    separators, many = np.flatnonzero(is_end | (text == COMMA)), np.count_nonzero(is_end)
    count = len(separators) // max(many, 1)
    if count * many == len(separators) and is_end[separators[count - 1::max(count, 1)]].all():
        ends = separators.reshape(many, count)
        return {count: Fields(text, slice(None), np.append(WORD, ends[:-1, -1] + 1), ends)} if many else {}
    lasts = np.flatnonzero(is_end[separators])
    counts, starts = np.diff(lasts, prepend=-1), np.append(WORD, separators[lasts[:-1]] + 1)
    found = {}
    for count in np.flatnonzero(np.bincount(counts)).tolist():
        lines = np.flatnonzero(counts == count)
        found[count] = Fields(text, lines, starts[lines], separators[lasts[lines][:, None] + np.arange(1 - count, 1)])
    return found


Read = TypeVar("Read")


def read_in_threads(read: Callable[[bytes], Read], blocks: Iterable[bytes]) -> Iterator[Read]:
    """Yields what `read` makes of each block, in the order of the blocks; threads read them."""
    with ThreadPoolExecutor(THREADS) as pool:
        waiting: deque[Future[Read]] = deque()
        for block in blocks:
            waiting.append(pool.submit(read, block))
            if len(waiting) > THREADS + WAITING:
                yield waiting.popleft().result()
        while waiting:
            yield waiting.popleft().result()


# --- a valuation ---

@dataclass(frozen=True)
class Rows:
    """Rows of a valuation in order of issue: numbers, statuses and words as codes (0 is no word), years, bounds in cents."""

    number: Array
    status: Array
    year: Array
    word: Array
    # a column for each bound; 0 if the row has a word
    bounds: Cents
    # by `deficiency`, the code of the word that says whether the premium is enough
    premium: Array

    def __len__(self) -> int:
        return len(self.number)

    def row(self, place: int) -> ValuedRow:
        return ValuedRow(int(self.number[place]), STATUSES[int(self.status[place]) - 1], int(self.year[place]),
                         tuple(self.bounds[place].tolist()), NO_WORDS[int(self.word[place])], PREMIUMS[int(self.premium[place])])


class ColumnValuation(NamedTuple):
    """A valuation: its day, position, measure, rows, the printed sums, and the number of rows with a word."""

    on: datetime.date
    position: int
    measure: str
    rows: Rows
    total: tuple[int, ...]
    words: int


def joined_columns(of: type, parts: Sequence[object]) -> list[Array]:
    return [np.concatenate([getattr(part, column.name) for part in parts]) for column in fields(of)]


def bounds_by(measure: str) -> int:
    return 4 if measure == "deficiency" else 2


def rows_in(block: bytes, bounds: int) -> Rows:
    """Returns the rows of a block that has only rows."""
    found = fields_in(block)
    count = sum(map(len, found.values()))
    made = Rows(np.zeros(count, np.uint32), np.zeros(count, np.uint8), np.zeros(count, np.uint8), np.zeros(count, np.uint8),
                np.zeros((count, bounds), np.int64), np.zeros(count, np.uint8))
    usual = 4 + bounds + (bounds == 4)
    for many, each in found.items():
        each.wrong(each.codes(0, ("row",)) == 0)
        each.wrong(np.full(len(each), many in (5, usual)))
        lines = each.lines
        made.number[lines], made.status[lines] = each.whole(1, MOST_NUMBER), each.codes(2, STATUSES) + 1
        made.year[lines] = each.whole(3, MOST_YEARS)
        if many == 5:
            made.word[lines] = each.codes(4, NO_WORDS)
            each.wrong(made.word[lines] > 0)
            continue
        for place in range(bounds):
            made.bounds[lines, place] = each.cents(4 + place)
        if bounds == 4:
            made.premium[lines] = each.codes(8, PREMIUMS)
            each.wrong(made.premium[lines] > 0)
    return made


def head_in(line: bytes) -> tuple[datetime.date, int, str, int]:
    """Returns the day, position and measure on a valuation's first line, and the number of rows that it states."""
    head = line.decode("ascii", "replace").split(",")
    measure = measure_of(head)
    position, count = (number_of(text, 0, MOST_NUMBER) for text in head[3:5]) if measure else (None, None)
    if measure is None or position is None or count is None:
        raise Wrong("that is no valuation that life value prints")
    return day_in(head[2]), position, measure, count


def valuation_of(parts: Iterable[bytes]) -> ColumnValuation:
    """Returns the only valuation of a text; its rows must add up to its total."""
    blocks = blocks_of(parts)
    line, _, begun = next(blocks, b"").partition(b"\n")
    head, last = head_in(line), [b""]

    def rows() -> Iterator[bytes]:
        for block in chain((begun,), blocks):
            held = last[0] + block
            # the last line may be the total
            at = held.rfind(b"\n", 0, -1) + 1
            last[0] = held[at:]
            if at:
                yield held[:at]

    found = list(read_in_threads(partial(rows_in, bounds=bounds_by(head[2])), rows()))
    return whole_valuation(*head, found, last[0])


def whole_valuation(on: datetime.date, position: int, measure: str, count: int, found: list[Rows],
                    last: bytes) -> ColumnValuation:
    bounds = bounds_by(measure)
    line = last.decode("ascii", "replace").rstrip("\n")
    fields_of_total = line.split(",")
    demand(fields_of_total[0] == "total" and len(fields_of_total) == bounds + 2, f"{line} is no total of a valuation")
    total, words = tuple(map(printed_cents, fields_of_total[1:-1])), number_of(fields_of_total[-1], 0, MOST_NUMBER)
    rows = Rows(*joined_columns(Rows, found)) if found else rows_in(b"", bounds)
    demand(len(rows) == count, f"{count} rows are said, and there are {len(rows)}")
    sums = tuple(sums_of(rows.bounds))
    demand(sums == total, f"the rows add up to {' and '.join(map(money, sums))}, and the total is {line}")
    demand(words == np.count_nonzero(rows.word), f"{line}: another number of rows has a word")
    assert words is not None
    return ColumnValuation(on, position, measure, rows, total, words)


def sums_of(columns: Cents) -> list[int]:
    """Returns the sums of columns of cents; they fit in 64 bits, because there are at most 4,000,000 bounds of at most 10^10."""
    sums: list[int] = columns.sum(axis=0, dtype=np.int64).tolist()
    return sums


# --- a state ---

@dataclass(frozen=True)
class StatePolicies:
    """The fields of the policies printed by `state` that groups need: plans and statuses as codes, days from 1970-01-01,
    cents."""

    number: Array
    status: Array
    plan: Array
    age: Array
    issued: Array
    amount: Cents

    def __len__(self) -> int:
        return len(self.number)


@dataclass(frozen=True)
class WholePolicies(StatePolicies):
    """All fields of the policies that `state` prints."""

    years: Array
    premium: Cents
    paid: Array
    outstanding: Cents


P = TypeVar("P", bound=StatePolicies)
# for each column, how it is read from a policy's line
READ: dict[str, Callable[[Fields], Array]] = {
    "number": lambda each: each.whole(1, MOST_NUMBER).astype(np.uint32), "status": lambda each: each.codes(2, STATUSES) + 1,
    "plan": lambda each: each.codes(3, tuple(PLANS.values())) + 1,
    "age": lambda each: each.whole(4, OLDEST_AT_ISSUE).astype(np.uint8),
    "years": lambda each: each.whole(5, MOST_YEARS).astype(np.uint8), "amount": lambda each: each.cents(6),
    "premium": lambda each: each.cents(7), "issued": lambda each: each.days(8),
    "paid": lambda each: each.whole(9, MOST_YEARS).astype(np.int16), "outstanding": lambda each: each.cents(10)}


@dataclass(frozen=True)
class ColumnState(Generic[P]):
    """The policies, the balances of the accounts in cents, and the number of postings."""

    policies: P
    balances: dict[str, int]
    count: int


def policies_in(block: bytes, of: type[P]) -> P:
    """Returns the policies of a block that has only policies."""
    found = fields_in(block)
    each = found.get(11)
    demand(len(found) == 1 and each, f"{block[:80]!r} begins no policies of a state")
    assert each is not None
    each.wrong(each.codes(0, ("policy",)) == 0)
    # fields that are not asked for are checked as well
    columns = {name: read(each) for name, read in READ.items()}
    return of(**{column.name: columns[column.name] for column in fields(of)})


def read_state(parts: Iterable[bytes], of: type[P]) -> ColumnState[P]:
    """Returns what a run of `state` printed."""
    rest = [b""]

    def policies() -> Iterator[bytes]:
        for block in blocks_of(parts):
            # the balances and the count follow the policies
            is_in = not rest[0] and block.startswith(b"policy,")
            at = (block.find(b"\nbalance,") + 1 or len(block)) if is_in else 0
            rest[0] += block[at:]
            if at:
                yield block[:at]

    found = list(read_in_threads(partial(policies_in, of=of), policies()))
    balances, count = balances_in(rest[0])
    made = joined_columns(of, found) if found else [np.empty(0, np.int64) for _ in fields(of)]
    return ColumnState(of(*made), balances, count)


def state_of(parts: Iterable[bytes]) -> ColumnState[StatePolicies]:
    """Returns the book that a run of `state` printed, with only the policies' fields that groups need."""
    return read_state(parts, StatePolicies)


def whole_state_of(parts: Iterable[bytes]) -> ColumnState[WholePolicies]:
    """Does the same with all fields of the policies."""
    return read_state(parts, WholePolicies)


def printed_policies(of: WholePolicies) -> Policies:
    """Returns the policies of a printed state.

    It does not have the day of the last posting, so the day of issue takes its place.
    """
    # if there are no policies, the columns have the wrong type
    plan, age, years, issued = (column.astype(kind) for column, kind in zip((of.plan, of.age, of.years, of.issued),
                                                                            (np.uint8, np.uint8, np.uint8, np.int32)))
    return Policies(of.number, *issue_terms(plan, age, years, issued), of.amount, of.premium, issued.copy(), of.status, of.paid,
                    of.outstanding)


def balances_in(text: bytes) -> tuple[dict[str, int], int]:
    """Returns the balances and the count from the lines after the policies."""
    *lines, last = text.decode("ascii", "replace").splitlines() or [""]
    count = number_of(last[6:], 0, MOST_NUMBER) if last.startswith("count,") else None
    heads = [line.rpartition(",")[0] for line in lines]
    if count is None or heads != [f"balance,{account}" for account in ACCOUNTS]:
        raise Wrong("the state doesn't end with its balances and its count")
    return {account: printed_cents(line.rpartition(",")[2]) for account, line in zip(ACCOUNTS, lines)}, count
