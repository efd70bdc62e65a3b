"""Reads the records of a journal as columns, and finds those that encode no command.

Each column has one value for each record, in their order: the record at place n, counted from 0, is the command at position n +
1. `commands.command_in` decides the same for a single record.
"""
from __future__ import annotations

from dataclasses import dataclass, fields
from typing import Iterable, Iterator

from life_tools.rules.commands import BODY_SIZE, Command
from life_tools.journal.day_columns import FIRST, LAST, day_at
from life_tools.common.formats import FIELDS, KINDS, PLANS, demand, opened
from life_tools.journal.file import FIRST_GATE, RECORD_SIZE, gate_of
from life_tools.common.arrays import Array, Cents, np
from life_tools.journal.blocks import AT_ONCE, Blocks, prefix_at
from life_tools.rules.tables import most_cents, terms_fit

# A record as it is stored in the file. The bytes after the premium are 0 for every kind. An amount of 2^63 or more is below 0
# here, and therefore outside its limits as well.
RECORD = np.dtype([("gate", "u1"), ("kind", "u1"), ("plan", "u1"), ("age", "u1"), ("years", "u1"), ("number", ">u4"),
                   ("day", ">i4"), ("amount", ">i8"), ("premium", ">i8"), ("idle", "u1", 36)])
assert RECORD.itemsize == RECORD_SIZE == BODY_SIZE + 1
# ROW records are a whole number of 64-bit words; IDLE has the bits of these words that must be 0
ROW = 64
IDLE = np.frombuffer(ROW * (bytes(RECORD_SIZE - RECORD["idle"].itemsize) + b"\xff" * RECORD["idle"].itemsize), np.uint64)
ISSUE, PREMIUM, ALTER, LAPSE, REINSTATE, CLAIM, SETTLE, MATURE, UPGRADE, PAIDUP = KINDS


@dataclass(frozen=True)
class Records:
    """Kinds by their codes; plan, age and years for an issue, else 0; days from 1970-01-01; cents. An upgrade has only a kind."""

    kind: Array
    plan: Array
    age: Array
    years: Array
    number: Array
    day: Array
    amount: Cents
    premium: Cents

    def __len__(self) -> int:
        return len(self.kind)

    def part(self, start: int, end: int) -> Records:
        return Records(*(getattr(self, column.name)[start:end] for column in fields(self)))

    def front(self, count: int) -> Records:
        return self.part(0, count)

    def command(self, place: int) -> Command:
        """Returns the command at a place as an object."""
        return next(self.commands(np.array([place])))

    def commands(self, places: Array) -> Iterator[Command]:
        """Yields the commands at some places as objects."""
        for start in range(0, len(places), AT_ONCE):
            columns = (getattr(self, column.name)[places[start:start + AT_ONCE]].tolist() for column in fields(self))
            for kind, plan, age, years, number, day, amount, premium in zip(*columns):
                on = None if kind == UPGRADE else day_at(day)
                yield Command(KINDS[kind], number, on, PLANS[plan] if plan else "", age, years, amount, premium)

    def places_of(self, number: int) -> Array:
        """Returns the places of a policy's commands."""
        return np.flatnonzero(self.number == number)


def blank(count: int) -> Records:
    kinds = (np.uint8, np.uint8, np.uint8, np.uint8, np.uint32, np.int32, np.int64, np.int64)
    return Records(*(np.empty(count, kind) for kind in kinds))


def with_room(records: Records) -> Records:
    """Returns columns with twice the capacity that begin with these records."""
    more = blank(max(len(records), AT_ONCE))
    return Records(*(np.concatenate([getattr(each, column.name) for each in (records, more)]) for column in fields(Records)))


def limits(of: dict[str, tuple[int, int]]) -> tuple[Array, Array]:
    """Returns the least and the greatest value of a field by the code of the kind; both are 0 for a kind without the field."""
    pairs = [of.get(KINDS.get(code, ""), (0, 0)) for code in range(256)]
    return np.array([least for least, _ in pairs], np.int64), np.array([most for _, most in pairs], np.int64)


AMOUNTS, PREMIUMS = (limits({kind: (1, most_cents(kind)) for kind, held in FIELDS.items() if name in held})
                     for name in ("amount", "premium"))


def is_within(values: Array, kinds: Array, of: tuple[Array, Array]) -> Array:
    least, most = of
    right: Array = (least[kinds] <= values) & (values <= most[kinds])
    return right


def is_issue_right(plan: Array, age: Array, years: Array) -> Array:
    """Returns which issues have a plan, an age and years that fit together."""
    right: Array = (plan >= 1) & (plan <= len(PLANS)) & terms_fit(plan, age.astype(np.int16), years)
    return right


def is_right(block: Records) -> Array:
    """Returns which records encode a valid command; the bytes after the premium are not checked here."""
    kind, plan, age, years = block.kind, block.plan, block.age, block.years
    # if all records are of one kind, its limits are looked up only once
    kinds = kind[:1] if (kind == kind[0]).all() else kind
    right = is_within(block.amount, kinds, AMOUNTS) & is_within(block.premium, kinds, PREMIUMS)
    right &= (kinds >= ISSUE) & (kinds <= PAIDUP)
    issue, fits = kind == ISSUE, (plan | age | years) == 0
    fits[issue] = is_issue_right(plan[issue], age[issue], years[issue])
    upgrade, dated = kind == UPGRADE, (block.number >= 1) & (block.day >= FIRST) & (block.day <= LAST)
    dated[upgrade] = (block.number[upgrade] == 0) & (block.day[upgrade] == 0)
    right &= fits & dated
    return right


def take_block(raw: Array, block: Records) -> None:
    """Copies the fields of some records of the file into the columns of `block`."""
    for column in fields(block):
        getattr(block, column.name)[:] = raw[column.name]


def has_idle_bytes(block: memoryview, raw: Array) -> Array:
    """Returns which records of a block have a byte after their premium that is not 0."""
    rows, found = len(raw) // ROW, np.zeros(len(raw), bool)
    words = np.frombuffer(block, np.uint64, len(IDLE) * rows).reshape(rows, len(IDLE))
    has_none = not (np.bitwise_or.reduce(words, axis=0) & IDLE).any()
    start = ROW * rows if has_none else 0
    found[start:] = raw["idle"][start:].any(axis=1)
    return found


def records_in(parts: Iterable[memoryview], room: int) -> tuple[Records, bytes | None]:
    """Returns the columns of the records up to the first one that encodes no command, and the body of that record or None."""
    records, count, misspelled = blank(room), 0, None
    for part in parts:
        if misspelled is not None or not part:
            continue
        raw = np.frombuffer(part, RECORD)
        records = records if count + len(raw) <= len(records) else with_room(records)
        block = records.part(count, count + len(raw))
        take_block(raw, block)
        wrong = ~is_right(block) | has_idle_bytes(part, raw)
        first = int(wrong.argmax()) if wrong.any() else len(raw)
        if first < len(raw):
            misspelled = raw[first:first + 1].tobytes()[1:]
        count += first
    return records.front(count), misspelled


def records_of(blocks: Blocks) -> tuple[Records, bytes | None]:
    """Returns the columns of a journal's records, and the body of the first one that encodes no command, or None."""
    return records_in(blocks, blocks.room)


def raw_records(data: bytes, count: int) -> Array:
    """Returns the first `count` records of a file's bytes as they are stored."""
    return np.frombuffer(data, RECORD, count, FIRST_GATE) if count else np.empty(0, RECORD)


def records_behind(path: str, first: int, last: int) -> Records:
    """Returns the columns of a copy's records after position `first` up to `last`; no other records are read."""
    with opened(path) as file:
        file.seek(gate_of(first))
        ends = range(first + AT_ONCE, last + AT_ONCE, AT_ONCE)
        parts = (memoryview(file.read(RECORD_SIZE * (min(end, last) - (end - AT_ONCE)))) for end in ends)
        records, misspelled = records_in(parts, last - first)
    demand(misspelled is None, f"{path}: record {first + len(records) + 1} spells no command")
    return records


# --- some policies alone, of a file whose records aren't judged ---

def places_in(data: bytes, count: int, numbers: Iterable[int]) -> Array:
    """Returns the places of the commands of these policies among a file's first records, whatever else these records hold."""
    raw, wanted = raw_records(data, count), np.array(sorted(set(numbers)), np.uint32)
    found = [start + np.flatnonzero(np.isin(raw["number"][start:start + AT_ONCE].astype(np.uint32), wanted))
             for start in range(0, count, AT_ONCE)]
    return np.concatenate([np.empty(0, np.int64), *found])


def places_at(path: str, count: int, numbers: Iterable[int]) -> list[int]:
    """Does the same for a file that has at least so many records."""
    places: list[int] = places_in(prefix_at(path, count), count, numbers).tolist()
    return places


def days_at(path: str, count: int) -> tuple[Array, int]:
    """Returns the days of a copy's first records as numbers, and the upgrade's position or 0; nothing else of them is judged."""
    raw = np.fromfile(path, RECORD, count, offset=FIRST_GATE) if count else np.empty(0, RECORD)
    upgrades = np.flatnonzero(raw["kind"] == UPGRADE)
    return raw["day"].astype(np.int32), int(upgrades[0]) + 1 if len(upgrades) else 0


def upgrade_in(data: bytes, count: int) -> int:
    """Returns the position of the first upgrade among a file's first records, or 0."""
    return data[FIRST_GATE + 1:FIRST_GATE + RECORD_SIZE * count:RECORD_SIZE].find(UPGRADE) + 1
