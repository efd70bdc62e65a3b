"""Runs random scripts of eight lanes: each transcript must be one history, and the journal must hold what was accepted.

Two scripts run in each new folder, the second on the journal of the first, and what they leave is valued by each measure. In one
of four folders the first script has a book of many policies, so that a valuation takes several reads while others post and trim
between them. One of four folders is on a real disk, where a posting takes long and the others wait; three are in memory.
"""
import random
import re
from collections import Counter
from collections.abc import Callable, Iterator
from pathlib import Path

import pytest

from life_tools.common.formats import MEASURES, Wrong, money, printed_rows
from life_tools.journal.file import file_of, read_journal
from life_tools.reserves.exact import Known
from life_tools.reserves.valuation_check import check_block
from life_tools.scripts.transcript_check import check
from life_tools.tables.basis import read_basis
from tests.program.runs import Desk, case
from tests.rules.policies import Book
from tests.support.drawn_scripts import Office, make_book, make_script, value_words, valued_on
from tests.support.folders import Folder
from tests.support.made_books import lay_basis
from tests.support.program import Program

pytestmark = pytest.mark.timeout(1200)
# all reasons except `full`
REASONS = 16
MANY, PLACES = 1200, 6
Seen = Counter[str]


# --- the program ---

def run_pair(desk: Desk, draw: random.Random, is_large: bool, known: Known, seen: Seen) -> None:
    lay_basis(desk)
    basis = read_basis(str(desk.path / "basis.csv"))
    journal = file_of(make_book(draw, MANY).commands) if is_large else b""
    for _ in range(2):
        script = make_script(draw, Book(read_journal(journal).commands)).encode()
        desk.lay(journal, script)
        ended = desk.run(["run"])
        assert ended.status == 0, f"status {ended.status}, printed {ended.text[:200]!r}"
        check(script, ended.text, journal, ended.after, basis, known)
        count(ended.text, len(journal) // 65, seen)
        journal = ended.after
    policies, on = list(read_journal(journal).book.policies.values()), valued_on(draw)
    for measure in MEASURES:
        ended = desk.run(value_words(draw, on, measure))
        rows = printed_rows(ended.text)
        assert ended.status == 0 and rows[0][:3] == ["0", "value", str(on)], ended.text[:200]
        check_block(rows, policies, basis, known, measure)
        seen["rows short"] += sum(row[-1] == "short" for row in rows[1:-1] if len(row) == 9)


def count(text: str, accepted: int, seen: Seen) -> None:
    for line in printed_rows(text):
        seen["paid-up rows"] += line[0] == "row" and line[2] == "paidup"
        if line[0] in ("row", "total", "watcher"):
            continue
        if line[1] == "trim":
            seen["trims below the count"] += int(line[2]) < accepted
        elif line[1] == "value":
            seen["valuations" if line[3] != "refused" else f"valuations {line[4]}"] += 1
        else:
            seen[" ".join(line[3:5] if line[3] == "refused" else line[3:4])] += 1
            accepted += line[3] == "accepted"
        seen["trims"] += line[1] == "trim"


def test_each_transcript_is_one_history(program: Program, tmp_path: Path, quick: Path) -> None:
    known: Known = {}
    seen: Seen = Counter()
    for seed in range(20 if program.is_proved else 6):
        desk = Desk(program, (quick if seed % 4 else tmp_path) / f"pair-{seed}")
        with case(f"seed {seed}"):
            run_pair(desk, random.Random(seed), seed % 4 == 1, known, seen)
    reasons = [what for what in seen if what.startswith("refused ")]
    assert len(reasons) >= REASONS and all(seen[what] for what in ("valuations", "trims", "paid-up rows", "rows short")), seen


# --- the judge ---

def with_line(lines: list[str], i: int, *new: str) -> list[str]:
    return [*lines[:i], *new, *lines[i + 1:]]


def more(by: int) -> Callable[[str], str]:
    return lambda text: str(int(text) + by)


def cents_more(by: int) -> Callable[[str], str]:
    return lambda text: money(int(text.replace(".", "")) + by)


def other(one: str, two: str) -> Callable[[str], str]:
    return lambda text: one if text != one else two


# what is changed in a line: its name, which lines, which field, and how
LINES: list[tuple[str, str, int, Callable[[str], str]]] = [
    ("a position one too high", r",accepted,", -1, more(1)),
    ("a position one too low", r",accepted,", -1, more(-1)),
    ("a valued position one off", r"^\d,value,[-\d]+,\d", 3, more(1)),
    ("a measure named in a run", r"^\d,value,[-\d]+,\d", 4, lambda policies: policies + ",mean"),
    ("a policy more in a valuation", r"^\d,value,[-\d]+,\d", 4, more(1)),
    ("another day valued", r"^\d,value,", 2, lambda day: day[:-1] + "7"),
    ("a floor above the count", r",trim,", 2, more(10**4)),
    ("a position ahead that is one off", r",refused,ahead,", -1, more(1)),
    ("a trimmed position that is one off", r",refused,trimmed,", -1, more(1)),
    ("a lower bound a cent too high", r"^row,.*\.", 4, cents_more(1)),
    ("an upper bound a cent too low", r"^row,.*[1-9]$", 5, cents_more(-1)),
    ("another year", r"^row,", 3, more(1)),
    ("another policy", r"^row,", 1, more(1)),
    ("another status", r"^row,", 2, other("lapsed", "inforce")),
    ("a sum a cent off", r"^total,", 1, cents_more(1)),
    ("an upper sum a cent off", r"^total,", 2, cents_more(1)),
    ("a word more in the total", r"^total,", 3, more(1)),
    ("another word for a row", r"^row,.*(table|basis|high)$", 4, other("nobasis", "ratehigh")),
    ("another lane", r"^\d,", 0, lambda lane: str(int(lane) % 8 + 1)),
    ("another policy's line", r"^\d,(?!value|trim)", 2, more(1)),
    ("another kind's line", r"^\d,(?!value|trim)", 1, other("claim", "lapse")),
    ("another reason", r",refused,(?!ahead|trimmed)", 4, other("unknown", "taken")),
    ("another day in a reason", r",refused,\w+,\d{4}-", 5, lambda day: day[:-1] + str((int(day[-1]) + 1) % 10)),
    ("a cent more in a reason", r",refused,\w+,\d+\.", 5, cents_more(1)),
    ("accepted in place of a refusal", r",refused,(?!ahead|trimmed)", 3, lambda _: "accepted"),
    ("a watcher that saw one more", r"^watcher,", 2, more(1)),
    ("a watcher's number one off", r"^watcher,", 3, more(1)),
]


def changed_texts(draw: random.Random, text: str) -> Iterator[tuple[str, list[str]]]:
    """Yields the right transcript with one thing changed, and the name of the change."""
    lines = text.splitlines()

    def places(pattern: str) -> list[int]:
        found = [i for i, line in enumerate(lines) if re.search(pattern, line)]
        return draw.sample(found, min(PLACES, len(found)))

    for name, pattern, place, change in LINES:
        for i in places(pattern):
            fields = lines[i].split(",")
            fields[place] = change(fields[place])
            yield name, with_line(lines, i, ",".join(fields))
    for i in places("."):
        yield "a line left out", with_line(lines, i)
        yield "a line twice", with_line(lines, i, lines[i], lines[i])
    # two lines of one lane are swapped, but not two trims or two equal lines, which may stand in either order
    heads = [i for i, line in enumerate(lines) if re.search(r"^\d,(?!value.*\d$|trim)", line)]
    for _ in range(PLACES):
        i = draw.choice(heads)
        j = next((j for j in heads if j > i and lines[j][0] == lines[i][0] and lines[j] != lines[i]), None)
        if j:
            yield "two lines of a lane swapped", with_line(with_line(lines, i, lines[j]), j, lines[i])


def changed_files(draw: random.Random, file: bytes, before: bytes) -> Iterator[tuple[str, bytes]]:
    """Yields the journal after the run with one thing changed, and the name of the change."""
    records = read_journal(file).commands
    for _ in range(PLACES):
        i = draw.randrange(18, 17 + 65 * len(records))
        yield "a byte of the journal", file[:i] + bytes([file[i] ^ 1 << draw.randrange(8)]) + file[i + 1:]
    at = 17 + 65 * draw.randrange(len(records) - 1)
    prefix, one, two, rest = file[:at], file[at:at + 65], file[at + 65:at + 130], file[at + 130:]
    yield "a record left out", prefix + one + rest
    yield "a record twice", prefix + one + one + two + rest
    yield "two records swapped", prefix + two + one + rest
    yield "the last record left out", file[:-66] + b"\x00"
    yield "the journal as it was before", before


def test_the_judge_refuses_what_is_changed(folder: Folder) -> None:
    """The right transcripts are those of an independent model of the office."""
    lay_basis(folder)
    basis = read_basis(str(folder.path / "basis.csv"))
    known: Known = {}
    refused: Counter[str] = Counter()
    taken = []
    for seed in range(4):
        draw, book = random.Random(seed), Book()
        Office(draw, book, basis, known).run(make_script(draw, Book()))
        before = file_of(book.commands)
        script = make_script(draw, Book(read_journal(before).commands))
        text = Office(draw, book, basis, known).run(script)
        after = file_of(book.commands)
        check(script.encode(), text, before, after, basis, known)
        cases = [(name, "\n".join(lines) + "\n", after) for name, lines in changed_texts(draw, text)]
        for name, said, file in [*cases, *((name, text, file) for name, file in changed_files(draw, after, before))]:
            try:
                check(script.encode(), said, before, file, basis, known)
            except Wrong:
                refused[name] += 1
            else:
                taken.append((name, seed))
    assert taken == [] and [name for name, *_ in LINES if not refused[name]] == []
