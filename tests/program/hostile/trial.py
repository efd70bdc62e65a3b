"""Runs the program on one case after another, in a folder of its own, and judges what it does by docs/reference/.

The judges use the readers in tools/, and for tables and arguments the plain readers of this folder. Each raises `Wrong` if the
program does anything else: another line, another status, a signal, output on standard error, a file that was changed, or no
output within a time that no such case needs.
"""
import time
import zlib
from collections import Counter
from collections.abc import Callable, Sequence
from dataclasses import astuple
from pathlib import Path
from typing import Any, TypeVar

from life_tools.common.formats import MEASURES, MOST_BASIS_BYTES, Wrong, day_in, money, printed_rows
from life_tools.journal.checkpoints import Checkpoint, bytes_of_checkpoint, checkpoint_in, checkpoint_of
from life_tools.journal.file import EMPTY, file_of, gate_of, read_journal
from life_tools.reserves.projection_check import check_years
from life_tools.reserves.projections import printed_projection
from life_tools.reserves.valuation_check import check_block
from life_tools.rules.commands import Command
from life_tools.scripts.lines import Fault, lines_in, read_script
from life_tools.scripts.transcript_check import asks_for_values, check
from life_tools.tables.basis import BasisRow, NotXml, SelectTable, Table, read_basis, read_table
from tests.program.hostile.plain_tables import read_plain_table
from tests.program.hostile.plain_words import meaning_of
from tests.program.runs import JOURNAL, KEPT, Desk, case
from tests.rules.policies import Book, Policy, Refusal, balances_of, booking_of
from tests.support.drawn_scripts import for_tools
from tests.support.made_books import lay_basis
from tests.support.program import Program

# the number of cases that are tried even if the time is over
LEAST = 200
ON = "2021-01-01"
FRESH = 4294967295

Case = TypeVar("Case")


def try_for(seconds: float, cases: Sequence[Case], try_one: Callable[[Case], str]) -> None:
    """Tries cases until the time is over and at least LEAST were tried, and prints how many ended in each way."""
    end = time.monotonic() + seconds
    seen: Counter[str] = Counter()
    for number, one in enumerate(cases):
        if time.monotonic() > end and number >= LEAST:
            break
        with case(one):
            seen[try_one(one)] += 1
    print(f"{sum(seen.values())} of {len(cases)} cases: {dict(sorted(seen.items()))}")


class Trial(Desk):
    """A desk with the basis of the drawn scripts."""

    def __init__(self, program: Program, path: Path) -> None:
        super().__init__(program, path)
        self.known = {}
        lay_basis(self)

    def ran(self, *words: Any, script: bytes = b"") -> tuple[int, str]:
        """Returns the status and the output; the program may not end by a signal nor complain on standard error."""
        self.write("script.csv", script)
        ended = self.run(words)
        assert ended.status >= 0, f"{words}: ended by signal {-ended.status}"
        assert not ended.complaints, f"{words}: on standard error stands {ended.complaints[:300]!r}"
        return ended.status, ended.text

    def read_basis(self) -> list[BasisRow]:
        """Returns the basis as it now is."""
        return read_basis(str(self.path / "basis.csv"))


def demand_answer(found: tuple[int, str], status: int, text: str, words: list[bytes] | str) -> None:
    assert found == (status, text), (
        f"{words}: it printed {found[1][-300:]!r} with status {found[0]}, and must print {text[-300:]!r} with {status}")


# --- journals ---

def state_of(book: Book, balances: dict[str, int] | None = None) -> str:
    """Returns what `state` prints for a book, with these balances if they are given and otherwise with the book's own."""
    lines = []
    for it in book.policies.values():
        lines.append(f"policy,{it.number},{it.status},{it.plan},{it.age},{it.years},{money(it.amount)},{money(it.premium)},"
                     f"{it.issued},{it.paid},{money(it.outstanding)}")
    lines += [f"balance,{account},{money(cents)}" for account, cents in (balances or balances_of(book.commands)).items()]
    return "\n".join([*lines, f"count,{len(book.commands)}"]) + "\n"


def judge_journal(trial: Trial, data: bytes) -> str:
    """Judges `state` over any bytes as journal.life: it prints the book that they hold or the reason for their refusal, and
    leaves the right file."""
    trial.write(JOURNAL, data)
    journal = read_journal(data)
    found = trial.ran("state")
    if journal.refused:
        demand_answer(found, 5, journal.refused + "\n", "state")
    else:
        demand_answer(found, 0, state_of(Book(journal.commands)), "state")
    assert trial.bytes_of() == (EMPTY if journal.is_unfinished else data), "state changed the file"
    return journal.refused.rsplit(",", 1)[0] or "opened"


def state_from(checkpoint: Checkpoint, commands: list[Command]) -> tuple[int, str]:
    """Returns the status and the text of `state` if it begins with this checkpoint, whether or not it belongs to this journal."""
    book, balances = Book(), dict(checkpoint.balances)
    book.policies = {policy.number: Policy(*astuple(policy)) for policy in checkpoint.policies}
    book.upgrade, book.commands = checkpoint.upgrade, list(commands[:checkpoint.position])
    for record in range(checkpoint.position, len(commands)):
        command = commands[record]
        after = book.decide(command)
        if isinstance(after, Refusal):
            return 5, f"badjournal,badrecord,{record}\n"
        book.take(command, after)
        for account, cents in booking_of(command, after if isinstance(after, Policy) else None).items():
            balances[account] += cents
    return 0, state_of(book, balances)


def judge_checkpoint(trial: Trial, data: bytes, book: Book) -> str:
    """Judges the program over any bytes as checkpoint.life and the journal of the book: what `state` prints, and the
    checkpoint that `checkpoint` then makes."""
    trial.write(JOURNAL, file_of(book.commands))
    trial.write(KEPT, data)
    try:
        checkpoint = checkpoint_in(data)
    except Wrong:
        checkpoint = None
    is_used = checkpoint is not None and checkpoint.position <= len(book.commands)
    wanted = state_from(checkpoint, book.commands) if is_used and checkpoint else (0, state_of(book))
    demand_answer(trial.ran("state"), *wanted, "state")
    assert trial.bytes_of(KEPT) == data, "state changed the checkpoint"
    found = trial.ran("checkpoint")
    demand_answer(found, wanted[0], wanted[1] if wanted[0] else f"checkpoint,{len(book.commands)}\n", "checkpoint")
    if wanted[0] == 0:
        demand_answer(trial.ran("state"), *wanted, "state by the checkpoint that was made")
    if not is_used:
        made = bytes_of_checkpoint(checkpoint_of(book.commands))
        assert trial.bytes_of(KEPT) == made + data[len(made):], "another checkpoint was made"
    assert trial.bytes_of() == file_of(book.commands), "the journal was changed"
    (trial.path / KEPT).unlink()
    if not is_used:
        return "unused"
    return "this book's" if wanted == (0, state_of(book)) else f"of another book, {wanted[0]}"


def judge_posting(trial: Trial, data: bytes) -> str:
    trial.write(JOURNAL, data)
    journal = read_journal(data)
    script = f"1,issue,{FRESH},2020-01-01,endowment,0,3,1000.00,400.00\n".encode()
    found = trial.ran("run", script=script)
    after = trial.bytes_of()
    if journal.refused:
        demand_answer(found, 5, journal.refused + "\n", "run")
        assert after == data, "a file that is refused was changed"
        return journal.refused.rsplit(",", 1)[0]
    assert found[0] == 0, f"run: the answer is {found}"
    before = EMPTY if journal.is_unfinished else data
    check(script, found[1], before, after, [])
    count = len(journal.commands)
    command = lines_in(script)[0].posted
    if command.number not in journal.book.policies:
        record = file_of([command])[17:]
        wanted = before[:gate_of(count)] + record + before[gate_of(count) + len(record):]
        assert after == wanted, "beside the new record the file was changed"
    return "posted"


# --- scripts ---

def judge_script(trial: Trial, data: bytes) -> str:
    """Judges any bytes as a script, without a journal: the program must report the place of the first fault, or a history of
    the lines."""
    trial.journal.unlink(missing_ok=True)
    status, text = trial.ran("run", script=data)
    lines = read_script(data)
    if isinstance(lines, Fault):
        demand_answer((status, text), 3, lines.answer + "\n", "run")
        assert not trial.journal.exists(), "a journal was made for a script that is wrong"
        return "badscript"
    assert status == 0, f"run: the answer is {status}, {text[-300:]!r}, and the script is right"
    check(data, text, b"", trial.bytes_of(), trial.read_basis() if asks_for_values(data) else [], trial.known)
    return "taken"


# --- bases and tables ---

def judge_values(trial: Trial, basis: list[BasisRow], book: Book, wanted: str, data: bytes) -> None:
    """Judges the valuation of the book by a basis, or the line for the bad file if there is no basis. The measure is drawn
    from the bytes of the file."""
    measure = MEASURES[zlib.crc32(data) % len(MEASURES)]
    status, text = trial.ran("value", ON, *([] if measure == "terminal" else ["--" + measure]))
    if wanted:
        demand_answer((status, text), 4, wanted + "\n", "value")
        return
    rows = printed_rows(text)
    is_whole = status == 0 and rows[0][:4] == ["0", "value", ON, str(len(book.commands))]
    assert is_whole, f"value: the answer is {status}, {text[:300]!r}"
    check_block(rows, list(map(for_tools, book.policies.values())), basis, {}, measure)


def judge_basis(trial: Trial, data: bytes, book: Book) -> str:
    """Judges a valuation by any bytes as basis.csv, with right tables and the journal of the book."""
    trial.write("basis.csv", data)
    trial.write(JOURNAL, file_of(book.commands))
    basis: Any = []
    wanted = ""
    try:
        basis = trial.read_basis()
    except Wrong as wrong:
        wanted = str(wrong)
    judge_values(trial, basis, book, wanted, data)
    return wanted.rsplit(",", 1)[-1] or "taken"


def judge_table(trial: Trial, data: bytes, book: Book) -> str:
    """Judges a valuation by any bytes as the table t.xml of a basis of one row, with the journal of the book. If an XML parser
    accepts the file, tools/life_tools/tables/basis.py must read the same table."""
    trial.write("basis.csv", b"1900-01-01,t.xml,250\n")
    trial.write("t.xml", data)
    trial.write(JOURNAL, file_of(book.commands))
    table: Any = Table(0, ())
    wanted = "badbasis,t.xml,1,toolong" if len(data) > MOST_BASIS_BYTES else ""
    try:
        table = table if wanted else read_plain_table(data, "t.xml")
    except Wrong as wrong:
        wanted = str(wrong)
    demand_parsers_agree(data, table, wanted)
    judge_values(trial, [BasisRow(day_in("1900-01-01"), "t.xml", table, 250)], book, wanted, data)
    return wanted.rsplit(",", 1)[-1] or "taken"


def demand_parsers_agree(data: bytes, table: SelectTable | Table, wanted: str) -> None:
    try:
        found = read_table(data, "t.xml"), ""
    except NotXml:
        return
    except Wrong as wrong:
        found = table, str(wrong)
    is_same = found == (table, wanted) or wanted.endswith(",toolong")
    assert is_same, f"the two readers of tables differ: {found} and {table, wanted}"


# --- arguments ---

def judge_arguments(trial: Trial, words: list[bytes], script: bytes, book: Book) -> str:
    """Judges any arguments, each as bytes, with the journal of the book; the script is right, and has no valuation."""
    trial.write(JOURNAL, file_of(book.commands))
    found = trial.ran(*words, script=script)
    meaning = meaning_of(words, len(book.commands))
    after = trial.bytes_of()
    if meaning.mode in ("run", "load"):
        assert meaning.fits(found), f"{words}: the answer is {found[0]}, {found[1][-300:]!r}"
        if meaning.mode == "run":
            check(script, found[1], file_of(book.commands), after, [])
        return meaning.mode
    if meaning.mode == "checkpoint":
        made = bytes_of_checkpoint(checkpoint_of(book.commands))
        assert trial.bytes_of(KEPT)[:len(made)] == made, "another checkpoint was made"
        (trial.path / KEPT).unlink()
    if meaning.mode == "state" and not meaning.number:
        demand_answer(found, 0, state_of(book), words)
    assert meaning.fits(found), f"{words}: the answer is {found[0]}, {found[1][-300:]!r}, and the arguments are {meaning.mode}"
    rows = printed_rows(found[1]) if meaning.mode == "value" and found[0] == 0 else []
    if rows:
        policies = Book(book.commands[:int(rows[0][3])]).policies
        check_block(rows, list(map(for_tools, policies.values())), trial.read_basis(), trial.known, meaning.measure)
    if meaning.mode == "project" and found[0] == 0:
        check_years(printed_projection(found[1]), list(map(for_tools, book.policies.values())), trial.read_basis())
    assert after == file_of(book.commands), f"{words}: journal.life was changed"
    return meaning.mode if meaning.measure == "terminal" else f"{meaning.mode} by {meaning.measure}"
