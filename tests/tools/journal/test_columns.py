"""Compares the reader that works on columns with the one that judges record by record: on drawn and damaged journals both
report the same about the file, each policy, what each command books, and the book as it was before. Both take the same tables of
rules, so the independent rules judge the commands as well. The fullest journals are read within limits of processor seconds."""
import datetime
import resource
import subprocess
import sys
from collections import Counter
from dataclasses import astuple, replace
from pathlib import Path
from random import Random
from typing import Callable

import numpy as np
import pytest

from life_tools.common.formats import FIRST_DAY, LAST_DAY, MOST_NUMBER, Wrong, money
from life_tools.journal import replays
from life_tools.journal.checkpoint_columns import CheckpointColumns, checkpoint_columns
from life_tools.journal.checkpoints import Checkpoint, bytes_of_checkpoint, checkpoint_in, checkpoint_of
from life_tools.journal.columns import Columns, judged
from life_tools.journal.file import RECORD_SIZE, Journal, file_of, gate_of, read_journal
from life_tools.journal.record_texts import lines_of, plain_template, transactions_of
from life_tools.rules.commands import CODES, Command, words_of
from life_tools.rules.policies import Book, bookings
from life_tools.rules.tables import ACCOUNTS
from tests.rules import policies as independent
from tests.support.big_journals import write
from tests.support.drawn_scripts import make_book, make_script
from tests.support.lived_books import lived
from tests.support.program import ROOT

# a command, and the amounts that it books
Booked = tuple[Command, dict[str, int]]
DAYS_OFF = (-366, -91, -90, -32, -31, -1, 1, 31, 32, 90, 91, 365, 366, 1096, 36500)
# each reason of a refusal that a journal's record can have
REASONS = {"taken", "unknown", "nothingdue", "notupgraded", "upgraded", "beforelast", "termover", "tooearly", "graceover",
           "notinarrears", "toolate", "notmatured", "wrongamount", "notareduction", "oversettled", "wrongstatus"}
JOURNALS = 1000
BLOCKS = 4

# --- drawn journals ---


def drawn(draw: Random) -> list[Command]:
    """Returns the commands of a right journal, whose policy numbers lie close together or far apart."""
    if draw.random() < 0.5:
        commands = lived(draw.randrange(10**6), draw.choice((3, 20, 60)))
    else:
        book = make_book(draw, draw.randrange(1, 6))
        make_script(draw, book)
        commands = book.commands
    far = {number: draw.randrange(1, MOST_NUMBER + 1) for number in {it.number for it in commands if it.number}}
    if draw.random() < 0.3 and len(set(far.values())) == len(far):
        commands = [replace(it, number=far.get(it.number, 0)) for it in commands]
    return commands


def moved(draw: Random, command: Command) -> datetime.date:
    days = draw.choice({"reinstate": (500, 1000, 1500), "lapse": (-20, -60, -120)}.get(command.kind, DAYS_OFF))
    return min(max(command.on + datetime.timedelta(days), FIRST_DAY), LAST_DAY)


def changed(draw: Random, command: Command, others: list[Command]) -> Command:
    field = draw.choice(("kind", "kind", "number", "day", "day", "day", "amount", "amount", "premium"))
    if field == "kind" and draw.random() < 0.5:
        return replace(command, kind=draw.choice(list(CODES)))
    if field == "kind":
        return Command(draw.choice(("lapse", "claim", "mature")), command.number, command.day)
    if field == "number":
        return replace(command, number=draw.choice((draw.choice(others).number, draw.randrange(1, 2**32))))
    if field == "day":
        return replace(command, day=moved(draw, command)) if command.day else command
    cents = getattr(command, field)
    values = (cents - 1, cents + 1, cents + 1, cents * 2, 0, 10**10 + 1, 2**63 + 1)
    return replace(command, **{field: max(0, draw.choice(values))})


def disordered(draw: Random, commands: list[Command]) -> list[Command]:
    kind = draw.choice(sorted({it.kind for it in commands}))
    made, at = list(commands), draw.choice([at for at, it in enumerate(commands) if it.kind == kind])
    what = draw.randrange(8)
    if what == 0:
        del made[at]
    elif what == 1:
        made.insert(draw.randrange(len(made) + 1), made[at])
    elif what == 2:
        made.insert(draw.randrange(len(made)), made.pop(at))
    else:
        made[at] = changed(draw, made[at], made)
    return made


def damaged(draw: Random, data: bytearray) -> bytes:
    what, place = draw.randrange(6), draw.randrange(len(data))
    if what == 0:
        return bytes(data[:place])
    if what == 1:
        return bytes(data) + bytes(draw.randrange(256) for _ in range(draw.randrange(200)))
    if what == 2:
        records = (len(data) - 18) // RECORD_SIZE
        data[gate_of(draw.randrange(records + 1))] = draw.choice((0, 1, 2))
    elif what == 3:
        data[draw.randrange(min(90, len(data)))] = draw.randrange(256)
    else:
        data[place] ^= 1 << draw.randrange(8)
    return bytes(data)


def drawn_journal(draw: Random) -> tuple[bytes, list[Command] | None]:
    """Returns the bytes of a journal with its commands, or with None if some bytes of the file are changed."""
    commands, what = drawn(draw), draw.randrange(8)
    if what > 3 and commands:
        commands = disordered(draw, commands)
    data = file_of(commands)
    return (damaged(draw, bytearray(data)), None) if what in (2, 3) else (data, commands)


# --- both readers ---


def compare_books(columns: Columns, book: Book, booked: list[Booked]) -> None:
    policies = [columns.policies.policy(place) for place in range(len(columns.policies))]
    assert policies == list(book.policies.values())
    assert columns.count == len(book.commands) and columns.upgrade == book.upgrade
    assert columns.balances == {account: sum(each.get(account, 0) for _, each in booked) for account in ACCOUNTS}
    assert list(columns.records.commands(np.arange(columns.count))) == book.commands
    for (command, each), cents, at in zip(booked, columns.booked.tolist(), columns.place.tolist(), strict=True):
        assert cents == max([abs(value) for value in each.values()], default=0), command
        assert at == -1 if command.kind == "upgrade" else policies[at].number == command.number, command


def compare_texts(columns: Columns, booked: list[Booked]) -> None:
    lines = [",".join([str(position), *words_of(command)]) + "\n" for position, (command, _) in enumerate(booked, 1)]
    assert "".join(lines_of(columns.records, plain_template)) == "".join(lines)
    ledger = [f"{command.day} {command.kind} {command.number}\n"
              + "".join(f"    {name}  {money(each)}\n" for name, each in on.items()) + "\n" for command, on in booked if on]
    assert "".join(transactions_of(columns)) == "".join(ledger)


def compare_rules(found: Columns | Journal, commands: list[Command]) -> None:
    """Compares what a reader makes of commands with the independent rules, up to a record that encodes no command."""
    book, balances = independent.Book(), dict.fromkeys(independent.ACCOUNTS, 0)
    is_misspelled = isinstance(found, Journal) and "can't follow" not in found.why
    if isinstance(found, Journal) and is_misspelled:
        commands = commands[:int(found.refused.rpartition(",")[2])]
    for place, command in enumerate(commands):
        answer = book.decide(command)
        if isinstance(answer, independent.Refusal):
            why = f"command {place + 1} can't follow: {','.join(answer.words())}"
            assert isinstance(found, Journal) and found.why.endswith(why), (found, why)
            return
        for account, cents in book.post(command).items():
            balances[account] += cents
    if is_misspelled:
        return
    assert isinstance(found, Columns) and found.balances == balances and found.upgrade == book.upgrade
    policies = [astuple(found.policies.policy(place)) for place in range(len(found.policies))]
    assert policies == [astuple(each) for each in book.policies.values()]


def said_of(read: Callable[[bytes], object], data: bytes) -> object:
    try:
        return read(data)
    except Wrong as wrong:
        return str(wrong)


def compare_checkpoint(draw: Random, columns: Columns, book: Book) -> str:
    """Compares the readers on a checkpoint of the book, in which a byte is changed in two of three cases; returns whether it
    still is one."""
    whole = checkpoint_of(book.commands)
    data = bytearray(bytes_of_checkpoint(whole))
    if draw.randrange(3):
        data[draw.randrange(len(data))] = draw.choice((0, 1, 2, 8, 255))
    if draw.randrange(8) == 0:
        del data[draw.randrange(len(data)):]
    elif len(book.policies) > 1 and draw.randrange(4) == 0:
        data[64 + 48:64 + 52] = data[64:68]
    slow, found = said_of(checkpoint_in, bytes(data)), said_of(checkpoint_columns, bytes(data))
    if not isinstance(slow, Checkpoint) or not isinstance(found, CheckpointColumns):
        assert slow == found
        return "no checkpoint"
    made = [found.policies.policy(place) for place in range(len(found.policies))]
    assert made == slow.policies and found.header.balances == slow.balances
    if slow.position <= columns.count:
        of_book = whole if slow.position == columns.count else checkpoint_of(book.commands[:slow.position])
        assert found.is_of(columns) == (slow == of_book)
    return "checkpoint"


def compare(draw: Random, data: bytes, commands: list[Command] | None) -> list[str]:
    """Compares both readers on the same bytes, and with the independent rules if the commands are known; returns what they
    report: a reason of a refusal, or `right` with a word about a checkpoint."""
    slow, found = read_journal(data), judged(data)
    if commands is not None:
        compare_rules(found, commands)
    if slow.refused or not isinstance(found, Columns):
        assert isinstance(found, Journal) and (found.refused, found.why) == (slow.refused, slow.why)
        return [slow.why.split(": ")[-1].split(",")[0] if "can't follow" in slow.why else slow.refused]
    booked = list(bookings(slow.commands))
    compare_books(found, slow.book, booked)
    compare_texts(found, booked)
    position = draw.randrange(found.count + 1)
    compare_books(found.front(position), Book(slow.commands[:position]), booked[:position])
    return ["right", compare_checkpoint(draw, found, slow.book)]


@pytest.mark.parametrize("block", range(BLOCKS))
def test_drawn_and_damaged_journals(block: int, monkeypatch: pytest.MonkeyPatch) -> None:
    met: Counter[str] = Counter()
    for seed in range(block, JOURNALS, BLOCKS):
        draw = Random(seed)
        monkeypatch.setattr(replays, "FEW", draw.choice((0, 2, 24)))
        data, commands = drawn_journal(draw)
        try:
            met.update(compare(draw, data, commands))
        except AssertionError as error:
            raise AssertionError(f"seed {seed}: {error}") from error
    assert len(REASONS & set(met)) > len(REASONS) // 2 and met["right"] > JOURNALS // BLOCKS // 3, met
    assert min(met["checkpoint"], met["no checkpoint"]) > 10, met


# few drawn journals meet each of these
@pytest.mark.parametrize("reason", sorted(REASONS))
def test_each_reason_of_a_refusal_is_met(reason: str) -> None:
    for seed in range(4 * JOURNALS):
        draw = Random(f"{reason} {seed}")
        commands = disordered(draw, drawn(draw))
        data = file_of(commands)
        slow = read_journal(data)
        if "can't follow" in slow.why and slow.why.split(": ")[-1].split(",")[0] == reason:
            assert compare(draw, data, commands) == [reason]
            return
    raise AssertionError(f"{reason} isn't drawn")


def test_records_without_an_issue_of_great_numbers() -> None:
    commands = [Command("claim", MOST_NUMBER - at, FIRST_DAY) for at in range(3)]
    assert compare(Random(0), file_of(commands), commands) == ["unknown"]


# --- the fullest journals ---


def within(seconds: int, folder: Path, *words: str) -> subprocess.CompletedProcess[str]:
    return subprocess.run([sys.executable, str(ROOT / "tools" / "life-tools"), *words], cwd=folder, capture_output=True,
                          text=True, check=False, preexec_fn=lambda: resource.setrlimit(resource.RLIMIT_CPU, (seconds, seconds)))


@pytest.mark.slow
def test_4000000_issues(tmp_path: Path) -> None:
    write("policies", 4000000, str(tmp_path / "full.life"))
    verified = within(20, tmp_path, "read", "--verify", "full.life")
    balances = "".join(f"balance,{name},0.00\n" for name in ("cash", "premiums", "incurred", "payable"))
    assert (verified.returncode, verified.stdout) == (0, f"{balances}count,4000000\n"), verified.stderr
    assert within(20, tmp_path, "position-on", "2020-01-01", "full.life").stdout == "4000000\n"
    listed = within(40, tmp_path, "read", "full.life").stdout.splitlines()
    assert listed[3999999] == "4000000,issue,4000000,2020-01-01,endowment,0,3,1000.00,400.00"


@pytest.mark.slow
def test_4000000_premiums_of_which_few_can_follow(tmp_path: Path) -> None:
    """The policy is whole life with 131 premiums, paid up to its end at age 131."""
    write("premiums", 4000000, str(tmp_path / "full.life"))
    verified = within(20, tmp_path, "read", "--verify", "full.life")
    assert (verified.returncode, verified.stdout) == (2, "badjournal,badrecord,132\n")
    assert "record 132: command 133 can't follow: termover,2151-01-01" in verified.stderr
