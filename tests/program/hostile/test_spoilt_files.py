"""Tries right files in which one byte is changed, and drawn scripts, arguments, journals, checkpoints, basis files and tables,
most of them spoilt. The program must do with each what docs/reference/ says, without a signal, output on standard error, or a
hang.

HOSTILE is the number of seconds for each kind, or `all`, by which every changed byte and every drawn case is tried. The cases are
the same in each run, and a machine of another speed tries more of them or fewer, but never fewer than two hundred of each kind.
"""
import os
import random
from pathlib import Path

import pytest

from life_tools.common.formats import KINDS
from life_tools.journal.checkpoints import bytes_of_checkpoint, checkpoint_of
from life_tools.journal.file import file_of
from life_tools.scripts.lines import lines_in
from tests.program.hostile.trial import (Trial, judge_arguments, judge_basis, judge_checkpoint, judge_journal, judge_posting,
                                         judge_script, judge_table, try_for)
from tests.program.office import example
from tests.rules.policies import Book
from tests.support.drawn_scripts import MIDDLE, make_script
from tests.support.program import Program

pytestmark = [pytest.mark.needs_proof, pytest.mark.timeout(7200)]
SECONDS = float(os.environ.get("HOSTILE", "8").replace("all", "inf"))
FORTY = Path(__file__).with_name("forty.csv").read_bytes()
# one of so many cases of a journal is a run that posts
POSTINGS = 4
TABLE = (b'\xef\xbb\xbf <?xml version="1.0"?>\n<!-- Q --><XTbML><Table><MetaData><ScalingFactor> 1.0 </ScalingFactor></MetaData>'
         b"<Values><Axis id='a'>\n<Y t=\"0\">0.1</Y><Y t='01' >2E-1</Y><Y t=\"2\">.25<!-- -->"
         b'</Y></Axis></Values></Table><Table/></XTbML>\n').replace(b"<!-- --></Y>", b"</Y><!-- -->")
# issue ages 0 and 1, each with rates in its own layout and number; blank rows, an axis and a table that are ignored
SELECT = (b'<XTbML><Table><MetaData><ScalingFactor>0</ScalingFactor></MetaData><Values>\n<Axis t="0"><Axis><Y t="1">0.05</Y>'
          b'<Y t="02">.1</Y><Y t="x"> </Y><Y/></Axis></Axis><Axis t=\'1\'><Y '
          b't="0">1E-1</Y><Axis/></Axis></Values></Table><!-- -->\n'
          b'<Table><Values><Axis><Y t="2">0.25</Y><Y t="3">0.5</Y></Axis></Values></Table><Table/></XTbML>')
# policies in force that the tables cover, so that a valuation depends on their rates
VALUED = b"""1,issue,1,2004-02-29,whole,0,0,1000.00,400.00
1,issue,2,2004-03-01,endowment,0,2,1000.00,400.00
1,issue,3,2012-03-01,endowment,20,3,1000.00,330.00
1,issue,4,2016-02-29,limited,100,5,100000000.00,100000000.00
1,issue,5,2019-06-01,term,0,3,2000.00,1.00
"""
BASIS = b'2000-01-01,q.xml,0\r\n\n"2010-01-01",m.xml,300\n2015-02-28,g.xml,2000\n2018-01-01,select.xml,300'
MOST = 12_000
DRAWN = ("script", "arguments", "journal", "checkpoint", "basis", "table")
TOKENS = {
    "script": [b",", b",,", b'"', b'""', b"\n", b"\r", b"\r\n", b"\xef\xbb\xbf", b"\x00", b" ", b"1,trim\n",
               b"8,value,2021-01-01,now,1\n", b"1,value,2020-02-30,0,64\n", b"2100-02-29", b"2000-02-29", b"1899-12-31",
               b"2199-12-31", b"2200-01-01", b"4294967296", b"4294967295", b"100000000.00", b"100000000.01", b"400000000.01",
               b"0.00", b"00.01", b"whole", b"129", b"130", b"131", b"18446744073709551616.00", b'9' * 400, b"\xff", b"-1",
               b"+1", b"1e1"],
    "basis": [b",", b'"', b"\n", b"\r", b"q.xml", b"m.xml", b"Q.XML", b"../q.xml", b"/etc/passwd", b'a' * 64, b'a' * 65,
              b"2001", b"2000", b"02", b"\xef\xbb\xbf", b"1900-01-01", b"2199-12-31", b"2199-12-30,q.xml,1\n", b"\x00",
              b"basis.csv", b".", b"journal.life"],
    "table": [b"<", b">", b"/>", b"</", b"<!--", b"-->", b"<!-->", b"--", b'"', b"'", b"&", b"&amp;", b"&#0;",
              b"<?xml version='1.0'?>", b"<?xml ?>", b"<!DOCTYPE x [<!ENTITY a 'b'>]>", b"<![CDATA[x]]>", b"<Axis>",
              b"</Axis>", b"<Y t='3'>1</Y>", b"<Y t='131'>0</Y>", b"<Y/>", b"<Table>", b"</Table>", b"\xef\xbb\xbf", b"1E-999",
              b"1e999", b"0." + b"0" * 500 + b"1", b'9' * 300, b'<x>' * 30, b'</x>' * 30, b" ", b"\t", b"\x00", b"\xff",
              b"t='0'", b"=", b":", b"?>", b"<ScalingFactor>2</ScalingFactor>", b"<Axis t='0'>", b"<Axis t='1'>",
              b"<Axis t='2'>", b"<Axis><Y t='1'>.1</Y></Axis>", b"<Y t='2'>.5</Y>", b"<Y t='0'/>", b"</Axis></Axis>",
              b"</Axis></Values></Table>", b"<Table><Values><Axis>"],
    "journal": [bytes(65), b"\1" * 65, b"\x01", b"\x00", b"\xff" * 8, b"LIFEJRNL", b"\x02"],
    "checkpoint": [bytes(48), b"\x01", b"\x00", b"\xff" * 8, b"LIFECHKP", b"\x02", bytes(3), bytes(8)],
}
WORDS = [b"run", b"value", b"project", b"state", b"checkpoint", b"generate", b"load", b"help", b"--help", b"-h", b"--", b"-",
         b"", b"--at", b"--workers", b"--basis", b"--at=5", b"--at=40", b"--at=41", b"--at=", b"--at=05", b"--workers=64",
         b"--workers=65", b"--workers=0", b"--basis=basis.csv", b"--basis=none.csv", b"--basis=../basis.csv", b"--basis=", b"0",
         b"1", b"2", b"7", b"8", b"9", b"40", b"41", b"64", b"65", b"07", b"4294967295", b"4294967296", b"2147483647",
         b"2147483648", b"2021-01-01", b"1900-01-01", b"2199-12-31", b"2200-01-01", b"2021-02-29", b"2021-1-1", b"\xff\xfe",
         b"\xc3\xa9", b"18446744073709551617", b'9' * 500, b"1 ", b" 1", b"+1", b"1.0", b"\n", b"basis.csv", b"none.csv",
         b"100", b"101", b"131", b"132", b'x' * 100000, b"--mean", b"--mean", b"--deficiency", b"--deficiency", b"--mean=",
         b"--mean=1", b"--deficiency=mean", b"--Mean", b"--mea", b"-mean", b"mean"]
# arguments that are right, so that not all are refused
RIGHT = [words.split() for words in (
    b"run", b"run --basis none.csv", b"state", b"checkpoint", b"state 1", b"state 9", b"value 2021-01-01",
    b"value 2021-01-01 --at 12", b"value 2021-01-01 --mean", b"value --deficiency 2021-01-01",
    b"value --at=12 --mean 2030-06-30 --workers 2", b"value 2022-01-01 --workers=2 --deficiency",
    b"value --workers=64 2199-12-31 --at=41", b"project 2021-01-01 9", b"project 2020-06-30 131",
    b"project --workers 2 2022-01-01 --basis=basis.csv 1", b"generate 3 7 2", b"generate 2147483647 1000 8", b"load 1 5 2 3",
    b"load 0 101 8 64")]
SCRIPT = b"1,issue,77,2020-01-01,endowment,0,3,1000.00,400.00\n8,lapse,77,2020-01-01\n"


def book_of_forty() -> Book:
    book = Book(line.posted for line in lines_in(FORTY))
    assert len(book.commands) == 40 and {it.kind for it in book.commands} == set(KINDS.values())
    return book


def book_of_values() -> Book:
    return Book(line.posted for line in lines_in(VALUED))


def files(book: Book) -> dict[str, bytes]:
    return {"journal": file_of(book.commands), "script": FORTY + b"2,trim\n3,value,2021-01-01,7,64\n", "basis": BASIS,
            "table": TABLE, "select": SELECT}


# --- changed bytes ---

def changes(byte: int) -> list[int]:
    """Returns what a byte is set to: 0, 1, 2, 127 or 255, or itself with one bit inverted."""
    return sorted({0, 1, 2, 127, 255, *(byte ^ 1 << bit for bit in range(8))} - {byte})


@pytest.mark.parametrize("kind", files(Book()))
def test_changed_bytes(kind: str, program: Program, quick: Path) -> None:
    book = book_of_forty()
    right, trial = files(book)[kind], Trial(program, quick / kind)
    cases = [(place, new) for place, byte in enumerate(right) for new in changes(byte)]
    random.Random("1").shuffle(cases)

    def judge(case: tuple[int, int]) -> str:
        place, new = case
        data = right[:place] + bytes([new]) + right[place + 1:]
        if kind == "journal":
            return (judge_posting if (place + new) % POSTINGS == 0 else judge_journal)(trial, data)
        if kind == "script":
            return judge_script(trial, data)
        return (judge_basis if kind == "basis" else judge_table)(trial, data, book_of_values())

    try_for(SECONDS, cases, judge)


# --- drawn cases ---

def spoilt(draw: random.Random, data: bytes, tokens: list[bytes], most: int) -> bytes:
    data = bytearray(data)
    for _ in range(draw.randrange(most + 1)):
        place, what = draw.randrange(len(data) + 1), draw.randrange(8)
        length = draw.choice([1, 1, 2, 7, 64, 65])
        if what == 0:
            del data[place:place + length]
        elif what == 1:
            data[place:place] = data[draw.randrange(len(data) + 1):][:length]
        elif what == 2 and place < len(data):
            data[place] = draw.randrange(256)
        elif what == 3 and place < len(data):
            data[place] ^= 1 << draw.randrange(8)
        elif what == 4 and draw.random() < 0.3:
            del data[place:]
        elif what == 5:
            token = draw.choice(tokens)
            data[place:place + len(token)] = token
        else:
            data[place:place] = draw.choice(tokens)
    return bytes(data)


def drawn_script(draw: random.Random) -> bytes:
    whole = FORTY + b"2,trim\n3,value,2021-01-01,7,64\n"
    if draw.random() < 0.2:
        whole = make_script(draw, Book()).encode()
    rows = whole.splitlines(keepends=True)
    return spoilt(draw, b"".join(rows[:draw.randrange(len(rows) + 1)]), TOKENS["script"], 3)


def drawn_journal(draw: random.Random, book: Book) -> bytes:
    """Returns a journal whose records may be left out, repeated or replaced, and whose bytes may be spoilt."""
    commands = list(book.commands[:draw.randrange(41)])
    for _ in range(draw.randrange(3)):
        if commands:
            place = draw.randrange(len(commands))
            commands[place:place + 1] = draw.choice([[], [commands[place]] * 2, [draw.choice(commands)],
                                                     [draw.choice(book.commands)]])
    data = file_of(commands) + draw.choice([b"", b"", bytes(300), bytes(draw.randrange(256) for _ in range(100))])
    return spoilt(draw, data, TOKENS["journal"], draw.choice([0, 1, 2, 3]))


def drawn_checkpoint(draw: random.Random, book: Book) -> bytes:
    """Returns a checkpoint of a prefix of the book or of another book, perhaps longer than the journal, with bytes spoilt."""
    commands = list(book.commands[:draw.randrange(41)])
    if draw.random() < 0.2:
        commands = list(book_of_values().commands)
    data = bytes_of_checkpoint(checkpoint_of(commands)) + draw.choice([b"", b"", bytes(60),
                                                                       bytes(draw.randrange(256) for _ in range(100))])
    if draw.random() < 0.5:
        # only one byte is changed, so that most of the rest is still right
        data = bytearray(data)
        data[draw.randrange(len(data))] = draw.choice([0, 1, 2, 3, 255, draw.randrange(256)])
        return bytes(data)
    return spoilt(draw, data, TOKENS["checkpoint"], draw.choice([0, 1, 2, 3]))


def drawn_words(draw: random.Random) -> list[bytes]:
    if draw.random() < 0.2:
        return [draw.choice(WORDS) for _ in range(draw.randrange(6))]
    words = list(draw.choice(RIGHT))
    for _ in range(draw.randrange(3)):
        place = draw.randrange(len(words) + 1)
        words[place:place + draw.randrange(2)] = draw.choice([[], [draw.choice(WORDS)], [draw.choice(WORDS)],
                                                              [draw.choice(WORDS)] * 2])
    return words


def drawn_table(draw: random.Random) -> bytes:
    right = [TABLE, TABLE, SELECT, SELECT, MIDDLE.encode(), *(example(name).encode() for name in (
        "g.xml", "select.xml", "select-inner.xml"))]
    return spoilt(draw, draw.choice(right), TOKENS["table"], 4)


@pytest.mark.parametrize("kind", DRAWN)
def test_drawn_cases(kind: str, program: Program, quick: Path) -> None:
    book, trial = book_of_forty(), Trial(program, quick / kind)

    def judge(case: int) -> str:
        draw = random.Random(f"1 {case}")
        if kind == "script":
            return judge_script(trial, drawn_script(draw))
        if kind == "arguments":
            return judge_arguments(trial, drawn_words(draw), SCRIPT, book)
        if kind == "journal":
            return draw.choice([judge_journal, judge_posting])(trial, drawn_journal(draw, book))
        if kind == "checkpoint":
            return judge_checkpoint(trial, drawn_checkpoint(draw, book), book)
        if kind == "basis":
            return judge_basis(trial, spoilt(draw, BASIS, TOKENS["basis"], 3), book_of_values())
        return judge_table(trial, drawn_table(draw), book_of_values())

    # a faster machine tries no other cases
    try_for(SECONDS, range(DRAWN.index(kind), MOST, len(DRAWN)), judge)
