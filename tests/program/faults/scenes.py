"""The scenes that are run while something fails: arguments, script, whether there is a journal, and the calls that must be
made."""
from dataclasses import dataclass

from tests.program.runs import JOURNAL, KEPT
from tests.rules.policies import Book
from life_tools.journal.checkpoints import bytes_of_checkpoint, checkpoint_of
from life_tools.rules.commands import Command
from life_tools.common.formats import day_in
from typing import Any

# Two clerks with policies of their own. The second has the policies of whole life, and asks for values. The first thread runs the
# last clerk's lane. Each clerk has postings that depend on earlier ones, and others that don't.
TWO_CLERKS = b"""\
1,issue,101,2020-01-01,endowment,0,3,1000.00,400.00
2,issue,201,2020-03-01,whole,40,0,5000.00,90.00
1,premium,101,2020-01-01,400.00
2,premium,201,2020-03-01,90.00
2,value,2021-01-01,now,1
1,issue,102,2020-02-01,term,0,3,1000.00,40.00
2,issue,202,2020-03-02,whole,40,0,5000.00,90.00
1,claim,101,2020-06-01
"""
ONE_CLERK = b"""\
1,issue,101,2020-01-01,endowment,0,3,1000.00,400.00
1,premium,101,2020-01-01,400.00
1,issue,102,2020-01-01,endowment,0,3,1000.00,400.00
1,premium,102,2020-01-02,400.00
"""
BASIS_FILES = ("basis.csv", "g.xml", "q.xml")
READS_BASIS = [(kind, file) for kind in ("openat", "read") for file in BASIS_FILES]
OPENS = [(kind, JOURNAL) for kind in ("openat", "flock", "fsync", "statx")] + [("openat", "folder"), ("fsync", "folder")]
POSTS = [("pwrite64", JOURNAL), ("fsync", JOURNAL), ("read", "script.csv")]
READS = [("pread64", JOURNAL)]
OPENS_KEPT = [(kind, KEPT) for kind in ("openat", "flock", "fsync", "statx")]


@dataclass(frozen=True)
class Scene:
    name: str
    words: list[str]
    script: bytes
    has_journal: bool
    makes: list[Any]
    # the number of commands that the checkpoint holds, or None if there is no checkpoint
    kept: int | None = None

    @property
    def posts(self) -> bool:
        return bool(self.words[0] == "run")


def book_before() -> Book:
    """Returns a book of three policies as it is before a scene; the last policy is claimed."""
    day = day_in("2020-01-01")
    issues = [Command("issue", number, day, plan="endowment", age=0, years=3, amount=100000, premium=40000)
              for number in (7, 8, 9)]
    return Book([*issues, Command("premium", 7, day, amount=40000), Command("claim", 9, day_in("2020-01-20"))])


def checkpoint_before(count: int | None) -> bytes:
    return b"" if count is None else bytes_of_checkpoint(checkpoint_of(book_before().commands[:count]))


SCENES = [
    Scene("a first run of one clerk", ["run"], ONE_CLERK, False, OPENS + POSTS + [("write", "out")]),
    Scene("a first run of two clerks", ["run"], TWO_CLERKS, False, OPENS + POSTS + READS_BASIS + [("write", "out")]),
    Scene("a later run of two clerks", ["run"], TWO_CLERKS, True, OPENS + POSTS + READS_BASIS + READS + [("write", "out")]),
    Scene("values", ["value", "2021-01-01"], b"", True, OPENS + READS_BASIS + READS + [("write", "out")]),
    Scene("mean values", ["value", "2021-01-01", "--mean"], b"", True, OPENS + READS_BASIS + READS + [("write", "out")]),
    Scene("a projection", ["project", "2021-01-01", "3"], b"", True, OPENS + READS_BASIS + READS + [("write", "out")]),
    Scene("the state", ["state"], b"", True, OPENS + READS + OPENS_KEPT + [("write", "out")]),
    Scene("the state by a checkpoint", ["state"], b"", True,
          OPENS + OPENS_KEPT + READS + [("pread64", KEPT), ("write", "out")], 4),
    Scene("a checkpoint", ["checkpoint"], b"", True, OPENS + OPENS_KEPT + READS + [("pwrite64", KEPT), ("write", "out")]),
    Scene("a later checkpoint", ["checkpoint"], b"", True,
          OPENS + OPENS_KEPT + READS + [("pread64", KEPT), ("pwrite64", KEPT), ("write", "out")], 3),
    Scene("the state of one policy", ["state", "7"], b"", True, OPENS + READS + [("write", "out")]),
]


def many_policies(count: int) -> Book:
    """Returns a book of this number of policies, at few ages, so that few exact values have to be computed."""
    day = day_in("2020-01-01")
    return Book(Command("issue", number, day, plan="whole", age=30 + number % 7, years=0, amount=100000, premium=2000)
                for number in range(1, count + 1))


def eight_clerks(each: int, taken: int) -> bytes:
    """Returns a script of eight clerks, each with `each` new policies and a premium for each, and two valuations."""
    rows = []
    for n in range(each * 8):
        lane, number = 1 + n % 8, taken + 1 + n
        rows.append(f"{lane},issue,{number},2020-01-01,whole,{30 + number % 7},0,1000.00,20.00")
        rows.append(f"{lane},premium,{number},2020-01-02,20.00")
    rows.insert(len(rows) // 4, "3,value,2021-01-01,now,1")
    rows.insert(len(rows) * 3 // 4, "6,value,2021-01-01,now,1")
    return ("\n".join(rows) + "\n").encode()
