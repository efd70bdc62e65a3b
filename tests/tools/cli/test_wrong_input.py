"""Tests files that aren't what they must be: each tool reports it, with the place, ends with status 2 and writes nothing.

The first table has one fault of each kind, with its message. The other tables have each place that takes a file or a name:
strange files are put there, and a pipe and a device where a file is read.
"""
import os
import shlex
from random import Random

import pytest

from life_tools.cli.entry import ENTRIES
from tests.support.folders import EXAMPLES, Folder

NEXT = "1,premium,12,2025-02-28,310.00\n1,value,2025-02-28,now,1\n"
NONE = "No such file or directory"
CUT = "badjournal,badrecord,1: record 1: it is cut short at byte 100"
# the arguments of a tool | what its message must say
FAULTS = f"""\
check nowhere | nowhere: {NONE}
check small-office.csv --folder cut | badjournal,badrecord,1
check small-office.csv --life nowhere | nowhere is no program
dry-run nowhere | nowhere: {NONE}
dry-run small-office.csv --life nowhere | nowhere is no program
dry-run strange | 0 accepted, 0 refused, status 3
dry-run small-office.csv --folder cut | 0 accepted, 0 refused, status 5
check strange | strange is badscript,1,1
check cut.csv | cut.csv is badscript,1,8
check small-office.csv --today 2021-02-29 | 2021-02-29 is no day
check small-office.csv --today 2200-01-01 | 2200-01-01 is no day
rest nowhere journal.life 0 | nowhere: {NONE}
rest strange journal.life 0 | strange is badscript,1,1
rest small-office.csv nowhere 0 | nowhere: {NONE}
rest small-office.csv cut.life 0 | {CUT}
rest small-office.csv journal.life --printed nowhere | nowhere: {NONE}
rest small-office.csv journal.life 29 | has 28 commands, and before the run there were 29
rest small-office.csv journal.life nowhere | nowhere is no journal, and no number of commands
rest small-office.csv journal.life strange | badjournal,notajournal
explain badscript,1,1 nowhere | nowhere: {NONE}
explain badscript,1,1 | badscript needs the script's file
explain nowhere | nowhere: no such file, and no answer of a line, a script or a basis
explain badbasis,basis.csv | isn't badbasis,NAME,PLACE,WORD
position-on 2021-01-01 nowhere | nowhere: {NONE}
position-on 2021-01-01 strange | badjournal,notajournal
position-on 2021-01-01 cut.life | {CUT}
position-on 1899-12-31 journal.life | 1899-12-31 is no day
position-on 2021-02-29 journal.life | 2021-02-29 is no day
read nowhere | nowhere: {NONE}
read strange | strange: its first 17 bytes aren't those of a journal
read cut.life | cut.life: record 1: it is cut short
read-checkpoint nowhere | nowhere: {NONE}
read-checkpoint strange | strange: byte 0, its commit byte, isn't 1
read-checkpoint cut.checkpoint | cut.checkpoint: it has 12 bytes
read-checkpoint checkpoint.life cut.life | {CUT}
export csv nowhere | nowhere: {NONE}
export jsonl strange | badjournal,notajournal
export csv cut.life | {CUT}
export sqlite cut.life new.db | {CUT}
check-transcript nowhere transcript /dev/null journal.life basis.csv | nowhere: {NONE}
check-transcript small-office.csv nowhere /dev/null journal.life basis.csv | nowhere: {NONE}
check-transcript small-office.csv transcript cut.life journal.life basis.csv | {CUT}
check-transcript small-office.csv transcript /dev/null cut.life basis.csv | {CUT}
check-transcript strange transcript /dev/null journal.life basis.csv | strange is badscript,1,1
check-values journal.life basis.csv nowhere | nowhere: {NONE}
check-values journal.life basis.csv strange | strange is no valuation
check-values cut.life basis.csv block | {CUT}
check-values journal.life nowhere block | badbasis,nowhere,0,absent
check-values journal.life strange block | badbasis,strange,1,badrow
check-projection journal.life basis.csv nowhere | nowhere: {NONE}
check-projection journal.life basis.csv strange | isn't what life project prints
check-projection journal.life basis.csv cut.projected | a projection of 20 years has 22 lines, and this one 3
check-projection cut.life basis.csv projected | {CUT}
plot reserves nowhere | nowhere: {NONE}
plot book nowhere | nowhere: {NONE}
plot projection nowhere | nowhere: {NONE}
plot reserves strange | no valuation in these files
plot reserves cut.block | has no total
plot book cut.state | isn't what life state prints
plot projection strange | isn't what life project prints
plot projection cut.projected | this one 3
at 29 state | 29 is no position of ./journal.life, which has 28 commands
at x state | x is no position
at 1 run | after the position comes one of state, value, project
at 1 | after the position comes one of state, value, project
at --folder nowhere 0 state | nowhere/journal.life: {NONE}
at --folder cut 1 state | {CUT}
at 1 value 2021-02-29 | life value 2021-02-29 ended with 2
"""
# a strange file is put in the place of @; the other files are those of the folder
FILES = """\
check @
due 2021-01-01 @
import @ --map map.csv --script new --left new-left
import other.csv --map @ --script new --left new-left
books @ state
books headroom @
books books.csv value 2022-12-31 --at @
value 2022-12-31 --classes @ --bases bases.csv
value 2022-12-31 --classes classes.csv --bases @
dry-run @
rest @ journal.life 27
rest next.csv @ 27
rest next.csv journal.life --printed @
explain @
explain badscript,2,1 @
position-on 2021-01-01 @
verify @
verify --seal @
headroom @
read @
read-checkpoint @
read-checkpoint checkpoint.life @
export csv @
export jsonl @
export sqlite @ new
export pandas @ new
export sqlite journal.life new --valuation @
check-transcript @ transcript before.life journal.life basis.csv
check-transcript next.csv @ before.life journal.life basis.csv
check-transcript next.csv transcript @ journal.life basis.csv
check-transcript next.csv transcript before.life @ basis.csv
check-transcript next.csv transcript before.life journal.life @
check-values @ basis.csv block
check-values journal.life @ block
check-values journal.life basis.csv @
check-projection @ basis.csv projected
check-projection journal.life @ projected
check-projection journal.life basis.csv @
plot reserves @
plot book @
plot projection @
audit papers @ --html new
audit letters @
table check @
table convert @ new
table round @ new
table join @ q.xml new
table join q.xml @ new
seal --check @
browse --books @
"""
# likewise, where @ is the name of a folder, a program, a basis or a copy
NAMES = """\
day --folder @
day --status --folder @
day --release 1 --folder @
log --folder @
books split @ numbers=1-12 others new-1 new-2
why 14 2022-12-31 --basis @
report 2022-12-31 --basis @
report 2022-12-31 --classes @ --by class
movement 2021-12-31 11 2022-12-31 20 --basis @
movement 2021-12-31 11 2022-12-31 20 --folder @
statement 2021-12-31 11 2022-12-31 20 --basis @
statement 2021-12-31 11 2022-12-31 20 --folder @
dry-run next.csv --life @
at 1 state --folder @
at 1 state --life @
headroom --recorded @
backup new --folder @
restore @ --folder new
generate 1 10 1 --from 5 --life @
audit flags --folder @
audit sample 2 --seed 1 --on 2022-12-31 --basis @
seal --folder @
seal --basis @
browse --folder @
"""
TAKES_NONE = {"version"}
STRANGE = {"page": b"<html>no such thing\n", "noise": Random(1).randbytes(3000), "empty": b"", "zeros": bytes(3000),
           "commas": b",,,,,,,,,,,\n" * 40, "sixteen": "1,issue,1\n".encode("utf-16")}
DIGITS = "9" * 5000
# numbers that are too long, in each kind of file
LONG = {
    "script": f"1,premium,{DIGITS},2022-01-01,{DIGITS}.00\n",
    "row": f"row,{DIGITS},inforce,{DIGITS},1.00,{DIGITS}.00\n",
    "policies": f"policy,{DIGITS},inforce,term,1,2,{DIGITS}.00,1.00,2020-01-01,{DIGITS},0.00\ncount,{DIGITS}\n",
    "count": f"count,{DIGITS}\n",
    "balances": f"balance,cash,{DIGITS}.00\n",
    "valuation": f"0,value,2022-12-31,{DIGITS},{DIGITS}\ntotal,1,1,1\n",
    "numbers": f"{DIGITS},{DIGITS},{DIGITS}\n",
    "rates": f'<XTbML><Table><Values><Axis><Y t="0">0.{DIGITS}</Y></Axis></Values></Table></XTbML>',
    "escapes": "1,\xff\xfe,\x1b[2J,7\n",
}
MOST_LINES = 12


@pytest.fixture
def office(small_office: Folder) -> Folder:
    """The small office after a further script, with everything that the program prints about it, and with files that are cut
    short."""
    office = small_office
    office.write("before.life", office.journal.read_bytes())
    office.write("next.csv", NEXT)
    office.write("transcript", office.post(NEXT))
    for name, words in {"block": ["value", "2024-03-12"], "projected": ["project", "2024-06-30", "20"], "state": ["state"],
                        "checkpointed": ["checkpoint"]}.items():
        office.write(name, office.life(*words).out)
    for name, rows in {"block": 3, "projected": 3, "state": 3}.items():
        office.write(f"cut.{name}", "".join(office.read(name).splitlines(keepends=True)[:rows]))
    office.write("cut.life", office.journal.read_bytes()[:100])
    office.write("cut/journal.life", office.journal.read_bytes()[:100])
    office.write("cut.checkpoint", (office.path / "checkpoint.life").read_bytes()[:12])
    office.write("cut.csv", office.read("small-office.csv")[:40])
    office.write("strange", "<html>no such thing\n")
    return office


@pytest.mark.parametrize("row", FAULTS.splitlines())
def test_a_fault(office: Folder, row: str) -> None:
    words, _, says = row.partition(" | ")
    office.refused(*shlex.split(words), says=says)


@pytest.fixture
def places(office: Folder) -> Folder:
    office.write("map.csv", (EXAMPLES / "other-system-map.csv").read_text(encoding="utf-8"))
    office.write("other.csv", office.read("map.csv").splitlines()[0] + "\n")
    office.write("books.csv", "main,.,basis.csv\n")
    office.write("classes.csv", "11,smoker\n")
    office.write("bases.csv", "smoker,basis.csv\n")
    (office.path / "folder").mkdir()
    for name, data in {**STRANGE, **{name: text.encode("latin-1") for name, text in LONG.items()}}.items():
        office.write(name, data)
    return office


def test_each_tool_that_takes_a_file_is_tried() -> None:
    assert {row.split()[0] for row in (FILES + NAMES).splitlines()} == set(ENTRIES) - TAKES_NONE


@pytest.mark.parametrize(("row", "files"), [*((row, (*STRANGE, *LONG)) for row in FILES.splitlines()),
                                            *((row, (*STRANGE,)) for row in NAMES.splitlines())])
@pytest.mark.needs("python:numpy", "python:pandas", "python:flask")
def test_strange_files(places: Folder, row: str, files: tuple[str, ...]) -> None:
    """An empty file may be right: a journal without commands, or a script without rows."""
    before = places.files()
    for file in (*files, "folder", "nowhere.csv"):
        ended = places.tools(*shlex.split(row.replace("@", file)))
        assert ended.status in ((0, 1, 2) if file == "empty" else (1, 2)), (file, ended)
        assert "Traceback" not in ended.err and "not foreseen" not in ended.err, (file, ended)
        assert len(ended.err.splitlines()) <= MOST_LINES, (file, ended)
        if ended.status:
            assert ended.err or ended.out, file
            assert places.files() == before, file
        before = places.files()


@pytest.mark.parametrize("row", FILES.splitlines())
@pytest.mark.needs("python:numpy", "python:pandas", "python:flask")
def test_a_pipe_or_a_device_is_refused_at_once(places: Folder, row: str) -> None:
    os.mkfifo(places.path / "pipe")
    for name in ("pipe", "/dev/zero"):
        places.refused(*shlex.split(row.replace("@", name)), says=f"{name}: it is a pipe or a device: save it as a file first")
