"""Tests limits with real sizes, with the real program on real files: what is one byte, row, field, record or element past a
limit."""
import os
import re
from pathlib import Path

import pytest

from tests.program.hostile.trial import Trial, judge_journal, judge_script
from tests.program.office import EMPTY, FIRST_BYTES, NONE_WATCHED, POLICY, RECORD, checks, prints
from tests.support.big_journals import write as write_big
from tests.support.folders import Folder
from tests.support.made_books import select_table
from tests.support.program import Program

ACCEPTED = "1,issue,7001,accepted,1\nwatcher,1,1,1\nwatcher,2,1,0\n"


# each field of an issue at its limits and one beyond them, and one field too many
LIMITS = {"number": ["0", "1", "4294967295", "4294967296"], "age": ["0", "128", "129", "130", "131"],
          "years": ["0", "1", "2", "101", "102"], "plan": ["term", "whole", "limited"],
          "amount": ["0.00", "0.01", "100000000.00", "100000000.01", "1000000000.00", "60.00,1.00"]}


@pytest.fixture
def trial(program: Program, tmp_path: Path) -> Trial:
    return Trial(program, tmp_path / "trial")


@pytest.mark.parametrize(("field", "value"), [(field, value) for field, values in LIMITS.items() for value in values])
def test_scripts_at_the_limits(trial: Trial, field: str, value: str) -> None:
    fields = {"number": "1", "plan": "endowment", "age": "30", "years": "10", "amount": "60.00", field: value}
    judge_script(trial, "1,issue,{number},2020-01-01,{plan},{age},{years},{amount},1.00\n".format_map(fields).encode())


def test_journals_of_few_bytes(trial: Trial) -> None:
    """A creation that a crash ended may have left some of these."""
    for data in [*(bytes(size) for size in range(21)), *(EMPTY[:size] for size in range(19)), bytes(1) + EMPTY[1:],
                 bytes([2]) + EMPTY[1:], EMPTY[:17] + b"\x02", EMPTY[:17] + b"\x01"]:
        judge_journal(trial, data)


@pytest.fixture
def one_issue(folder: Folder) -> Folder:
    assert prints(folder, "run", given=POLICY) == (0, ACCEPTED)
    assert folder.journal.stat().st_size == FIRST_BYTES + RECORD
    return folder


def test_a_commit_byte_of_2(one_issue: Folder) -> None:
    """The journal ends before a record whose commit byte is 2."""
    journal = bytearray(one_issue.journal.read_bytes())
    journal[17] = 2
    one_issue.journal.write_bytes(bytes(journal))
    empty = "".join(f"balance,{name},0.00\n" for name in ("cash", "premiums", "incurred", "payable")) + "count,0\n"
    assert prints(one_issue, "state") == (0, empty)
    assert prints(one_issue, "run", given=POLICY) == (0, ACCEPTED)


@pytest.mark.parametrize("change, record", [
    (lambda journal: journal[:82], 0),
    # 200,000 days after 1970-01-01 lies past the last day
    (lambda journal: journal[:26] + b"\0\3\15\100" + journal[30:], 0),
    (lambda journal: journal[:82] + journal[17:], 1),
], ids=["cut", "an unknown day", "the same issue twice"])
def test_a_bad_record(change: object, record: int, one_issue: Folder) -> None:
    assert callable(change)
    changed = change(one_issue.journal.read_bytes())
    one_issue.journal.write_bytes(changed)
    assert prints(one_issue, "run") == (5, f"badjournal,badrecord,{record}\n")
    assert one_issue.journal.read_bytes() == changed


SIXTEEN = "".join(f"1,value,2021-01-01,now,{workers}\n" for workers in range(1, 17))


@pytest.mark.parametrize("script, wanted", [
    (b"\n" * 16777217, "badscript,toolong\n"), ((SIXTEEN + "8,value,2021-01-01,0,1\n").encode(), "badscript,17,2\n"),
    ((POLICY.strip() + ",\n").encode(), "badscript,1,10\n")], ids=["16 MiB and a byte", "seventeen valuations", "a tenth field"])
def test_scripts_past_a_limit(script: bytes, wanted: str, table_q: Folder) -> None:
    assert prints(table_q, "run", given=script) == (3, wanted)
    assert not table_q.journal.exists()


def test_scripts_at_a_limit(table_q: Folder) -> None:
    assert prints(table_q, "run", given=b"\n" * 16777216) == (0, NONE_WATCHED)
    assert prints(table_q, "run", given=SIXTEEN) == (0, "1,value,2021-01-01,0,0\ntotal,0.00,0.00,0\n" * 16 + NONE_WATCHED)


def nested(depth: int) -> str:
    """Returns a table with elements that are nested to this depth: the four of the path, and further ones after its row."""
    around = depth - 4
    row = '<Y t="0">1</Y>' + "<a>" * around + "</a>" * around
    return f"<XTbML><Table><Values><Axis>{row}</Axis></Values></Table></XTbML>\n"


def test_elements_one_in_the_other(table_q: Folder) -> None:
    table_q.post(POLICY)
    table_q.write("q.xml", nested(65))
    # 28 bytes of the path, 14 of the row, and 60 elements of three bytes before the one that is nested too deep
    assert prints(table_q, "value", "2021-01-01") == (4, "badbasis,q.xml,222,notdocument\n")
    table_q.write("q.xml", nested(64))
    wanted = "0,value,2021-01-01,1,1\nrow,7001,inforce,0,pasttable\ntotal,0.00,0.00,1\n"
    assert prints(table_q, "value", "2021-01-01") == (0, wanted)


def test_all_issue_ages(table_q: Folder) -> None:
    """Each issue age has a rate for each age up to 130, in 131 durations in all. Then one rate too many is refused, a file of
    the greatest size is read, and one byte more is refused."""
    table_q.post(POLICY)
    text = select_table(0, 130, 131, 0, 130)
    table_q.write("q.xml", text)
    widest = prints(table_q, "value", "2021-01-01")
    table_q.write("widest", widest[1])
    checks(table_q, "check-values", "journal.life", "basis.csv", "widest")
    assert widest[0] == 0 and re.search(r"^row,7001,inforce,1,[0-9]", widest[1], re.M)
    blank = '<Y t="2"/>'
    assert text.count(blank) == 1
    table_q.write("q.xml", text.replace(blank, '<Y t="2">1</Y>'))
    assert prints(table_q, "value", "2021-01-01") == (4, f"badbasis,q.xml,{text.index(blank)},badduration\n")
    text += "\n" * (4194304 - len(text))
    table_q.write("q.xml", text)
    assert prints(table_q, "value", "2021-01-01") == widest
    table_q.write("q.xml", text + "\n")
    assert prints(table_q, "value", "2021-01-01") == (4, "badbasis,q.xml,1,toolong\n")


@pytest.mark.needs_proof
@pytest.mark.timeout(600)
def test_a_load_of_100_000_policies(program: Program, quick: Path) -> None:
    """The run syncs some hundred thousand times, so it runs in memory; a program in plain Rust computes the same sums
    (bench/plain_value.rs)."""
    folder = Folder(quick, program)
    folder.take("basis.csv", "q.xml", "g.xml")
    wanted = "load,200000,0,100000,24983240405.50,24983241045.16,0\n"
    assert prints(folder, "load", "1", "100000", "8", "8") == (0, wanted)
    assert folder.journal.stat().st_size == FIRST_BYTES + 200_000 * RECORD


@pytest.mark.needs_proof
@pytest.mark.timeout(900)
def test_the_longest_valuation(examples_basis: Folder) -> None:
    """As many policies as possible, of the greatest amount; what one of them is worth is computed without the program."""
    write_big("greatest", 1, str(examples_basis.journal))
    block = prints(examples_basis, "value", "2022-12-31")[1]
    examples_basis.write("block", block)
    checks(examples_basis, "check-values", "journal.life", "basis.csv", "block")
    worth = next(line.removeprefix("row,1,") for line in block.splitlines() if line.startswith("row,"))
    write_big("greatest", 4_000_000, str(examples_basis.journal))
    status, out = prints(examples_basis, "value", "2022-12-31")
    sums = ",".join(f"{int(bound.replace('.', '')) * 40_000}.00" for bound in worth.split(",")[2:])
    assert status == 0
    lines = iter(out.splitlines())
    assert next(lines) == "0,value,2022-12-31,4000000,4000000"
    assert all(next(lines) == f"row,{number},{worth}" for number in range(1, 4_000_001))
    assert list(lines) == [f"total,{sums},0"]


@pytest.mark.needs_proof
@pytest.mark.timeout(600)
def test_a_full_journal(folder: Folder) -> None:
    """A journal that lacks one record accepts it and is full. If its last byte, a further commit byte, is then set to 1, it is
    refused."""
    write_big("policies", 3_999_999, str(folder.journal))
    issue = "1,issue,{},2020-01-01,endowment,0,3,1000.00,400.00\n"
    full = "1,issue,4000001,refused,full,4000000\n"
    wanted = "1,issue,4000000,accepted,4000000\n" + full + "watcher,1,1,1\nwatcher,2,1,0\n"
    assert prints(folder, "run", given=issue.format(4000000) + issue.format(4000001)) == (0, wanted)
    assert prints(folder, "run", given=issue.format(4000001)) == (0, full + NONE_WATCHED)
    assert folder.journal.stat().st_size == FIRST_BYTES + 4_000_000 * RECORD
    with open(folder.journal, "r+b") as file:
        file.seek(-1, os.SEEK_END)
        file.write(b"\1")
    assert prints(folder, "run") == (5, "badjournal,badrecord,4000000\n")
