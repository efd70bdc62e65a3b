"""Tests the workers of a valuation and of a projection, and the lanes of a run; no contract states how many threads there are.

A further worker is one more thread if each has 8,192 policies, and in a valuation one more again if each has 8,192 rows to write;
a further lane is one more thread, as strace counts. The text is the same for each number of workers.
"""
import datetime
import re
import subprocess
from collections.abc import Iterator

import pytest

from life_tools.common.formats import PLANS
from life_tools.journal.file import file_of
from life_tools.rules.commands import Command
from tests.support.folders import Folder

pytestmark = pytest.mark.needs("strace")
FIRST, NAMES = datetime.date(2000, 1, 1), sorted(PLANS.values())


def issues(count: int) -> Iterator[Command]:
    for number in range(1, count + 1):
        plan = NAMES[number % len(NAMES)]
        yield Command("issue", number, FIRST + datetime.timedelta(days=number * 37 % 7305), plan, 20 + number * 13 % 50,
                      0 if plan == "whole" else 2 + number * 7 % 40, 100000 * (1 + number % 900), 2000 * (1 + number % 900))


def threads(folder: Folder, *words: str, given: str = "") -> tuple[int, str]:
    log = folder.path / "log"
    ran = subprocess.run(["strace", "-f", "-qq", "-o", log, "-e", "trace=clone,clone3", str(folder.program.path), *words],
                         cwd=folder.path, input=given, capture_output=True, text=True, check=False)
    assert ran.returncode == 0, ran.stderr
    return len(re.findall(r"clone3?\(", log.read_text(encoding="ascii"))), ran.stdout


# A valuation reads 32,768 policies for each worker, or 131,072 in all, values them together, and then reads the next; the thread
# that reads is one of the workers. No more than sixteen workers value. At the end as many threads write the rows, at most one for
# each 8,192 of them. The one policy after the first 65,536 is a part of its own, which takes no further worker. A projection
# values 131,072 policies at once, and then the other 8,192; for these it starts no more workers than two portions of 4,096.
VALUE, PROJECT = "value 2020-12-31", "project 2020-12-31 40"


@pytest.mark.needs_proof
@pytest.mark.timeout(600)
@pytest.mark.parametrize("policies, asked, started", [
    (16383, VALUE, {64: 0}), (16383, PROJECT, {64: 0}), (16384, VALUE, {1: 0, 2: 2, 64: 2}), (16384, PROJECT, {2: 1, 64: 1}),
    (24577, VALUE, {2: 2, 64: 4}), (65537, VALUE, {1: 0, 2: 2, 3: 4, 64: 14}), (139264, VALUE, {4: 9, 64: 45}),
    (139264, PROJECT, {1: 0, 4: 4, 64: 17})])
def test_workers(policies: int, asked: str, started: dict[int, int], examples_basis: Folder) -> None:
    examples_basis.write("journal.life", bytes(file_of(issues(policies))))
    alone = examples_basis.life(*asked.split())
    head = "row," if asked == VALUE else "year,"
    assert alone.status == 0 and alone.out.count(f"\n{head}") == (policies if asked == VALUE else 40)
    for workers, many in started.items():
        assert threads(examples_basis, *asked.split(), "--workers", str(workers)) == (many, alone.out)


@pytest.mark.parametrize("lanes", [1, 2, 3, 5, 8])
def test_lanes(lanes: int, folder: Folder) -> None:
    """The thread that reads the script runs one of the lanes, and the writer of the transcript has a thread of its own."""
    script = "".join(f"{lane},issue,{lane},2020-01-01,endowment,0,3,1000.00,400.00\n" for lane in range(1, lanes + 1))
    many, out = threads(folder, "run", given=script)
    assert many == lanes and out.count(",accepted,") == lanes
