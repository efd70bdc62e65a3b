"""Runs drawn scripts of eight lanes in which one call on the journal fails, or two in a row.

Each failing call is drawn among all that an undisturbed run of the same script makes; it belongs to a posting or to the opening.
strace counts the calls of each thread separately. Exactly as many lines as calls failed are answered `fault`, or every posting
from a failed sync on. What was accepted is in the file; beyond that the file may hold at most the last posting that wasn't
accepted.
"""
import random
from collections import Counter
from concurrent.futures import ThreadPoolExecutor
from pathlib import Path

import pytest

from life_tools.journal.file import file_of, read_journal
from tests.program.faults.judge import demand_faults, judge_early_end, judge_transcript
from tests.program.runs import JOURNAL, Desk, case, strace
from tests.rules.policies import Book
from tests.support.drawn_scripts import make_book, make_script
from tests.support.program import Program

AT_ONCE, FAULTS_EACH = 2, 10
KINDS = ["pwrite64", "fsync", "statx", "pread64"]
ERRORS = ["EIO", "ENOSPC"]


class Drawn:
    def __init__(self, program: Program, folder: Path, seed: int) -> None:
        self.program, self.folder, self.seed = program, folder, seed
        draw = random.Random(seed)
        self.before = file_of(make_book(draw, 40).commands)
        self.script = make_script(draw, Book(read_journal(self.before).commands)).encode()
        desk = self.desk("undisturbed")
        judge_transcript(desk, desk.run(["run"], self.traced(desk, ",".join(KINDS))))
        # for each kind, the number of calls of the thread that makes most of them
        self.most: Counter[str] = Counter()
        calls = Counter(line.split("(")[0] for line in desk.lines_of("log") if "(" in line and "resumed" not in line)
        for (_, kind), count in ((call.split()[-2:], count) for call, count in calls.items()):
            self.most[kind] = max(self.most[kind], count)

    def desk(self, name: str) -> Desk:
        desk = Desk(self.program, self.folder / name)
        desk.lay(self.before, self.script)
        return desk

    def traced(self, desk: Desk, kinds: str, *inject: str) -> list[str]:
        return strace(desk, "-P", desk.journal, "-P", JOURNAL, "-e", f"trace={kinds}", *inject)

    def try_one(self, number: int) -> None:
        draw = random.Random(f"drawn {self.seed} {number}")
        kind = draw.choice([kind for kind in KINDS if self.most[kind]])
        first = draw.randint(1, self.most[kind])
        last = first + draw.randrange(2)
        error = draw.choice(ERRORS)
        desk = self.desk(str(number))
        ended = desk.run(["run"], self.traced(desk, kind, "-e", f"inject={kind}:error={error}:when={first}..{last}"))
        log = desk.lines_of("log")
        with case(f"script {self.seed}: {kind} {first} to {last} fails with {error}"):
            assert not ended.complaints, f"on standard error: {ended.complaints[:300]}"
            if ended.text == "diskfault\n":
                hits = sum("(INJECTED)" in line for line in log)
                assert hits == 1, f"{hits} calls failed in the opening"
                judge_early_end(desk, ended, 8)
            else:
                demand_faults(judge_transcript(desk, ended), log)
                desk.judge_reopening()


@pytest.mark.alone
@pytest.mark.timeout(1500)
@pytest.mark.needs("strace")
@pytest.mark.needs_proof
@pytest.mark.parametrize("seed", range(1000, 1004))
def test_calls_of_drawn_scripts_fail(seed: int, program: Program, quick: Path) -> None:
    drawn = Drawn(program, quick, seed)
    with ThreadPoolExecutor(AT_ONCE) as pool:
        list(pool.map(drawn.try_one, range(FAULTS_EACH)))
