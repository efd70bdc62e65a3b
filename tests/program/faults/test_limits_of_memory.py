"""Runs the program under falling limits of its address space, from ample to none.

The output must be that of a run which may be out of memory. In two cases the system ends the program, which then can print
nothing, as docs/reference/statuses.md states: below some limit the program can't be loaded; and if memory ends exactly where the
stack of the first thread has to grow, the system can only send a signal. strace records the address of such a signal. A preview
asks for more memory than any of these limits gives.
"""
import random
import re
import signal
from concurrent.futures import ThreadPoolExecutor
from pathlib import Path

import pytest

from life_tools.journal.file import file_of
from tests.program.faults.judge import judge_lacking
from tests.program.faults.lacking import Lacking, Mode
from tests.program.faults.scenes import eight_clerks, many_policies
from tests.program.runs import Desk, Ended, case, strace
from tests.support.program import Program

AT_ONCE, BEFORE = 2, 150
KIB = 1024
AMPLE, LOADED_FROM = 256 * 1024, 4 * 1024
DRAWN, FINE, PAGE = 20, 25, 4
# the stacks of the first thread lie from this address on, and nothing else does
STACKS_FROM = 0x7ffb_0000_0000
# a thread's stack with its guard, and what the program takes besides, in KiB
THREAD, BESIDE = 8256, 3100
MODES = {"run": ["run"], "value": ["value", "2021-01-01"], "deficiency": ["value", "2021-01-01", "--deficiency"],
         "project": ["project", "2021-01-01", "90"], "state": ["state"], "checkpoint": ["checkpoint"],
         "load": ["load", "1", "300", "8", "1"]}


class Trial(Lacking):
    def try_limit(self, kib: int) -> str:
        """Runs the program under this limit in KiB, and returns a word for how it ended."""
        desk = self.desk(f"{kib}")
        limited = strace(desk, "-e", "trace=none", "-e", "signal=SIGSEGV", "prlimit", f"--as={kib * KIB}")
        ended = desk.run(self.mode.words, limited)
        at = re.search(r"SIGSEGV \{.*si_addr=0x([0-9a-f]+)", "\n".join(desk.lines_of("log")))
        with case(f"{self.mode.name} under {kib} KiB: status {ended.status}"):
            return self.judge_limited(desk, kib, ended, int(at[1], 16) if at else 0)

    def judge_limited(self, desk: Desk, kib: int, ended: Ended, pointed: int) -> str:
        if ended.status == -signal.SIGSEGV and pointed >= STACKS_FROM:
            assert self.mode.words[0] == "run" or not ended.text, f"printed {ended.text[:200]!r}"
            judge_lacking(desk, ended.after)
            return "stack"
        if ended.status == 127 or ended.status < 0 or "error while loading" in ended.complaints:
            assert kib < LOADED_FROM, f"it isn't loaded, or a signal ended it: {ended.complaints[:200]}"
            assert ended.text == "" and ended.after == self.mode.before, "it had begun"
            return "not loaded"
        return self.judge(desk, ended)


def limits(draw: random.Random) -> list[int]:
    """Returns limits in KiB: some that fall by a fifth each time, drawn ones between them, and some that leave little beyond
    the stacks of the threads."""
    falling = [AMPLE]
    while falling[-1] * 4 // 5 > 512:
        falling.append(falling[-1] * 4 // 5)
    drawn = [int(LOADED_FROM * (AMPLE / LOADED_FROM) ** draw.random()) for _ in range(DRAWN)]
    return falling + drawn + [BESIDE + THREAD * (n % 8) + draw.randrange(50) * PAGE for n in range(DRAWN)]


@pytest.mark.alone
@pytest.mark.timeout(1500)
@pytest.mark.needs("strace")
@pytest.mark.needs_proof
@pytest.mark.parametrize("name", MODES)
def test_memory_runs_out(name: str, program: Program, quick: Path) -> None:
    """All limits are tried, and then some between the greatest that doesn't load the program and the least that gives the right
    output."""
    # `load` runs the script that `generate` writes
    script = Desk(program, quick / "generated").run(["generate", "1", "300", "8"]).text.encode() if name == "load" else (
        eight_clerks(25, BEFORE) if name == "run" else b"")
    trial = Trial(program, quick / name, Mode(name, MODES[name], script, file_of(many_policies(BEFORE).commands)
                                              if name != "load" else b""))
    draw = random.Random(f"1 {name}")
    with ThreadPoolExecutor(AT_ONCE) as pool:
        tried = limits(draw)
        words = dict(zip(tried, pool.map(trial.try_limit, tried)))
        below, above = (which(kib for kib, word in words.items() if word == ended)
                        for which, ended in ((max, "not loaded"), (min, "right")))
        at_least = above
        while above - below > 2 * PAGE:
            middle = (below + above) // 2
            below, above = (middle, above) if trial.try_limit(middle) == "not loaded" else (below, middle)
        between = range(below, at_least, PAGE)
        list(pool.map(trial.try_limit, draw.sample(between, min(FINE, len(between)))))
