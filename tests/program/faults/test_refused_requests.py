"""Runs the program with one request for memory refused; each of its requests is refused in a run of its own.

All other memory is given. So at most one line is answered `nomemory`, and if the text is cut, all lines were processed. If
several threads run, one run may make fewer requests than another; a run in which no request is refused must print the right text.
If a mode makes more than some hundred requests, the later ones are sampled at even distances. A preview asks for memory in its
own way.
"""
import re
import shutil
import struct
import subprocess
from collections import Counter
from concurrent.futures import ThreadPoolExecutor
from pathlib import Path

import pytest

from life_tools.journal.checkpoints import bytes_of_checkpoint, checkpoint_of
from life_tools.journal.file import read_journal
from tests.program.faults.judge import judge_unanswered
from tests.program.faults.lacking import Lacking, Mode
from tests.program.office import example
from tests.program.runs import Desk, Ended, case
from tests.support.missing import lacks
from tests.support.program import Program

AT_ONCE = 4
# for each mode, the first requests are refused one by one, and then this many of the later ones
EACH, SPREAD = 300, 100
# what the library writes: how many requests were made, and how many were refused
COUNTED = struct.Struct("=QQ")
# other functions by which a program could request memory, which the library doesn't see
OTHER_WAYS = re.compile(rb"\0(mmap|mmap64|mremap|brk|sbrk|memalign|valloc|pvalloc|reallocarray)[@\0]")
ON = "2024-12-31"


def modes(program: Program, folder: Path) -> list[Mode]:
    office, desk = example("small-office.csv").encode(), Desk(program, folder)
    desk.lay(b"", office)
    before = desk.run(["run"]).after
    kept = bytes_of_checkpoint(checkpoint_of(read_journal(before).commands[:20]))
    # `load` runs the script that `generate` writes
    drawn = desk.run(["generate", "1", "4", "2"]).text.encode()
    texts = ["state", "state 14", "checkpoint", f"project {ON} 5", f"value {ON} --at 20 --workers 2", f"value {ON} --mean",
             f"value {ON} --deficiency"]
    return [Mode("the small office", ["run"], office, b""),
            Mode("the small office again", ["run"], office, before),
            Mode("two clerks and two valuations", ["run"], example("two-clerks.csv").encode(), b""),
            *(Mode(words, words.split(), b"", before) for words in texts),
            Mode("state by a checkpoint", ["state"], b"", before, kept),
            Mode("generate", ["generate", "1", "3", "2"], b"", b""),
            Mode("load", ["load", "1", "4", "2", "2"], drawn, b"")]


class Refused(Lacking):
    def __init__(self, program: Program, folder: Path, library: Path, mode: Mode) -> None:
        super().__init__(program, folder, mode)
        self.library = library

    def refuse(self, desk: Desk, number: int) -> tuple[str, int, int]:
        """Runs the program with the request of this number refused. Returns a word for how it ended, how many requests it made,
        and how many were refused."""
        counted = desk.write("requests", bytes(COUNTED.size))
        ended = desk.run(self.mode.words, [
            "env", f"LD_PRELOAD={self.library}", f"REQUESTS={counted}", f"REFUSED_REQUEST={number}"])
        made, refused = COUNTED.unpack(counted.read_bytes())
        return self.judge(desk, ended), made, refused

    def count(self) -> int:
        """Returns the number of requests that a run makes if none is refused."""
        word, made, _ = self.refuse(self.desk("counted"), 0)
        assert word == "right" and made, f"{self.mode.name}: with all memory it makes {made} requests, and ends {word}"
        return made

    def try_one(self, number: int) -> str:
        """Runs the program with the request of this number refused, if it makes as many, and returns a word for how it ended."""
        desk = self.desk(str(number))
        with case(f"{self.mode.name}: request {number} refused"):
            word, made, refused = self.refuse(desk, number)
            if not refused:
                assert word == "right" and made < number, f"of {made} requests none was refused, and it ended {word}"
                word = "fewer"
            if self.mode.posts or self.mode.words[0] == "checkpoint":
                desk.judge_reopening()
        shutil.rmtree(desk.path)
        return word

    def judge_count(self, unserved: int) -> None:
        assert unserved == 1, f"{unserved} lines were out of memory, at status 9"

    def judge_silent(self, desk: Desk, ended: Ended) -> None:
        judge_unanswered(desk, ended.after, True)


@pytest.fixture
def library(tmp_path: Path) -> Path:
    """The library that refuses a request, built."""
    made, source = tmp_path / "refuse_nth.so", Path(__file__).with_name("refuse_nth.c")
    words = ["gcc", "-shared", "-fPIC", "-O1", "-Wall", "-Wextra", "-o", str(made), str(source), "-ldl"]
    built = subprocess.run(words, capture_output=True, text=True, check=False)
    if built.returncode:
        lacks(f"the headers of the C library aren't installed: {built.stderr[:200]}")
    return made


@pytest.mark.alone
@pytest.mark.timeout(1500)
@pytest.mark.needs("gcc")
@pytest.mark.needs_proof
def test_each_request_for_memory_is_refused_once(library: Path, program: Program, quick: Path) -> None:
    other = OTHER_WAYS.search(program.path.read_bytes())
    assert not other, f"the program may ask for memory by {other and other[1].decode()}, which is never refused"
    seen: Counter[str] = Counter()
    for mode in modes(program, quick / "before"):
        trial = Refused(program, quick / mode.name.replace(" ", "-"), library, mode)
        count = trial.count()
        later = range(EACH + 1, count + 1)
        tried = [*range(1, min(EACH, count) + 1), *later[::max(1, len(later) // SPREAD)]]
        with ThreadPoolExecutor(AT_ONCE) as pool:
            words = Counter(pool.map(trial.try_one, tried))
        assert words["fewer"] * 10 <= len(tried), f"{mode.name}: {words['fewer']} runs of {len(tried)} asked less often"
        seen += words
    assert all(seen[word] for word in ("nomemory", "in part", "cut")), f"the runs ended as {dict(seen)}"
