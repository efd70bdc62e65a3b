"""Kills `life run` and `life checkpoint` with SIGKILL at random moments over real files. KILLS is the number of runs that are
killed, 10 by default; what is drawn is the same each time, not when a kill happens."""
import itertools
import os
import random
import time
from collections import Counter
from dataclasses import dataclass, field
from pathlib import Path

import pytest

from life_tools.common.formats import Wrong
from life_tools.journal.checkpoints import checkpoint_in, checkpoint_of
from life_tools.journal.file import file_of, read_journal
from life_tools.scripts.lines import lines_in
from tests.program.office import EMPTY, RECORD
from tests.program.runs import JOURNAL, KEPT, Desk, case
from tests.support.program import Program

KILLS = int(os.environ.get("KILLS", "10"))
MOST_RECORDS, LONG_SCRIPT, SHORT_SCRIPT = 20000, 3000, 300


def script_of(numbers: list[int]) -> bytes:
    return "".join(f"1,issue,{number},2020-01-01,endowment,0,3,1000.00,400.00\n" for number in numbers).encode()


def body(number: int) -> bytes:
    """Returns the body of the record of such an issue, by docs/reference/journal.md."""
    return (bytes([1, 3, 0, 3]) + number.to_bytes(4, "big") + (18262).to_bytes(4, "big") + (100000).to_bytes(8, "big")
            + (40000).to_bytes(8, "big") + bytes(36))


def prefix_of(numbers: list[int]) -> bytes:
    """Returns the file up to the end of the last of these records."""
    return EMPTY[:17] + b"".join(b"\1" + body(number) for number in numbers)


def is_unfinished(image: bytes) -> bool:
    return len(image) <= 1 or image[0] == 0 and len(image) <= 18 or (
        image[0] != 1 and image[1:17] == EMPTY[1:17] and image[17:] != b"\1" and len(image) == 18)


def accepted_in(image: bytes) -> int:
    """Returns how many commit bytes in a row are 1, from that of record 0 on; the file must have another commit byte after
    them."""
    count = next(n for n in itertools.count() if image[17 + RECORD * n:18 + RECORD * n] != b"\1")
    assert 17 + RECORD * count < len(image), f"the file ends at an accepted record, {count}"
    return count


def wait(seconds: float) -> None:
    """Waits for this time; more exact than `time.sleep` if the time is short."""
    end = time.perf_counter() + seconds
    time.sleep(max(seconds - 0.005, 0))
    while time.perf_counter() < end:
        pass


@dataclass
class Trial:
    """The journal that grows, the creations that were cut short, and what was counted."""

    program: Program
    folder: Path
    given: int = 0
    standing: Desk | None = None
    kept: list[int] = field(default_factory=list)
    unfinished: list[bytes] = field(default_factory=list)
    kinds: Counter[str] = field(default_factory=Counter)

    def numbers(self, many: int) -> list[int]:
        first, self.given = self.given, self.given + many
        return [k * 1000000007 % 4294967291 + 1 for k in range(first, self.given)]

    def round(self, draw: random.Random, span: float) -> bool:
        """Kills a run, a third of them during or near the creation of the journal, judges what it left, and runs the program
        again on that. Returns whether the run was killed before its end."""
        if draw.random() < 1 / 3:
            begun = draw.choice(self.unfinished) if self.unfinished and draw.random() < 0.25 else b""
            is_near_creation = not begun and draw.random() < 0.5
            desk, kept, asked = Desk(self.program, self.folder / "new"), list[int](), self.numbers(SHORT_SCRIPT)
            delay = draw.uniform(0, 0.0015 if is_near_creation else 0.003)
            desk.lay(begun)
        else:
            if self.standing is None or len(self.kept) > MOST_RECORDS:
                self.standing, self.kept = Desk(self.program, self.folder / "standing"), []
            # a quarter of these kills is near the start of the run
            desk, kept, delay = self.standing, self.kept, draw.uniform(0, span / 20 if draw.random() < 0.25 else span)
            is_near_creation, asked = False, self.numbers(LONG_SCRIPT)
        had_file = desk.journal.exists()
        desk.write("script.csv", script_of(asked))
        run = desk.start(["run"])
        while is_near_creation and run.poll() is None and not desk.journal.exists():
            pass
        wait(delay)
        run.kill()
        ended = desk.ended(run)
        assert ended.status in (0, -9), f"the run to be killed ended with status {ended.status}"
        assert desk.journal.exists() or not had_file, "the file is gone"
        staged = self.judge_left(ended.after, ended.text, kept, asked)
        assert ended.status or len(kept) == self.before + len(asked), f"a run that ended left {len(kept)} records"
        if desk.journal.exists() and is_unfinished(ended.after):
            self.unfinished.append(ended.after)
        # the number of a body that was written without its commit byte is as free as one that was never asked for
        free = staged if staged and draw.random() < 0.5 else self.numbers(1)[0]
        self.reopen(desk, kept, free, [draw.choice(kept), kept[-1]] if kept else [])
        return ended.status != 0

    def judge_left(self, image: bytes, text: str, kept: list[int], asked: list[int]) -> int:
        """Judges what the killed run left, and adds its accepted policies to those that were kept. Returns the policy of a body
        after a commit byte that isn't 1, or 0."""
        self.before = len(kept)
        if is_unfinished(image):
            assert not kept and not text, f"a journal of {len(kept)} records is none any more, or the run had printed {text!r}"
            self.kinds["creation" if image else "no file"] += 1
            return 0
        count = accepted_in(image)
        assert len(kept) <= count <= len(kept) + len(asked), f"{count} records, {len(kept)} before, {len(asked)} asked for"
        shown = [line for line in text.split("\n")[:-1] if not line.startswith("watcher,")]
        due = [f"1,issue,{number},accepted,{len(kept) + n}" for n, number in enumerate(asked, 1)]
        assert shown == due[:len(shown)], "it printed other lines than are due"
        assert len(kept) + len(shown) <= count, f"it printed {len(shown)} accepted lines, and left {count} records"
        ahead = asked[count - len(kept):][:1]
        kept += asked[:count - len(kept)]
        assert image.startswith(prefix_of(kept)), "the accepted records aren't those of the scripts in order"
        staged = image[17 + RECORD * count + 1:]
        assert not staged or ahead, "a body is there that wasn't asked for"
        assert not staged or (body(ahead[0]) + b"\0").startswith(staged), "the body after them isn't that of the next line"
        self.kinds[{0: "no body", RECORD: "a whole body"}.get(len(staged), "a torn body")] += 1
        return ahead[0] if staged else 0

    def reopen(self, desk: Desk, kept: list[int], new: int, taken: list[int]) -> None:
        """Runs the program on what was left, and judges its output and the file afterwards."""
        desk.write("script.csv", script_of([*taken, new]))
        ended = desk.run(["run"])
        refused = "".join(f"1,issue,{number},refused,taken\n" for number in taken)
        wanted = f"{refused}1,issue,{new},accepted,{len(kept) + 1}\nwatcher,1,1,1\nwatcher,2,1,0\n"
        assert (ended.status, ended.text) == (0, wanted), f"on reopening: {ended.status}, {ended.text!r}, wanted {wanted!r}"
        kept.append(new)
        assert ended.after.startswith(prefix_of(kept)), "the records after reopening aren't those before and the new one"
        assert accepted_in(ended.after) == len(kept)


def test_killed_runs_of_one_lane_reopen_to_what_was_accepted(program: Program, tmp_path: Path) -> None:
    trial, killed = Trial(program, tmp_path), 0
    timed = Desk(program, tmp_path / "timed")
    timed.write("script.csv", script_of(trial.numbers(LONG_SCRIPT * 2 // 3)))
    begun = time.perf_counter()
    timed.run(["run"])
    span = time.perf_counter() - begun
    for number in itertools.count(1):
        with case(f"round {number}"):
            if trial.round(random.Random(f"1/{number}"), span):
                killed += 1
            else:
                span *= 0.9
        if killed == KILLS:
            break
        assert number - killed <= 100 + 3 * KILLS, "most runs end before their kill"
    print(f"{killed} kills; what was left: {dict(trial.kinds)}")


@pytest.mark.alone
@pytest.mark.timeout(600)
def test_killed_checkpoints_and_runs_with_one(program: Program, tmp_path: Path) -> None:
    """The file holds no checkpoint or that of a prefix of the journal, and `state` prints what it prints without it."""
    desk, draw, killed, rounds = Desk(program, tmp_path / "killed"), random.Random("1"), 0, 24
    numbers = itertools.count(1)

    def issues(many: int) -> bytes:
        return script_of(list(itertools.islice(numbers, many)))

    def seconds(words: list[str], script: bytes = b"") -> float:
        desk.write("script.csv", script)
        begun = time.perf_counter()
        ended = desk.run(words)
        assert ended.status == 0, ended
        return time.perf_counter() - begun

    def is_killed(words: list[str], script: bytes, delay: float) -> bool:
        desk.write("script.csv", script)
        run = desk.start(words)
        time.sleep(delay)
        run.kill()
        return run.wait() != 0

    desk.lay(file_of(line.posted for line in lines_in(issues(1500))))
    span, long = seconds(["checkpoint"]), seconds(["run"], issues(40))
    for number in range(rounds):
        if draw.random() < 0.2:
            (desk.path / KEPT).unlink(missing_ok=True)
        if draw.random() < 0.3:
            killed += is_killed(["run"], issues(40), draw.uniform(0, 1.2 * long))
        else:
            seconds(["run"], issues(5))
            killed += is_killed(["checkpoint"], b"", draw.uniform(0, 1.5 * span))
        with case(f"round {number}"):
            commands = read_journal(desk.bytes_of()).commands
            try:
                checkpoint = checkpoint_in(desk.bytes_of(KEPT))
            except Wrong:
                pass
            else:
                assert checkpoint.position <= len(commands), f"a checkpoint of {checkpoint.position} of {len(commands)} commands"
                assert checkpoint == checkpoint_of(commands[:checkpoint.position]), "a checkpoint of other books"
            # before anything is repaired
            alone = desk.below("alone")
            alone.write(JOURNAL, desk.bytes_of())
            (alone.path / KEPT).unlink(missing_ok=True)
            stated = desk.run(["state"])
            assert (stated.status, stated.text) == (0, alone.life("state").out), "`state` prints something else by the checkpoint"
    assert killed >= rounds // 8, f"of {rounds} rounds {killed} were killed before their end"
