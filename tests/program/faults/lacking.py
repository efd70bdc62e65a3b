"""Judges runs of one mode that may be out of memory, by comparison with a run that had enough.

The output must be the right text, or report that memory was lacking: `nomemory` before the first posting, lines answered
`nomemory`, or a prefix of the text; in each of these cases with status 9. The file must hold what was accepted.
"""
from dataclasses import dataclass
from pathlib import Path

from tests.program.faults.judge import demand_file, follow, judge_early_end, judge_lacking, judge_prefix
from tests.program.runs import Desk, Ended
from tests.support.program import Program


@dataclass
class Mode:
    """The arguments of a run, its journal, checkpoint and script. `load` draws its script for itself."""

    name: str
    words: list[str]
    script: bytes
    before: bytes
    kept: bytes = b""

    @property
    def posts(self) -> bool:
        return self.words[0] in ("run", "load")


class Lacking:
    """Judges the runs of a mode. Each run has its own desk in the folder."""

    def __init__(self, program: Program, folder: Path, mode: Mode) -> None:
        self.program, self.folder, self.mode = program, folder, mode
        self.right = self.desk("ample").run(mode.words)
        assert self.right.status == 0, f"{mode.name}: with ample memory it ends with {self.right.status}"

    def desk(self, name: str) -> Desk:
        desk = Desk(self.program, self.folder / name)
        desk.lay(self.mode.before, self.mode.script, self.mode.kept)
        return desk

    def judge(self, desk: Desk, ended: Ended) -> str:
        mode = self.mode
        assert ended.status in (0, 9), f"status {ended.status}, and {ended.text[:200]!r} {ended.complaints[:200]!r}"
        assert not ended.complaints, f"on standard error: {ended.complaints[:200]!r}"
        assert mode.posts or ended.after == mode.before, "the file was touched"
        if ended.status == 0:
            assert mode.words[0] == "run" or ended.text == self.right.text, f"another text: {ended.text[:200]!r}"
            assert not mode.posts or not self.unserved(desk, ended), "a line was out of memory, at status 0"
            return "right"
        if ended.text == "nomemory\n":
            judge_early_end(desk, ended, 9)
            return "nomemory"
        # some lines were answered `nomemory`, or there was no memory for the text
        assert mode.posts, f"printed {ended.text[:200]!r}"
        if "\nwatcher," in ended.text or mode.words[0] == "load" and ended.text:
            self.judge_count(self.unserved(desk, ended))
            return "in part"
        self.judge_silent(desk, ended)
        if mode.words[0] == "run":
            judge_prefix(desk, ended)
        return "cut"

    def judge_count(self, unserved: int) -> None:
        assert unserved, "no line was out of memory, at status 9"

    def judge_silent(self, desk: Desk, ended: Ended) -> None:
        judge_lacking(desk, ended.after)

    def unserved(self, desk: Desk, ended: Ended) -> int:
        """Returns how many lines were out of memory, by the text of a run that posts; its file must hold what was accepted."""
        if self.mode.words[0] == "load":
            posted = judge_lacking(desk, ended.after)
            assert ended.text.startswith(f"load,{posted},"), f"{posted} records, and printed {ended.text!r}"
            return len(self.mode.script.splitlines()) - posted - int(ended.text.split(",")[2])
        run = follow(desk, ended.text)
        assert not run.faults, "a line met a fault"
        demand_file(ended.after, run.book.commands)
        return run.unserved
