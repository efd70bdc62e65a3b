"""Tests two runs at the same time over one file."""
import subprocess

import pytest

from life_tools.journal.file import read_journal
from tests.support.folders import Folder

ROUNDS, POSTINGS = 12, 60


@pytest.mark.alone
def test_two_runs_at_once_over_one_file(folder: Folder) -> None:
    """One run locks the file; the other reports diskfault, or runs before or after it."""
    met = 0
    for number in range(ROUNDS):
        there = folder.below(str(number))
        numbers = [range(first, first + POSTINGS) for first in (1, 1 + POSTINGS)]
        runs = [subprocess.Popen([there.program.path, "run"], cwd=there.path, stdin=subprocess.PIPE, stdout=subprocess.PIPE,
                                 text=True) for _ in numbers]
        # both have read their scripts except for the end, so they open the file at about the same time
        for run, asked in zip(runs, numbers):
            assert run.stdin
            run.stdin.write("".join(f"1,issue,{n},2020-01-01,endowment,0,3,1000.00,400.00\n" for n in asked))
        for run in runs:
            assert run.stdin
            run.stdin.close()
        ended = [(run.stdout.read() if run.stdout else "", run.wait(), asked) for run, asked in zip(runs, numbers)]
        refused = [out for out, status, _ in ended if (out, status) == ("diskfault\n", 8)]
        accepted = sorted((int(out.split("\n")[0].split(",")[-1]), list(asked)) for out, status, asked in ended
                          if status == 0 and out.count(",accepted,") == POSTINGS)
        assert len(refused) + len(accepted) == 2 and accepted, ended
        posted = [command.number for command in read_journal(there.journal.read_bytes()).commands]
        assert posted == [n for _, asked in accepted for n in asked]
        met += len(refused)
    assert met, "no two runs met, so nothing was tried"
