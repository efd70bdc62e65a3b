"""Kills `day`: each row that was handed in is posted once, or held, or refused; and no file is lost."""
import hashlib
import os
import random

import pytest

from tests.support.desks import Desk
from tests.support.folders import Folder
from tests.support.killed_days import Trial

# the number of kills; another number may be set, such as for a long trial by hand
SOME, MANY = 25, int(os.environ.get("LIFE_TRIAL_KILLS", "120"))
SEED = int(os.environ.get("LIFE_TRIAL_SEED", "70"))
FEW = 12
JUDGED_EACH = 25


def killed(folder: Folder, seed: int, kills: int) -> Trial:
    """Runs a trial of this number of kills, and judges the desk after every JUDGED_EACH of them."""
    trial = Trial(Desk(folder), random.Random(seed))
    trial.desk.folder.path.joinpath("inbox").mkdir(exist_ok=True)
    trial.number = 1
    first = b"1,issue,1,2024-05-01,whole,40,0,1000.00,40.00\n"
    trial.desk.hand_in("first.csv", first)
    trial.files.append(first)
    trial.handed_in[hashlib.sha256(first).hexdigest()] += 1
    trial.desk.day("--new", status=1)
    judged = 0
    while trial.kills < kills:
        trial.kill_one()
        if trial.kills // JUDGED_EACH > judged:
            judged = trial.kills // JUDGED_EACH
            trial.judge()
    trial.judge()
    return trial


def test_killed_days_lose_nothing_and_double_nothing(folder: Folder) -> None:
    killed(folder, SEED, SOME)


@pytest.mark.usefixtures("memory")
def test_an_inbox_on_another_file_system_loses_nothing(folder: Folder) -> None:
    """Each claim is a copy, which may be cut anywhere."""
    killed(folder, SEED + 2, FEW)


@pytest.mark.slow
@pytest.mark.timeout(3000)
def test_many_killed_days_lose_nothing_and_double_nothing(folder: Folder) -> None:
    trial = killed(folder, SEED + 1, MANY)
    print(f"{trial.kills} kills: {dict(trial.ways)}, {sum(trial.handed_in.values())} files, {trial.desk.count()} postings")
