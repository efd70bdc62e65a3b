"""Tests a damaged commit byte, which ends the journal for the program. Neither the clone's launcher nor the installed `life`
lets the program post after it, unless the caller accepts the loss; commands that only read are run with a warning."""
import json
import os
import shutil
from pathlib import Path

import pytest

from tests.support.folders import EXAMPLES, Folder
from tests.tools.launcher.conftest import Called, ran

# the records of the small office
COMMANDS = 27
ISSUE = "1,issue,9001,2024-03-01,endowment,30,20,1000.00,40.00\n"


@pytest.fixture
def damaged(small_office: Folder) -> Folder:
    """The small office with a damaged commit byte in record 3: the 23 records after it can't be read."""
    small_office.damage(3)
    return small_office


def test_a_damaged_book_isnt_posted_to(damaged: Folder, life: Called) -> None:
    before = damaged.journal.read_bytes()
    done = ran([*life.words, "run"], damaged.path, ISSUE)
    assert (done.status, done.out) == (67, "") and damaged.journal.read_bytes() == before
    assert "journal.life is damaged, so nothing was run" in done.err and f"{life.named} run --accept-damage 3" in done.err
    assert ran([*life.words, "load", "1", "1", "1", "1"], damaged.path).status == 67
    done = ran([*life.words, "checkpoint"], damaged.path)
    assert done.status == 67 and f"{life.named} checkpoint --accept-damage 3" in done.err
    assert not (damaged.path / "checkpoint.life").exists(), done


def test_only_the_reported_count_is_accepted(damaged: Folder, life: Called) -> None:
    assert ran([*life.words, "run", "--accept-damage", "4"], damaged.path, ISSUE).status == 67
    done = ran([*life.words, "run", "--accept-damage=3", "--basis", "basis.csv"], damaged.path, ISSUE)
    assert done.status == 0 and done.out.startswith("1,issue,9001,accepted,4\n"), done
    for wrong in (["--accept-damage"], ["--accept-damage", "x"], ["--accept-damage="]):
        done = ran([*life.words, "run", *wrong], damaged.path, ISSUE)
        assert (done.status, done.out) == (2, "usage\n"), done


def test_what_reads_is_run_and_warned_of(damaged: Folder, life: Called) -> None:
    done = ran([*life.words, "state"], damaged.path)
    assert done.status == 0 and done.out.endswith("count,3\n")
    assert "journal.life is damaged, and what follows is of its first 3 commands alone" in done.err


def test_a_count_that_a_checkpoint_or_a_log_noted(small_office: Folder, life: Called) -> None:
    """Only the last commit byte is damaged. The length is that after a crash, so only a recorded count of 27 shows the damage."""
    assert small_office.life("checkpoint").out == f"checkpoint,{COMMANDS}\n"
    small_office.damage(COMMANDS - 1)
    done = ran([*life.words, "run"], small_office.path, ISSUE)
    assert done.status == 67 and f"; journal.life has {COMMANDS - 1} commands, and had {COMMANDS} by checkpoint.life)" in done.err
    # a new checkpoint would replace the one that shows the loss
    noted = (small_office.path / "checkpoint.life").read_bytes()
    assert ran([*life.words, "checkpoint"], small_office.path).status == 67
    assert (small_office.path / "checkpoint.life").read_bytes() == noted
    done = ran([*life.words, "checkpoint", "--accept-damage", str(COMMANDS - 1)], small_office.path)
    assert (done.status, done.out) == (0, f"checkpoint,{COMMANDS - 1}\n"), done
    os.remove(small_office.path / "checkpoint.life")
    small_office.write("log/runs/000001/run.json", json.dumps({"before": 0, "after": COMMANDS}))
    done = ran([*life.words, "run"], small_office.path, ISSUE)
    assert done.status == 67 and f"had {COMMANDS} by " in done.err and "log" in done.err, done
    shutil.rmtree(small_office.path / "log")
    done = ran([*life.words, "run"], small_office.path, ISSUE)
    assert done.status == 0 and "undecided" in done.err, done


def test_a_book_that_cant_be_verified_is_run_and_warned_of(small_office: Folder, life: Called) -> None:
    small_office.write("log/runs/000001/run.json", "no JSON")
    done = ran([*life.words, "state"], small_office.path)
    assert done.status == 0 and "the book isn't verified: " in done.err and "run.json" in done.err, done


def test_a_whole_book_is_run_without_a_word(small_office: Folder, life: Called) -> None:
    done = ran([*life.words, "state"], small_office.path)
    assert done.status == 0 and done.err == ""


def test_without_python_the_length_is_compared(damaged: Folder, installed: Path, tmp_path: Path) -> None:
    commands = tmp_path / "commands"
    commands.mkdir()
    for each in ("sh", "sed", "tr", "grep", "od", "awk", "stat", "dirname", "readlink", "paste"):
        found = next(Path(place, each) for place in ("/usr/bin", "/bin") if os.access(os.path.join(place, each), os.X_OK))
        (commands / each).symlink_to(found)
    done = ran([installed / "life", "run"], damaged.path, ISSUE, {"PATH": str(commands)})
    assert done.status == 67 and "its first 3 commands can be read" in done.err, done


def test_a_link_to_nothing_is_no_folder_without_a_book(folder: Folder, life: Called) -> None:
    folder.journal.symlink_to("disk/journal.life")
    (folder.path / "disk").mkdir()
    for words in (["run"], ["state"], ["load", "1", "1", "1", "1"]):
        done = ran([*life.words, *words], folder.path, ISSUE)
        assert (done.status, done.out) == (66, ""), done
        assert "journal.life is a link to disk/journal.life, which isn't there" in done.err
    assert not os.listdir(folder.path / "disk")


def test_an_empty_journal_is_said_to_be_empty(folder: Folder, life: Called) -> None:
    folder.write("journal.life", b"")
    done = ran([*life.words, "run"], folder.path, (EXAMPLES / "first-issues.csv").read_text())
    assert done.status == 0 and "journal.life is empty" in done.err
