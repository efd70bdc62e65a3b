"""Tests a journal that was upgraded: the program writes it and reads it. A journal that is upgraded twice, or that makes a
policy paid up before its upgrade, is refused at that record. A program from before the upgrade refuses the journal at the
upgrade's record."""
import os
import subprocess
import sys
from pathlib import Path

import pytest

from tests.program.office import prints
from tests.program.test_run import lines_of
from tests.support.folders import Folder
from tests.support.program import ROOT

UPGRADE = Path(__file__).with_name("upgrade")
UPGRADED = (UPGRADE / "upgraded.life").read_bytes()
# code of tools that don't know the kinds of records that came with the upgrade
OLDER_TOOLS = """
import pathlib
from life_tools.common import formats
for kind in (9, 10):
    del formats.KINDS[kind]
from life_tools.journal.file import read_journal
print(read_journal(pathlib.Path("journal.life").read_bytes()).refused)
"""


def text_of(name: str) -> str:
    return (UPGRADE / name).read_text(encoding="ascii")


def test_a_script_upgrades_it(folder: Folder) -> None:
    assert prints(folder, "run", given=text_of("script.csv")) == (0, text_of("transcript"))
    assert folder.journal.read_bytes() == UPGRADED


def test_it_is_opened_again(folder: Folder) -> None:
    folder.write("journal.life", UPGRADED)
    assert prints(folder, "state") == (0, text_of("state"))
    assert folder.journal.read_bytes() == UPGRADED
    heads = ("balance,", "count,")
    assert lines_of(folder.printed("read", "journal.life"), *heads) == lines_of(text_of("state"), *heads)


@pytest.mark.parametrize("records, at", [((0, 1, 2, 2), 3), ((2, 2), 1), ((0, 1, 3, 2), 2), ((2, 3), 1)],
                         ids=["twice", "twice, and nothing before", "paid up before it", "paid up without an issue"])
def test_a_journal_of_some_of_its_records_is_refused(records: tuple[int, ...], at: int, folder: Folder) -> None:
    made = UPGRADED[:17] + b"".join(UPGRADED[17 + 65 * number:][:65] for number in records) + b"\0"
    folder.write("journal.life", made)
    answer = f"badjournal,badrecord,{at}\n"
    assert prints(folder, "run") == (5, answer)
    assert folder.journal.read_bytes() == made
    ended = folder.tools("read", "journal.life")
    assert (ended.status, ended.out) == (2, answer)


def test_an_older_program_refuses_it(folder: Folder) -> None:
    """OLDER_PROGRAM may name such a program; the same output comes from the tools if the new kinds of records are removed from
    them."""
    folder.write("journal.life", UPGRADED)
    older = os.environ.get("OLDER_PROGRAM")
    if older:
        ran = subprocess.run([older, "run"], cwd=folder.path, stdin=subprocess.DEVNULL, capture_output=True, check=False)
        assert (ran.returncode, ran.stdout.decode()) == (5, text_of("older-program.answer"))
        assert folder.journal.read_bytes() == UPGRADED
    env = {**os.environ, "PYTHONPATH": str(ROOT / "tools")}
    words = [sys.executable, "-c", OLDER_TOOLS]
    said = subprocess.run(words, cwd=folder.path, env=env, capture_output=True, text=True, check=True)
    assert said.stdout == text_of("older-program.answer")
