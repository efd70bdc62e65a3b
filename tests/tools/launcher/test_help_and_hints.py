"""Tests that `life` explains itself in the same words where it is installed and in a clone: help for every command, and hints
on a terminal."""
import os
import re
import shutil
from pathlib import Path

import pytest

from tests.support.folders import Folder
from tests.support.launchers import on_terminal
from tests.tools.launcher.conftest import Called, ran

COMMANDS = ("run", "state", "checkpoint", "value", "project", "generate", "load", "--wait")
OWN = ("try", "prove", "test", "install", "pack", "doc", "tools", "sandbox")


@pytest.mark.parametrize("command", COMMANDS)
def test_each_command_has_help_with_an_example(life: Called, command: str, tmp_path: Path) -> None:
    told = [ran([*life.words, *words], tmp_path)
            for words in ((command, "--help"), (command, "-h"), ("help", command), ("--help", command))]
    assert all(done == told[0] for done in told), told
    assert told[0].status == 0 and told[0].err == ""
    assert re.search(r"^Example: (sh )?life\S* ", told[0].out, re.M), told[0].out
    assert max(map(len, told[0].out.splitlines())) <= 80
    assert not os.listdir(tmp_path)


def test_help_names_each_command(life: Called, tmp_path: Path) -> None:
    told = [ran([*life.words, word], tmp_path) for word in ("help", "--help", "-h")]
    assert all(done == told[0] for done in told) and told[0].status == 0
    assert all(command.strip("-") in told[0].out for command in COMMANDS)
    assert max(map(len, told[0].out.splitlines())) <= 80


@pytest.mark.parametrize("command", OWN)
def test_the_launchers_own_commands_have_help(proved_clone: Path, command: str, tmp_path: Path) -> None:
    done = ran(["sh", proved_clone / "life", "help", command], tmp_path)
    assert done.status == 0 and f"Example: sh life {command}" in done.out, done
    assert max(map(len, done.out.splitlines())) <= 80


def test_life_wait_has_help(installed: Path, tmp_path: Path) -> None:
    assert ran([installed / "life-wait", "--help"], tmp_path) == ran([installed / "life", "help", "wait"], tmp_path)


def test_help_of_what_is_no_command(life: Called, tmp_path: Path) -> None:
    done = ran([*life.words, "help", "stat"], tmp_path)
    assert (done.status, done.out) == (2, "usage\n") and "help names them" in done.err


def test_who_has_the_journal(small_office: Folder, life: Called) -> None:
    with small_office.in_use():
        status, said = on_terminal([*life.words, "state"], small_office.path)
    assert status == 8 and f"journal.life is in use by process {os.getpid()}, " in said, said


@pytest.mark.parametrize("words, hint", [
    (["value", "31.12.2020"], "a day is YYYY-MM-DD"),
    (["project", "31/12/2020", "3"], "a day is YYYY-MM-DD"),
    (["value", "2020-02-30"], "a day is YYYY-MM-DD"),
    (["run", "small-office.csv"], "the script goes to standard input: {life} run < small-office.csv"),
    (["state", "0"], "help names the commands"),
])
def test_what_usage_means(small_office: Folder, life: Called, words: list[str], hint: str) -> None:
    status, said = on_terminal([*life.words, *words], small_office.path)
    assert status == 2 and "usage" in said and hint.format(life=life.named) in said, said


def test_a_script_that_is_typed(small_office: Folder, life: Called) -> None:
    status, said = on_terminal([*life.words, "run"], small_office.path, given=None, typed=b"1,trim\n\x04")
    assert status == 0 and f"until Ctrl-D; a file is {life.named} run < SCRIPT" in said and "1,trim,27" in said, said


def test_a_message_isnt_cut_or_obeyed(installed: Path, tmp_path: Path) -> None:
    r"""`echo` ends a message at `\c`; a terminal obeys an escape in a folder's name."""
    folder = tmp_path / "acme\\co\x1b[2J"
    folder.mkdir()
    done = ran([installed / "life", "state"], folder)
    assert done.status == 66
    assert done.err.endswith(r"acme\co?[2J, so nothing was run" + "\n"), done.err


@pytest.mark.root
@pytest.mark.needs("setpriv")
def test_a_users_name_with_a_backslash(proved_clone: Path) -> None:
    r"""For the user ACME\carl a hint once ended at `\c`."""
    hints = (proved_clone / "tools/launcher/hints.sh").read_text()
    stand_ins = r"id() { printf %s 'ACME\carl'; }; holder_of() { :; }"
    script = f"called=life waits=life-wait tools=life-tools\n{hints}\n{stand_ins}\nwhy_not /etc/passwd"
    done = ran(["setpriv", "--reuid", "daemon", "--clear-groups", "sh", "-c", script], Path("/"))
    assert done.out == "/etc/passwd can't be written by ACME\\carl\n", done


def test_without_its_program_the_installed_life_says_so(installed: Path, tmp_path: Path) -> None:
    shutil.copytree(installed, tmp_path / "bin", symlinks=True)
    os.remove(tmp_path / "bin" / "life-program")
    for words in ("", "help", "state", "--wait 5 run"):
        done = ran([tmp_path / "bin" / "life", *words.split()], tmp_path)
        assert done.status == 69 and "so nothing was run: install life anew" in done.err, (words, done)


def test_without_a_proved_program(proved_clone: Path, tmp_path: Path) -> None:
    clone = tmp_path / "clone"
    shutil.copytree(proved_clone, clone, symlinks=True)
    os.remove(clone / "crates" / "life_cli" / "out" / "life_cli")
    for words in ("", "help", "-h", "stat", "state", "--wait 5 run"):
        done = ran(["sh", clone / "life", *words.split()], tmp_path)
        assert "no proved program is of these sources" in done.err and "sh life prove" in done.err, (words, done)
