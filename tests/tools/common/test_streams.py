"""Tests a tool whose output can't be written, or that meets an unexpected error: it prints one line and ends with 2, without a
traceback."""
import errno
import os
import re
import subprocess
import sys
from functools import partial
from pathlib import Path

import pytest

from tests.support.folders import Folder
from tests.support.launchers import on_terminal
from tests.support.program import ROOT

TOOLS = str(ROOT / "tools" / "life-tools")
# Python writes at once if this is set, and otherwise at the end
BUFFERED = {name: text for name, text in os.environ.items() if name != "PYTHONUNBUFFERED"}
# the arguments, and the status if the whole output is written
PRINT = [("read journal.life", 0), ("check small-office.csv", 1), ("report 2022-12-31", 0), ("verify", 0), ("--help", 0)]


def ran(folder: Folder, words: str, redirected: str, env: dict[str, str] | None = None) -> tuple[int, str]:
    """Runs a tool with its output redirected by a shell; returns its status and its standard error."""
    done = subprocess.run(["bash", "-c", f'"$0" "$@" {redirected}', sys.executable, TOOLS, *words.split()], cwd=folder.path,
                          stderr=subprocess.PIPE, stdin=subprocess.DEVNULL, check=False,
                          env={**BUFFERED, "LIFE_PROGRAM": str(folder.program.path), **(env or {})})
    return done.returncode, done.stderr.decode("utf-8", "replace")


@pytest.mark.parametrize("words, status", PRINT)
@pytest.mark.parametrize("redirected, says", [(">/dev/full", "No space left on device"), (">&-", "closed|Bad file descriptor")])
def test_an_output_that_cant_be_written(small_office: Folder, words: str, status: int, redirected: str, says: str) -> None:
    ended, said = ran(small_office, words, redirected)
    assert ended == 2 and re.search(says, said) and "Traceback" not in said, (ended, said)


@pytest.mark.parametrize("words, status", PRINT)
def test_a_reader_that_has_left(small_office: Folder, words: str, status: int) -> None:
    """If output is lost, a status of 0 may become 1; a status of 1 stays 1."""
    ended, said = ran(small_office, words, '| true; exit "${PIPESTATUS[0]}"', {"PYTHONUNBUFFERED": "1"})
    assert ended in (1, status) and "Traceback" not in said and "Broken pipe" not in said, (ended, said)
    if words == "check small-office.csv":
        assert ended == 1


def test_standard_error_that_is_closed(small_office: Folder) -> None:
    """Messages for people don't go to the next program of a pipe."""
    done = subprocess.run(["sh", "-c", '"$0" "$@" 2>&-', sys.executable, TOOLS, "check", "small-office.csv"], check=False,
                          cwd=small_office.path, capture_output=True,
                          env={**os.environ, "LIFE_PROGRAM": str(small_office.program.path)})
    assert done.returncode == 1 and b"nothing is posted" not in done.stdout


@pytest.mark.parametrize("locale", ["C", "de_DE.ISO-8859-1", "POSIX"])
def test_bytes_pass_whatever_the_locale(small_office: Folder, locale: str) -> None:
    script = b'1,issue,9001,2022-01-01,term,30,10,1000.00,10.00\n1,"\xe9\xff",1\n'
    small_office.write("strange.csv", script)
    env = {"LC_ALL": locale, "PYTHONCOERCECLOCALE": "0", "PYTHONUTF8": "0"}
    ended, said = ran(small_office, "rest strange.csv journal.life 0", ">out", env)
    assert ended == 2 and "Traceback" not in said and "foreseen" not in said, (ended, said)
    ended, said = ran(small_office, "explain badscript,2,2 strange.csv", ">out", env)
    assert ended in (0, 1) and "foreseen" not in said, (ended, said)


# what fails in the tool, in place of a function of its own
def fails_with(where: str, error: Exception) -> None:
    def fail(*_: object) -> None:
        raise error

    pytest.MonkeyPatch().setattr(where, fail)


SHAPE = "life_tools.cli.verify.shape_with"


@pytest.mark.parametrize(("where", "error", "words", "says"), [
    ("fcntl.flock", OSError(errno.ENOLCK, os.strerror(errno.ENOLCK)), "at 3 state", "No locks available"),
    (SHAPE, BrokenPipeError(errno.EPIPE, os.strerror(errno.EPIPE)), "verify", "life-tools verify: Broken pipe"),
], ids=["no lock is to be had", "another pipe breaks, whose reader isn't that of the output"])
def test_an_error_of_the_system(small_office: Folder, where: str, error: Exception, words: str, says: str) -> None:
    small_office.first = partial(fails_with, where, error)
    small_office.refused(*words.split(), says=says)


def test_what_nobody_foresaw(small_office: Folder) -> None:
    """The tool prints one line and ends with 2; the traceback is in a file whose path is printed."""
    small_office.first = partial(fails_with, SHAPE, KeyError("unheard of"))
    ended = small_office.tools("verify")
    assert ended.status == 2 and ended.out == "" and len(ended.err.splitlines()) == 1, ended
    found = re.search(r"its traceback is in (\S+)", ended.err)
    assert found and "KeyError" in ended.err
    assert "in fail" in Path(found[1]).read_text(encoding="utf-8")
    os.remove(found[1])


def test_help_is_asked_for_in_each_way(small_office: Folder) -> None:
    whole = small_office.printed("--help")
    assert small_office.printed("help") == small_office.printed("-h") == small_office.printed() == whole
    assert small_office.printed("help", "verify") == small_office.printed("verify", "--help")


# --- a terminal ---

def test_a_terminal_isnt_sent_what_it_obeys(small_office: Folder) -> None:
    """A row, a name and a table from strangers would clear the screen and set the terminal's title."""
    evil = "\x1b[2J\x1b]0;owned\x07"
    small_office.write("evil.csv", f'1,premium,7001,2022-01-01,"{evil}"\n')
    for words in (("explain", "badscript,1,5", "evil.csv"), ("check", "evil.csv"), ("read", f"no{evil}file"),
                  ("table", "check", "evil.csv")):
        program = f"LIFE_PROGRAM={small_office.program.path}"
        _, shown = on_terminal(["env", program, sys.executable, TOOLS, *words], small_office.path)
        assert "\x1b[2J" not in shown and "\x07" not in shown and shown, shown
        assert "\\x1b[2J" in shown or words[0] != "read"


def test_a_file_is_written_what_it_was(small_office: Folder) -> None:
    """Only a terminal is shown escaped bytes: the rest of a script has exactly that script's rows."""
    row = '1,"premium",7001,2030-01-01,"1.00"'
    small_office.write("rows.csv", f"{row}\n")
    count = str((small_office.journal.stat().st_size - 18) // 65)
    assert small_office.printed("rest", "rows.csv", "journal.life", count) == f"{row}\n"


def test_what_is_visible() -> None:
    from life_tools.common.streams import visible

    assert visible("a\tb\nc\x1b[1m\r\x7f\x9b\u202e\udcff\u00e9") == "a\tb\nc\\x1b[1m\\x0d\\x7f\\x9b\\u202e\\xff\u00e9"
