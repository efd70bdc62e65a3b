"""Tests scripts as clerks run them: what is printed, the status, and the journal afterwards, over each kind of file, and if
the output or the disk fails."""
import resource
import subprocess
import time

import pytest

from tests.program.office import EMPTY, FIRST_BYTES, FOREIGN, NONE_WATCHED, POLICY, RECORD, VALUED, checks, example, prints
from tests.support.folders import Folder

# the first record, of policy 7001, written out by hand from docs/reference/journal.md
FIRST_RECORD = (b"\1\1\3\0\3\0\0\x1bY\0\0GV" + b"\0\0\0\0\0\1\x86\xa0\0\0\0\0\0\0\x9c@" + b"\0" * 36)
VALUE = "1,value,2021-01-01,now,1\n"


@pytest.fixture
def one_day(folder: Folder) -> Folder:
    assert prints(folder, "run", given=example("first-issues.csv")) == (0, example("first-issues.transcript"))
    return folder


def test_a_script_and_the_next_days(one_day: Folder) -> None:
    journal = one_day.journal.read_bytes()
    assert journal[:FIRST_BYTES - 1] == EMPTY[:17] and journal[17:17 + RECORD] == FIRST_RECORD
    assert len(journal) == FIRST_BYTES + 4 * RECORD
    assert prints(one_day, "run", given=example("second-day.csv")) == (0, example("second-day.transcript"))
    assert one_day.journal.stat().st_size == FIRST_BYTES + 5 * RECORD


@pytest.mark.parametrize("before", [None, b"\0" * 10], ids=["no file", "an unfinished creation"])
def test_an_empty_script(before: bytes | None, folder: Folder) -> None:
    if before is not None:
        folder.write("journal.life", before)
    assert prints(folder, "run") == (0, NONE_WATCHED)
    assert folder.journal.read_bytes() == EMPTY


@pytest.mark.parametrize("words, given", [(["run"], "first-issues.csv"), (["value", "2021-01-01", "--at", "2"], "")],
                         ids=["run", "value"])
def test_a_foreign_file(words: list[str], given: str, table_q: Folder) -> None:
    table_q.write("journal.life", FOREIGN)
    assert prints(table_q, *words, given=example(given) if given else "") == (5, "badjournal,notajournal\n")
    assert table_q.journal.read_bytes() == FOREIGN


def test_a_bad_record(one_day: Folder) -> None:
    bad = bytearray(one_day.journal.read_bytes())
    bad[FIRST_BYTES] = 9
    one_day.write("journal.life", bytes(bad))
    assert prints(one_day, "run", given=example("second-day.csv")) == (5, "badjournal,badrecord,0\n")
    assert one_day.journal.read_bytes() == bytes(bad)


@pytest.mark.parametrize("words", [["run"], ["value", "2021-01-01"]], ids=["run", "value"])
def test_journal_life_is_a_folder(words: list[str], table_q: Folder) -> None:
    table_q.journal.mkdir()
    assert prints(table_q, *words, given=example("first-issues.csv")) == (8, "diskfault\n")


@pytest.mark.parametrize("words, given, wanted", [
    (["run"], example("bad-day.csv"), (3, "badscript,2,4\n")), (["--help"], "", (2, "usage\n")),
    (["run"], POLICY + VALUE, (4, "badbasis,basis.csv,0,absent\n")),
    (["run"], "0,lapse,1,2020-01-01\n", (3, "badscript,1,1\n")), (["run"], "9,lapse,1,2020-01-01\n", (3, "badscript,1,1\n")),
    (["run"], "".join(f"{n % 8 + 1},value,2021-01-01,now,1\n" for n in range(1, 18)), (3, "badscript,17,2\n")),
], ids=["bad day", "wrong arguments", "no basis", "lane 0", "lane 9", "a valuation too many"])
def test_what_is_refused_before_the_journal(words: list[str], given: str, wanted: tuple[int, str], folder: Folder) -> None:
    assert prints(folder, *words, given=given) == wanted
    assert not folder.journal.exists()


def run_into(folder: Folder, out: int) -> int:
    """Returns the status of the first day's run if its output goes to this descriptor."""
    return subprocess.run([*folder.program.words, "run"], cwd=folder.path, input=example("first-issues.csv").encode(),
                          stdout=out, check=False).returncode


def test_an_output_that_is_full(folder: Folder, one_day: Folder) -> None:
    """The output fails with status 7, but the postings are kept."""
    wanted = one_day.journal.read_bytes()
    one_day.journal.unlink()
    with open("/dev/full", "wb") as full:
        assert run_into(folder, full.fileno()) == 7
    assert folder.journal.read_bytes() == wanted


def test_an_output_that_nobody_reads(folder: Folder, one_day: Folder) -> None:
    wanted = one_day.journal.read_bytes()
    one_day.journal.unlink()
    ran = subprocess.Popen([*folder.program.words, "run"], cwd=folder.path, stdin=subprocess.PIPE, stdout=subprocess.PIPE)
    assert ran.stdin and ran.stdout
    # the reader leaves before the program has a line to write
    ran.stdout.close()
    time.sleep(0.2)
    ran.stdin.write(example("first-issues.csv").encode())
    ran.stdin.close()
    assert ran.wait(60) == 7
    assert folder.journal.read_bytes() == wanted


def test_a_disk_that_is_full(folder: Folder) -> None:
    """The file may have 512 bytes, which holds seven records; each later posting meets a fault, and the run goes on."""
    script = "".join(f"1,issue,{n},2020-01-01,endowment,0,3,1000.00,400.00\n" for n in range(1, 10))
    wanted = "".join(f"1,issue,{n},accepted,{n}\n" for n in range(1, 8)) + "1,issue,8,fault\n1,issue,9,fault\n"
    ran = subprocess.run([*folder.program.words, "run"], cwd=folder.path, input=script.encode(), capture_output=True, check=False,
                         preexec_fn=lambda: resource.setrlimit(resource.RLIMIT_FSIZE, (512, 512)))
    assert (ran.returncode, ran.stdout.decode()) == (8, wanted + "watcher,1,7,7\nwatcher,2,7,0\n")
    again = "".join(f"1,issue,{n},refused,taken\n" for n in range(1, 8)) + "1,issue,8,accepted,8\n1,issue,9,accepted,9\n"
    assert prints(folder, "run", given=script) == (0, again + "watcher,1,2,2\nwatcher,2,2,0\n")


def test_two_clerks(examples_basis: Folder) -> None:
    """The judge of transcripts must accept the transcript, in whatever order the lines of the two clerks are."""
    examples_basis.take("two-clerks.csv")
    examples_basis.write("out", examples_basis.post(example("two-clerks.csv")))
    checks(examples_basis, "check-transcript", "two-clerks.csv", "out", "/dev/null", "journal.life", "basis.csv")


def test_valuations_and_a_trim_in_a_script(table_q: Folder) -> None:
    script = POLICY + VALUE + "1,value,2021-01-01,2,1\n1,trim\n1,value,2021-01-01,0,64\n"
    wanted = ("1,issue,7001,accepted,1\n" + VALUED.replace("0,", "1,", 1)
              + "1,value,2021-01-01,refused,ahead,1\n1,trim,1\n1,value,2021-01-01,refused,trimmed,1\n"
              + "watcher,1,1,1\nwatcher,2,1,0\n")
    assert prints(table_q, "run", given=script) == (0, wanted)


def lines_of(text: str, *heads: str) -> list[str]:
    return [line for line in text.splitlines() if line.startswith(heads)]


@pytest.mark.parametrize("name", ["whole-life", "small-office"])
def test_the_state_is_that_of_the_journal(name: str, folder: Folder) -> None:
    assert prints(folder, "run", given=example(f"{name}.csv")) == (0, example(f"{name}.transcript"))
    assert prints(folder, "state") == (0, example(f"{name}.state"))
    # the records are read and the balances added up without the program
    heads = ("balance,", "count,")
    assert lines_of(folder.printed("read", "journal.life"), *heads) == lines_of(example(f"{name}.state"), *heads)


def test_the_state_of_one_policy(folder: Folder) -> None:
    folder.post(example("whole-life.csv"))
    assert prints(folder, "state", "7101") == (0, example("whole-life-7101.state"))
    assert prints(folder, "state", "7103") == (0, "unknown,7103\n")
