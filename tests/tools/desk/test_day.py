"""Tests `life-tools day`: files are claimed, checked and posted as lanes of one run; what happened to each row is kept and
reported."""
import fcntl
import os
import signal
import subprocess
import time
from pathlib import Path

import pytest

from life_tools.desk.claiming import claimed
from life_tools.desk.day import Day
from life_tools.desk.entries import Log
from tests.support.desks import TODAY, Desk, started
from tests.support.folders import Folder
from tests.support.tools import nothing

ISSUE = "1,issue,7001,2024-05-01,endowment,0,3,1000.00,400.00"
CLAIM = "1,claim,7001,2024-05-20"
SETTLE = "1,settle,7001,2024-05-27,300.00"


@pytest.fixture
def desk(folder: Folder) -> Desk:
    return Desk(folder)


@pytest.fixture
def begun(desk: Desk) -> Desk:
    """A desk whose book has an issue, a claim and a part settlement, all from one file that is done."""
    desk.hand_in("monday.csv", f"{ISSUE}\n{CLAIM}\n{SETTLE}\n")
    ended = desk.day("--new", status=1)
    assert "premiums of issues are not compared with net premiums" in ended.err
    assert ended.out == "file,entry,accepted,refused,held,left\n" \
        "inbox/monday.csv,log/000001-{}-monday,3,0,0,0\n".format(desk.entry_folder(1).name[7:17])
    assert desk.inbox == []
    return desk


@pytest.fixture
def by_q(begun: Desk) -> Desk:
    """The desk with a basis: table Q without interest."""
    begun.folder.take("q.xml")
    begun.folder.write("basis.csv", "1900-01-01,q.xml,0\n")
    return begun


# --- a book is begun only if that is asked for ---

def test_no_book_is_begun_by_mistake(desk: Desk) -> None:
    desk.hand_in("a.csv", ISSUE)
    desk.folder.refused("day", says="there is no journal.life in .*--new` begins a book")


def test_no_book_is_begun_in_the_place_of_one(begun: Desk) -> None:
    begun.folder.refused("day", "--new", says="there is a journal.life in .*leave --new out")
    os.rename(begun.folder.journal, begun.folder.path / "aside")
    for words in ((), ("--new",)):
        begun.folder.refused("day", *words, says="that of a book of 3 postings, whose journal.life is not there")


# --- claiming ---

def test_a_file_lies_whole_in_its_entry(begun: Desk) -> None:
    assert (begun.entry_folder(1) / "handed-in.csv").read_text() == f"{ISSUE}\n{CLAIM}\n{SETTLE}\n"
    assert sorted(os.listdir(begun.entry_folder(1))) == ["done", "entry.json", "handed-in.csv", "transcript"]
    assert (begun.entry_folder(1) / "transcript").read_text() == \
        "1,issue,7001,accepted,1\n1,claim,7001,accepted,2\n1,settle,7001,accepted,3\n"


def test_a_young_file_is_left_for_the_next_run(begun: Desk) -> None:
    file = begun.hand_in("young.csv", "1,settle,7001,2024-06-01,1.00\n", seconds_ago=0)
    ended = begun.day(status=1)
    assert "inbox/young.csv is left where it is: it was changed less than 2 seconds ago" in ended.err
    assert file.exists() and ended.out == "" and begun.count() == 3


def test_a_file_that_is_still_open_for_writing_is_left(begun: Desk) -> None:
    """Once, of 39 rows that were written during a run, 24 were lost, with status 0."""
    file = begun.hand_in("slow.csv", "1,settle,7001,2024-06-01,1.00\n")
    with open(file, "a", encoding="ascii") as writer:
        ended = begun.day(status=1)
        assert "a process still has it open for writing" in ended.err and file.exists() and begun.count() == 3
        writer.write("1,settle,7001,2024-06-02,1.00\n")
    os.utime(file, (1e9, 1e9))
    assert begun.day().out.endswith("-slow,2,0,0,0\n")


def test_a_file_that_is_replaced_after_its_claim_is_the_next_one(begun: Desk) -> None:
    """Once a file that was changed while `day` waited for the lock was posted under its old checksum."""
    file = begun.hand_in("a.csv", "1,settle,7001,2024-06-01,1.00\n")
    entry = claimed(str(file), str(begun.folder.path), Log(str(begun.folder.path)))
    begun.hand_in("a.csv", "1,settle,7001,2024-06-02,2.00\n")
    assert (begun.entry_folder(entry.number) / "handed-in.csv").read_text() == "1,settle,7001,2024-06-01,1.00\n"
    begun.day()
    assert begun.count() == 5 and begun.inbox == [] and [row["entry"][4:10] for row in begun.log()][3:] == ["000002", "000003"]


def test_what_is_no_script_stays(begun: Desk) -> None:
    begun.folder.take("basis.csv")
    old = time.time() - 10
    for name in ("basis.csv", "journal.life"):
        os.utime(begun.folder.path / name, (old, old))
    os.mkdir(begun.folder.path / "inbox" / "folder.csv")
    os.symlink("/etc/passwd", begun.folder.path / "inbox" / "link.csv")
    os.mkfifo(begun.folder.path / "inbox" / "pipe.csv")
    begun.hand_in("empty.csv", "")
    whys = {"inbox/folder.csv": "it is not a regular file", "inbox/link.csv": "it is not a regular file",
            "inbox/pipe.csv": "it is not a regular file", "inbox/empty.csv": "it is empty", "none.csv": "it is not there",
            "basis.csv": "it is a basis, not a script", "journal.life": "it belongs to the book"}
    ended = begun.day(*whys, status=1)
    for name, why in whys.items():
        assert f"day: {name} is left where it is: {why}\n" in ended.err
    assert begun.folder.journal.exists() and (begun.folder.path / "basis.csv").exists() and ended.out == ""
    assert begun.inbox == ["empty.csv", "folder.csv", "link.csv", "pipe.csv"]


def test_a_file_of_another_file_system_is_copied_compared_and_removed(begun: Desk, memory: Path) -> None:
    begun.hand_in("a.csv", "1,settle,7001,2024-06-01,1.00\n")
    begun.day()
    assert os.listdir(memory) == []
    assert (begun.entry_folder(2) / "handed-in.csv").read_text() == "1,settle,7001,2024-06-01,1.00\n" and begun.count() == 4


def test_a_bad_file_is_refused_whole_and_nothing_of_it_is_posted(begun: Desk) -> None:
    begun.hand_in("bad.csv", "1,settle,7001,2024-06-01,1.00\n1,settle,7001,2024-02-30,1.00\n")
    ended = begun.day(status=1)
    assert "inbox/bad.csv is refused whole, badscript,2,4" in ended.err
    assert "(wanted: a day YYYY-MM-DD of the calendar" in ended.err and "; found: '2024-02-30'). Correct a copy of " in ended.err
    assert ended.out.endswith("-bad,0,whole,0,0\n") and begun.count() == 3 and begun.inbox == []


def test_a_file_that_is_too_long_is_refused_without_a_place(begun: Desk) -> None:
    begun.hand_in("long.csv", f"{SETTLE}\n" * (2**24 // len(f"{SETTLE}\n") + 1))
    ended = begun.day(status=1)
    assert "is refused whole, badscript,toolong, so nothing of it is posted (wanted: at most 16777216 bytes)" in ended.err


# --- recognition ---

def crlf(rows: str) -> str:
    return rows.replace("\n", "\r\n")


def marked(rows: str) -> str:
    return "\ufeff" + rows


def quoted(rows: str) -> str:
    return "".join(",".join(f'"{field}"' for field in row.split(",")) + "\n" for row in rows.splitlines())


def spaced(rows: str) -> str:
    return "\n\n" + rows.replace("\n", "\n\n")


def other_lane(rows: str) -> str:
    return rows.replace("1,", "5,", 1)


@pytest.mark.parametrize("saved", [str, crlf, marked, quoted, spaced, other_lane])
def test_a_settlement_is_recognised_however_it_is_saved(begun: Desk, saved: object) -> None:
    """Once the same part settlement, saved in another way, was paid twice."""
    assert callable(saved)
    begun.hand_in("again.csv", saved(f"{SETTLE}\n"))
    ended = begun.day(status=1)
    assert "held: it equals the posting of position 3" in ended.err
    assert ended.out.endswith("-again,0,0,1,0\n") and begun.count() == 3


def test_equal_rows_of_one_file_and_of_two(begun: Desk) -> None:
    row = "1,settle,7001,2024-06-01,1.00\n"
    begun.hand_in("a.csv", row + row)
    begun.hand_in("b.csv", crlf(row))
    ended = begun.day(status=1)
    assert "inbox/a.csv, line 2: 1,settle,7001,2024-06-01,1.00: held: it equals line 1 of inbox/a.csv" in ended.err
    assert f"held: a row of policy 7001 before it is held in log/{begun.entry_folder(2).name}" in ended.err
    assert begun.count() == 4


def test_premiums_of_other_due_days_are_no_doubles(desk: Desk) -> None:
    desk.hand_in("a.csv", "1,issue,7002,2023-05-01,endowment,0,3,1000.00,400.00\n1,premium,7002,2023-05-01,400.00\n"
                 "1,premium,7002,2024-05-01,400.00\n1,premium,7002,2024-05-01,400.00\n")
    ended = desk.day("--new", status=1)
    assert ended.out.endswith("-a,3,1,0,0\n") and "refused, tooearly,2025-05-01" in ended.err


# --- rows that are held, and their release ---

IMPLAUSIBLE = {
    "1,issue,7101,1901-05-01,endowment,0,3,1000.00,400.00": "its day is 44959 days before today",
    "1,issue,7102,2120-05-01,endowment,0,3,1000.00,400.00": "its day is 35030 days after today",
    "1,issue,7103,2024-05-01,endowment,0,3,100000000.00,40.00": "its premium 40.00 lies outside 0.5 to 4 times the net premium",
    "1,issue,7104,2024-05-01,endowment,0,3,400.00,1000.00": "its premium 1000.00 is not below its amount 400.00",
    "1,issue,7105,2024-05-01,endowment,0,9,1000.00,100.00": "basis.csv has no net premium for it (pasttable)",
    "1,issue,7001,2024-05-01,endowment,0,3,1000.00,400.00": "it equals the posting of position 1",
    "1,issue,7001,2024-05-02,endowment,0,3,1000.00,400.00": "number 7001 is in use",
    "1,claim,7001,2024-06-04": "its day is after today",
}


@pytest.mark.parametrize("row", IMPLAUSIBLE)
def test_what_is_not_plausible_waits_for_a_person(by_q: Desk, row: str) -> None:
    policy = row.split(",")[2]
    by_q.hand_in("a.csv", f"{row}\n1,settle,{policy},2024-05-30,5.00\n")
    ended = by_q.day(status=1)
    assert f"{row}: held: {IMPLAUSIBLE[row]}" in ended.err and f"a row of policy {policy} before it is held" in ended.err
    assert ended.out.endswith("-a,0,0,2,0\n") and by_q.count() == 3


def test_the_band_goes_by_the_net_premium(by_q: Desk) -> None:
    """Computed by hand from table Q (rates 0.1, 0.2, 0.25) without interest, for an endowment of 3 years: the benefits are 1
    and the annuity is 1 + 0.9 + 0.72 = 2.62, so for 1000.00 the net premium is 381.68. Half of it is 190.84, so 190.83 is
    below the limit."""
    row = "1,issue,{},2024-05-01,endowment,0,3,1000.00,{}\n"
    by_q.hand_in("a.csv", row.format(7201, "190.84") + row.format(7202, "190.83"))
    ended = by_q.day(status=1)
    assert "7202,2024-05-01,endowment,0,3,1000.00,190.83: held: its premium 190.83 lies outside 0.5 to 4 times the net premium " \
        "381.68 of basis.csv" in ended.err
    assert ended.out.endswith("-a,1,0,1,0\n")


def test_the_limits_themselves_are_allowed(begun: Desk) -> None:
    """400 days before 2024-06-03 is 2023-04-30; an issue dated today isn't after today; a premium equal to the amount isn't
    below it."""
    row = "1,issue,{},{},endowment,0,3,1000.00,{}\n"
    begun.hand_in("a.csv", row.format(1, "2023-04-30", "400.00") + row.format(2, "2023-04-29", "400.00")
                  + row.format(3, TODAY, "999.99") + row.format(4, TODAY, "1000.00"))
    ended = begun.day(status=1)
    assert [row["policy"] for row in begun.log()][3:] == ["1", "3"] and ended.out.endswith("-a,2,0,2,0\n")
    assert "its day is 401 days before today" in ended.err


def test_desk_toml_sets_the_limits(by_q: Desk) -> None:
    by_q.folder.write("desk.toml", "[issues]\ndays_back = 50000\ndays_ahead = 40000\npremium_below_amount = false\n"
                      "least_of_net = 0\nmost_of_net = 10\n")
    rows = [row for row in IMPLAUSIBLE if row.split(",")[2] in ("7101", "7102", "7103", "7104")]
    by_q.hand_in("a.csv", "\n".join(rows) + "\n")
    assert by_q.day().out.endswith("-a,4,0,0,0\n")


@pytest.mark.parametrize("text, says", [
    ("[issues]\ndays_bak = 3\n", "days_bak is unknown"),
    ("[issues]\ndays_back = -3\n", "days_back is -3: a number of days"),
    ("[issues]\nleast_of_net = 5\n", "least_of_net is above most_of_net"),
    ("[issues\n", "is not TOML"),
    ("[release]\nanna = ['nothing']\n", r"\[release\] anna: a list of some of"),
])
def test_a_bad_desk_toml_is_refused(begun: Desk, text: str, says: str) -> None:
    begun.folder.write("desk.toml", text)
    begun.folder.refused("day", says=says)


def test_a_release_posts_held_rows_and_says_who_and_why(begun: Desk) -> None:
    begun.hand_in("again.csv", f"{SETTLE}\n1,settle,7001,2024-06-01,1.00\n")
    begun.day(status=1)
    ended = begun.day("--release", "2", "--by", "anna", "--why", "two payments")
    assert "2 rows of entry 2 are released by anna" in ended.err and ended.out.endswith("-release-of-2,2,0,0,0\n")
    held = begun.entry(2)["held"]
    assert [(each["state"], each["by"], each["because"]) for each in held] == [("released", "anna", "two payments")] * 2
    row, = begun.log("--position", "4")
    assert (row["file"], row["line"], row["released_by"], row["why"]) == ("inbox/again.csv", "1", "anna", "two payments")
    assert begun.day("--status").out == ""


def test_discarded_rows_are_never_posted_and_hold_no_more(begun: Desk) -> None:
    begun.hand_in("again.csv", f"{SETTLE}\n")
    begun.day(status=1)
    assert "1 rows of inbox/again.csv wait for a person" in begun.day(status=1).err
    begun.day("--discard", "2", "--by", "anna")
    begun.hand_in("next.csv", "1,settle,7001,2024-06-01,1.00\n")
    assert begun.day().out.endswith("-next,1,0,0,0\n")
    assert begun.entry(2)["held"][0]["state"] == "discarded" and begun.count() == 4


def test_rows_of_a_policy_are_released_in_their_order(begun: Desk) -> None:
    begun.hand_in("again.csv", f"{SETTLE}\n1,settle,7001,2024-06-01,1.00\n")
    begun.day(status=1)
    begun.hand_in("next.csv", "1,settle,7001,2024-06-02,1.00\n")
    begun.day(status=1)
    begun.folder.refused("day", "--release", "3", says="an earlier row of policy 7001 is held in log/000002")
    begun.folder.refused("day", "--release", "2", "--line", "2", says="an earlier row of policy 7001 is held in log/000002")
    begun.folder.refused("day", "--release", "2", "--line", "7", says="line 7 of inbox/again.csv is not held")
    begun.folder.refused("day", "--release", "9", says="there is no entry 9")
    begun.day("--discard", "2", "--line", "1", status=1)
    begun.day("--release", "2", status=1)
    begun.day("--release", "3")
    assert begun.count() == 5


def test_desk_toml_says_who_may_release_what(begun: Desk) -> None:
    begun.folder.write("desk.toml", "[release]\nanna = ['day']\nhead = ['all']\n")
    begun.hand_in("again.csv", f"{SETTLE}\n")
    begun.day(status=1)
    for name in ("anna", "nobody"):
        begun.folder.refused("day", "--release", "2", "--by", name, says=f"{name} may not release line 1 .equal. by desk.toml")
    begun.day("--release", "2", "--by", "head")
    assert begun.count() == 4


# --- several clerks ---

def test_eight_files_are_the_lanes_of_one_run(desk: Desk) -> None:
    for clerk in range(1, 10):
        desk.hand_in(f"clerk-{clerk}.csv", f"1,issue,{clerk},2024-05-01,endowment,0,3,1000.00,400.00\n"
                     f"2,premium,{clerk},2024-05-01,400.00\n")
    ended = desk.day("--new", status=1)
    assert "run 1: lane 1 is inbox/clerk-1.csv; lane 2 is inbox/clerk-2.csv" in ended.err and desk.count() == 18
    runs = [[(run["run"], run["lane"]) for run in desk.entry(clerk)["runs"]] for clerk in range(1, 10)]
    assert runs == [[(1, clerk)] for clerk in range(1, 9)] + [[(2, 1)]]
    for clerk in range(1, 9):
        lines = (desk.entry_folder(clerk) / "transcript").read_text().splitlines()
        assert [line.rsplit(",", 1)[0] for line in lines] == \
            [f"{clerk},issue,{clerk},accepted", f"{clerk},premium,{clerk},accepted"]


def test_files_that_share_a_policy_are_posted_one_after_the_other(desk: Desk) -> None:
    """As lanes of one run it would be open whether the premium comes before the issue."""
    desk.hand_in("a.csv", f"{ISSUE}\n")
    desk.hand_in("b.csv", "1,premium,7001,2024-05-01,400.00\n")
    desk.hand_in("c.csv", ISSUE.replace("7001", "7002") + "\n")
    desk.day("--new", status=1)
    assert [desk.entry(number)["runs"][0]["run"] for number in (1, 2, 3)] == [1, 2, 1] and desk.count() == 3


def test_a_file_that_values_is_a_run_by_itself(begun: Desk) -> None:
    begun.hand_in("a.csv", "1,settle,7001,2024-06-01,1.00\n")
    begun.hand_in("b.csv", "1,value,2024-05-01,now,1\n1,settle,7001,2024-06-02,1.00\n")
    ended = begun.day(status=1)
    assert "refused, badbasis,basis.csv,0,absent" in ended.err and begun.count() == 5
    begun.folder.take("q.xml")
    begun.folder.write("basis.csv", "1900-01-01,q.xml,0\n")
    begun.hand_in("c.csv", "1,value,2024-05-01,1,1\n")
    begun.day()
    assert (begun.entry_folder(4) / "transcript").read_text().startswith("1,value,2024-05-01,1,1\nrow,7001,inforce,0,")


# --- a refusal, and what is said of it ---

def test_a_refused_row_is_reported_with_its_remedy(begun: Desk) -> None:
    begun.hand_in("a.csv", "1,settle,7001,2024-06-01,900.00\n1,premium,7009,2024-05-01,1.00\n")
    ended = begun.day(status=1)
    assert "inbox/a.csv, line 1: 1,settle,7001,2024-06-01,900.00: refused, oversettled,700.00: " in ended.err
    assert ended.out.endswith("-a,0,2,0,0\n")


# --- a program that ends badly ---

@pytest.mark.parametrize("ends, says", [
    ("echo badscript,toolong; exit 3", "ended with status 3; 0 rows were posted, 1 are left; it printed: badscript,toolong"),
    ("echo badjournal,badrecord,3; exit 5", "ended with status 5; 0 rows were posted, 1 are left; it printed: badjournal,"),
    ("echo diskfault; exit 8", "ended with status 8; 0 rows were posted, 1 are left; it printed: diskfault"),
    ("echo 1,settle,7001,fault; exit 8", "ended with status 8; 0 rows were posted, 1 are left"),
    ("echo 1,settle,7001,nomemory; exit 9", "ended with status 9; 0 rows were posted, 1 are left"),
    ("echo no program is proved >&2; exit 69", "ended with status 69; 0 rows were posted, 1 are left; it printed: no program"),
    ("kill -s SEGV $$", "was ended by signal 11; 0 rows were posted, 1 are left"),
])
def test_what_a_bad_end_leaves_is_posted_by_the_next_day(begun: Desk, ends: str, says: str) -> None:
    begun.folder.stand_in(f"cat >/dev/null\n{ends}")
    begun.hand_in("a.csv", "1,settle,7001,2024-06-01,1.00\n")
    ended = begun.day("--life", "stand-in", status=1)
    assert f"run 2 {says}" in ended.err and ended.out.endswith("-a,0,0,0,1\n")
    assert "nothing more is posted; 1 files wait in log/, and the next `day` goes on with them" in ended.err
    assert begun.day().out.endswith("-a,1,0,0,0\n") and begun.count() == 4


def test_rows_that_find_the_book_full_are_kept_for_another_one(begun: Desk) -> None:
    """A stand-in prints what the program would answer, so no book of 4,000,000 postings is needed."""
    begun.folder.stand_in("cat >/dev/null\necho 1,settle,7001,refused,full,4000000\n"
                          "echo 1,lapse,7001,refused,wrongstatus,claimed")
    begun.hand_in("a.csv", '1,"settle",7001,2024-06-01,1.00\r\n1,lapse,7001,2024-06-01\r\n')
    ended = begun.day("--life", "stand-in", status=1)
    assert "refused, full,4000000: " in ended.err and ended.out.endswith("-a,0,2,0,0\n")
    assert (begun.entry_folder(2) / "full.csv").read_text() == '1,"settle",7001,2024-06-01,1.00\n'


def test_a_program_that_cannot_be_run_leaves_the_file(begun: Desk) -> None:
    begun.folder.write("stand-in", "no program")
    begun.hand_in("a.csv", "1,settle,7001,2024-06-01,1.00\n")
    ended = begun.day("--life", "stand-in", status=2)
    assert "stand-in can't be run: Permission denied; the files stay in log/" in ended.err
    assert "of its 1 rows were posted" in begun.day(status=1).err and begun.count() == 4


# --- a damaged book, and one in use ---

@pytest.mark.parametrize(("record", "says"), [(1, "bytes follow byte 82"), (2, "has 2 commands, and had 3 by ./log")])
def test_a_damaged_book_is_never_written_to(begun: Desk, record: int, says: str) -> None:
    """A damaged last commit byte looks like what a crash leaves, but the log recorded more postings."""
    begun.folder.damage(record)
    data = begun.folder.journal.read_bytes()
    begun.hand_in("a.csv", "1,settle,7001,2024-06-01,1.00\n")
    ended = begun.day(status=1)
    assert "journal.life is damaged, so nothing is posted" in ended.err and says in ended.err and begun.inbox == ["a.csv"]
    assert begun.folder.journal.read_bytes() == data


def test_a_book_in_use_is_waited_for_and_given_up(begun: Desk) -> None:
    begun.hand_in("a.csv", "1,settle,7001,2024-06-01,1.00\n")
    with begun.folder.in_use():
        ended = begun.day("--wait", "1", status=2)
    assert "journal.life is in use by process" in ended.err and "nothing was posted" in ended.err
    assert begun.count() == 3
    begun.day()
    assert begun.count() == 4


def says(ran: subprocess.Popen[str], wanted: str) -> None:
    assert ran.stderr
    lines = iter(ran.stderr.readline, "")
    assert any(wanted in line for line in lines)


@pytest.mark.parametrize("number", [signal.SIGTERM, signal.SIGINT, signal.SIGHUP])
def test_a_signal_ends_a_waiting_day_at_once(begun: Desk, number: signal.Signals) -> None:
    begun.hand_in("a.csv", "1,settle,7001,2024-06-01,1.00\n")
    with begun.folder.in_use():
        with started(begun, "--wait", "20") as ran:
            says(ran, "day: waiting: ./journal.life is in use by process")
            sent = time.monotonic()
            ran.send_signal(number)
            _, err = ran.communicate(timeout=60)
    assert ran.returncode == 130 and "stopped by a signal; nothing was posted" in err and time.monotonic() - sent < 5
    assert begun.count() == 3
    begun.day()
    assert begun.count() == 4


def test_a_signal_that_is_ignored_stays_so(begun: Desk) -> None:
    """Such as under `nohup`: a closed terminal doesn't end the work."""
    begun.hand_in("a.csv", "1,settle,7001,2024-06-01,1.00\n")
    with begun.folder.in_use() as journal:
        with started(begun, "--wait", "20", ignored=signal.SIGHUP) as ran:
            says(ran, "day: waiting: ./journal.life is in use by process")
            ran.send_signal(signal.SIGHUP)
            time.sleep(0.3)
            fcntl.flock(journal, fcntl.LOCK_UN)
            out, _ = ran.communicate(timeout=60)
    assert ran.returncode == 0 and out.endswith("-a,1,0,0,0\n")


def test_a_second_day_waits_for_the_first(begun: Desk) -> None:
    begun.hand_in("a.csv", "1,settle,7001,2024-06-01,1.00\n")
    with open(begun.folder.path / "log" / ".lock", "rb") as lock:
        fcntl.flock(lock, fcntl.LOCK_EX)
        ended = begun.day("--wait", "1", status=2)
    assert "another `day`, process" in ended.err and "nothing was done" in ended.err and begun.inbox == ["a.csv"]


# --- who posted what ---

def test_the_log_names_each_position(begun: Desk) -> None:
    rows = begun.log()
    assert [(row["position"], row["kind"], row["policy"], row["file"], row["line"]) for row in rows] == [
        ("1", "issue", "7001", "inbox/monday.csv", "1"), ("2", "claim", "7001", "inbox/monday.csv", "2"),
        ("3", "settle", "7001", "inbox/monday.csv", "3")]
    owner = Path(begun.folder.path / "log").owner()
    assert {(row["owner"], row["released_by"]) for row in rows} == {(owner, "")}
    assert begun.log("--policy", "7001") == rows and begun.log("--position", "2") == rows[1:2]
    assert begun.log("--day", rows[0]["posted_at"][:10]) == rows and begun.log("--by", owner) == rows
    assert begun.log("--by", "nobody-else", status=1) == []


def test_the_log_is_compared_with_the_journal(begun: Desk) -> None:
    begun.folder.life("run", given="1,settle,7001,2024-06-01,1.00\n")
    ended = begun.folder.tools("log", "--position", "4")
    assert ended.status == 1 and "position 4, settle,7001,2024-06-01,1.00, is in no entry of the log" in ended.err
    data = bytearray(begun.folder.journal.read_bytes())
    data[17 + 2 * 65 + 1 + 19] ^= 1
    begun.folder.journal.write_bytes(data)
    ended = begun.folder.tools("log", "--policy", "7001")
    assert ended.status == 1 and "position 3 is settle,7001,2024-05-27,300.00 by log/000001" in ended.err


# --- after a restore ---

def test_what_a_backup_lacks_is_posted_anew(begun: Desk) -> None:
    backup = begun.folder.journal.read_bytes()
    begun.hand_in("a.csv", "1,settle,7001,2024-06-01,1.00\n1,settle,7001,2024-06-01,9000.00\n")
    begun.day(status=1)
    begun.folder.journal.write_bytes(backup)
    assert "is damaged, so nothing is posted" in begun.day(status=1).err
    ended = begun.day("--restored", status=1)
    assert "was restored to 3 postings; 1 rows that were posted since are posted anew" in ended.err
    assert begun.count() == 4 and [row["position"] for row in begun.log()] == ["1", "2", "3", "4"]
    assert begun.entry(2)["lost"][0][:2] == [1, 4]


def die_at_the_note() -> None:
    setattr(Day, "note", lambda *_: os._exit(9))


def test_a_backup_that_was_made_while_a_run_was_noted(begun: Desk) -> None:
    """In the backup, the record of the run has ended, but the entry doesn't name the run yet. Its rows were posted, and must
    not be posted again. Once they were held, or refused, and no entry had their positions."""
    begun.hand_in("a.csv", ISSUE.replace("7001", "7002") + "\n1,premium,7002,2024-05-01,400.00\n"
                  "1,settle,7001,2024-06-01,9000.00\n")
    begun.folder.first = die_at_the_note
    assert begun.folder.tools("day", "--today", TODAY).status == 9
    begun.folder.first = nothing
    early = (begun.entry_folder(2) / "entry.json").read_text()
    begun.day(status=1)
    for restored, count in ((False, 5), (True, 4)):
        (begun.entry_folder(2) / "entry.json").write_text(early)
        (begun.entry_folder(2) / "done").unlink()
        if restored:
            begun.folder.journal.write_bytes(begun.folder.journal.read_bytes()[:18 + 65 * count - 1] + bytes(1))
        ended = begun.day(*(["--restored"] if restored else []), status=1)
        assert "run 2 of inbox/a.csv, begun " in ended.err
        assert f"{count - 3} of its 3 rows were posted as positions 4 to {count}, " in ended.err
        assert begun.entry(2)["accepted"] == [[1, 4], [2, 5]] and begun.count() == 5 and len(begun.log()) == 5
        assert begun.entry(2)["refused"] == [[3, "oversettled,700.00"]] and begun.entry(2)["held"] == []
