"""Tests files that are hard to claim: whatever happens to a file, its disk and its writer, each row is posted once or
reported."""
import errno
import os
import shutil
import subprocess
import time
from functools import partial
from pathlib import Path
from typing import Callable

import pytest

from life_tools.desk import claiming
from life_tools.desk.entries import Entry, Log
from life_tools.desk.records import at_moment
from tests.support.desks import Desk
from tests.support.folders import Folder
from tests.support.tools import nothing

ISSUE = "1,issue,{},2024-05-01,whole,40,0,1000.00,40.00\n"


@pytest.fixture
def desk(folder: Folder) -> Desk:
    desk = Desk(folder)
    desk.hand_in("first.csv", ISSUE.format(1))
    desk.day("--new", status=1)
    return desk


# --- what a `day` does otherwise than usual, before it begins ---

def see_no_writer() -> None:
    """Makes `day` not see who has a file open, which the system reports only for the caller's own files."""
    setattr(claiming, "is_being_written", lambda path: False)


def be_called(name: str) -> None:
    setattr(claiming, "login", lambda: name)


def replace_after_the_check(file: Path, by: Path) -> None:
    """Makes a file be replaced by another one between the check of its time and its claim."""
    checked = claiming.demand_ready

    def replaced(path: str, folder: str) -> os.stat_result:
        found = checked(path, folder)
        os.rename(by, file)
        return found

    setattr(claiming, "demand_ready", replaced)


def fail_to_copy() -> None:
    setattr(shutil, "copyfile", lambda *_: os.stat("/nowhere"))


def fail_after_the_copy() -> None:
    copied = claiming.copy_safely

    def cut(source: str, entry: Entry) -> None:
        copied(source, entry)
        raise OSError(errno.EIO, "interrupted", source)

    setattr(claiming, "copy_safely", cut)


def posted(desk: Desk) -> list[str]:
    return [row["policy"] for row in desk.log()]


# --- names ---

@pytest.mark.parametrize("name, shown", [
    ("new\nline.csv", "new\\x0aline.csv"), ("\udcff\udcfe.csv", "\\xff\\xfe.csv"), ("red\x1b[31m.csv", "red\\x1b[31m.csv"),
    ("=cmd|a.csv", "=cmd|a.csv"), ("-x.csv", "-x.csv"), (f"{'n' * 250}.csv", f"{'n' * 250}.csv")])
def test_a_strange_name_is_shown_and_traced(desk: Desk, name: str, shown: str) -> None:
    desk.hand_in(name, ISSUE.format(2))
    ended = desk.day(status=1)
    assert ended.out.splitlines()[1].startswith(f"inbox/{shown},log/000002-") and desk.log()[1]["file"] == f"inbox/{shown}"
    assert desk.entry(2)["file"]["name"] == f"inbox/{name}" and desk.inbox == []


def test_what_is_not_taken_from_the_inbox_is_reported(desk: Desk) -> None:
    for name in ("a.CSV", "a.txt", ".part-of-a-copy"):
        desk.hand_in(name, ISSUE.format(2))
    said = desk.day(status=1).err.splitlines()
    assert said == [f"day: inbox/{name} is left where it is: its name doesn't end in .csv" for name in ("a.CSV", "a.txt")]


def test_an_inbox_that_is_not_there_is_reported(desk: Desk) -> None:
    desk.folder.path.joinpath("inbox").rmdir()
    assert "there is no folder inbox, so no file was taken" in desk.day(status=1).err


# --- whose a file is ---

def test_a_user_without_a_name_has_a_number(monkeypatch: pytest.MonkeyPatch) -> None:
    """Such as in a container, where `day` once ended with a traceback."""
    monkeypatch.setattr(os, "getlogin", lambda: os.stat("/nowhere"))
    monkeypatch.setattr(os, "geteuid", lambda: 54321)
    assert claiming.login() == "54321"


def test_who_posts_the_rest_of_anothers_day_is_named(desk: Desk) -> None:
    """The log once named whoever had claimed the file."""
    desk.folder.stand_in("cat >/dev/null\nexit 8")
    desk.hand_in("a.csv", ISSUE.format(2))
    for name in ("anna", "berta"):
        desk.folder.first = partial(be_called, name)
        desk.day(*(["--life", "stand-in"] if name == "anna" else []), status=1)
    assert desk.log()[1]["posted_by"] == "berta" and desk.log("--by", "anna") == desk.log("--by", "berta") == desk.log()[1:]


def test_a_file_that_is_replaced_before_its_claim_has_its_own_time(desk: Desk) -> None:
    file, other = desk.hand_in("a.csv", ISSUE.format(2)), desk.hand_in("b.part", ISSUE.format(3))
    os.utime(other, (1e9, 1e9))
    desk.folder.first = partial(replace_after_the_check, file, other)
    desk.day(status=1)
    assert posted(desk) == ["1", "3"] and desk.entry(2)["file"]["modified"] == at_moment(1e9)


# --- writers that go on ---

def test_what_is_written_after_a_day_has_ended_is_taken_by_the_next(desk: Desk) -> None:
    """A clerk's program wrote a second row after a pause of ten seconds, and once no `day` and no log reported it."""
    desk.folder.first = see_no_writer
    file = desk.hand_in("slow.csv", ISSUE.format(2))
    with open(file, "a", encoding="ascii") as late:
        os.utime(file, (1e9, 1e9))
        desk.day(status=1)
        for number in (3, 4):
            late.write(ISSUE.format(number))
            late.flush()
            status = desk.day("--status", status=1)
            assert "inbox/slow.csv was written to after it was claimed" in status.err
            assert "what was added is log/" in desk.day(status=1).err
    assert posted(desk) == ["1", "2", "3", "4"] and desk.day().err == "" and desk.day("--status").err == ""


def test_what_is_added_to_a_claimed_file_is_an_entry_of_its_own(desk: Desk, monkeypatch: pytest.MonkeyPatch) -> None:
    """The system may be unable to say whether a file is still open, such as on a network."""
    monkeypatch.setattr(claiming, "is_being_written", lambda path: False)
    desk.folder.first = see_no_writer
    file = desk.hand_in("late.csv", "1,claim,1,2024-05-20\n")
    with open(file, "a", encoding="ascii") as late:
        os.utime(file, (1e9, 1e9))
        entry = claiming.claimed(str(file), str(desk.folder.path), Log(str(desk.folder.path)))
        late.write("1,settle,1,2024-05-21,1.00\n")
    ended = desk.day(status=1)
    assert f"{file} was written to after it was claimed: what was added is log/000003" in ended.err
    assert len(desk.entry(entry.number)["accepted"]) == 1 and len(desk.entry(3)["accepted"]) == 1
    assert (desk.entry_folder(3) / "handed-in.csv").read_text() == "1,settle,1,2024-05-21,1.00\n"
    assert desk.day().err == ""


def test_what_is_added_is_taken_once_where_that_was_interrupted(desk: Desk) -> None:
    """The entry of the added rows is on the disk, but the entry that they come from doesn't name it yet."""
    desk.folder.first = see_no_writer
    file = desk.hand_in("slow.csv", ISSUE.format(2))
    with open(file, "a", encoding="ascii") as late:
        os.utime(file, (1e9, 1e9))
        desk.day(status=1)
        late.write(ISSUE.format(3))
    before = (desk.entry_folder(2) / "entry.json").read_text()
    claiming.requeued(Log(str(desk.folder.path)).named("2"), Log(str(desk.folder.path)), [])
    (desk.entry_folder(2) / "entry.json").write_text(before)
    time.sleep(0.01)
    os.utime(desk.entry_folder(2) / "handed-in.csv")
    desk.day(status=1)
    assert posted(desk) == ["1", "2", "3"] and len(Log(str(desk.folder.path)).names()) == 3


def test_a_file_with_a_second_name_is_copied(desk: Desk) -> None:
    """A write to the file under its other name changes nothing that was posted."""
    os.link(desk.hand_in("a.csv", ISSUE.format(2)), desk.folder.path / "other.csv")
    desk.day(status=1)
    (desk.folder.path / "other.csv").write_text(ISSUE.format(3))
    assert (desk.entry_folder(2) / "handed-in.csv").read_text() == ISSUE.format(2) and posted(desk) == ["1", "2"]


def test_what_was_claimed_is_on_the_disk_before_it_is_posted(desk: Desk, monkeypatch: pytest.MonkeyPatch) -> None:
    """So after a power failure the log can show the file of each posting."""
    synced: list[str] = []
    sync = os.fsync

    def heard(handle: int) -> None:
        synced.append(os.path.basename(os.readlink(f"/proc/self/fd/{handle}")))
        sync(handle)

    monkeypatch.setattr(os, "fsync", heard)
    claiming.claimed(str(desk.hand_in("a.csv", ISSUE.format(2))), str(desk.folder.path), Log(str(desk.folder.path)))
    assert "handed-in.csv" in synced[:-2] and synced[-2] == ".entry.json.part"


# --- records that are changed ---

def test_a_claimed_file_that_is_changed_stops_only_its_own_rows(desk: Desk) -> None:
    """The other files are posted, and the log lists what it can read."""
    desk.folder.stand_in("cat >/dev/null\nexit 8")
    desk.hand_in("a.csv", ISSUE.format(2))
    desk.day("--life", "stand-in", status=1)
    claimed = desk.entry_folder(2) / "handed-in.csv"
    claimed.write_text(ISSUE.format(9))
    desk.hand_in("b.csv", ISSUE.format(3))
    for words in ((), ("--status",)):
        assert "000002-{}-a/handed-in.csv was changed since it was read".format(desk.entry_folder(2).name[7:17]) \
            in desk.day(*words, status=1).err
    assert posted(desk) == ["1", "3"]
    claimed.write_text(ISSUE.format(2))
    assert desk.day(status=1).out.endswith("-a,1,0,0,0\n") and posted(desk) == ["1", "3", "2"]


@pytest.mark.parametrize("name, says", [
    ("entry.json", "entry.json is not JSON"), ("handed-in.csv", "was changed since it was read")])
def test_the_log_lists_what_it_can_read(desk: Desk, name: str, says: str) -> None:
    """Once, with one bad entry, the log listed nothing at all."""
    desk.hand_in("a.csv", ISSUE.format(2))
    desk.day(status=1)
    os.truncate(desk.entry_folder(2) / name, 20)
    ended = desk.folder.tools("log")
    assert ended.status == 1 and says in ended.err and ended.out.count("\n") == 2
    assert "position 2, issue,2,2024-05-01,whole,40,0,1000.00,40.00, is in no entry that can be read" in ended.err


def test_a_file_without_its_record_is_reported(desk: Desk) -> None:
    """Once such a file was ignored without a message."""
    desk.hand_in("a.csv", ISSUE.format(2))
    desk.day(status=1)
    (desk.entry_folder(2) / "entry.json").unlink()
    assert f"day: log/{desk.entry_folder(2).name} has a file and no entry.json" in desk.day(status=1).err


# --- disks ---

def demand_not_read(desk: Desk, first: Callable[[], None]) -> None:
    """Hands a file in, and asserts that a `day` that does this first reports that the file could not be read."""
    desk.hand_in("a.csv", ISSUE.format(2))
    desk.folder.first = first
    assert "could not be read" in desk.day(status=1).err
    desk.folder.first = nothing


def test_a_claim_whose_inbox_is_away_waits_for_it(desk: Desk, memory: Path) -> None:
    """The file has its hidden name, and its disk isn't mounted when the next `day` looks. Once the entry was removed, and the
    file stayed in the inbox, unseen for ever."""
    demand_not_read(desk, fail_to_copy)
    memory.rename(memory.with_name("away"))
    memory.mkdir()
    for _ in range(2):
        assert ".a.csv.claimed-000002-" in desk.day(status=1).err and len(desk.log()) == 1
    memory.rmdir()
    memory.with_name("away").rename(memory)
    desk.day(status=1)
    assert posted(desk) == ["1", "2"] and os.listdir(memory) == []


def test_a_copied_file_leaves_its_inbox_after_an_interruption(desk: Desk, memory: Path) -> None:
    """The copy is whole, and the hidden file is still there. Once it stayed in the inbox for ever."""
    demand_not_read(desk, fail_after_the_copy)
    assert len(os.listdir(memory)) == 1
    desk.day(status=1)
    assert posted(desk) == ["1", "2"] and os.listdir(memory) == []


@pytest.mark.root
@pytest.mark.needs("mount")
@pytest.mark.parametrize("free", [8, 12, 24, 36, 48])
def test_a_log_on_a_full_disk_loses_nothing(desk: Desk, tmp_path: Path, free: int) -> None:
    """`free` kB are left: for a claim, for the record of a run, or for what the run printed."""
    place, log = tmp_path / "small", desk.folder.path / "log"
    place.mkdir()
    subprocess.run(["mount", "-t", "tmpfs", "-o", "size=400k", "tmpfs", place], check=True)
    try:
        shutil.copytree(log, place / "log")
        shutil.rmtree(log)
        log.symlink_to(place / "log")
        system = os.statvfs(place)
        (place / "fill").write_bytes(bytes(system.f_bavail * system.f_frsize - free * 1024))
        for name, first in (("a.csv", 100), ("b.csv", 300)):
            desk.hand_in(name, "".join(map(ISSUE.format, range(first, first + 150))))
        ended = desk.folder.tools("day", "--today", "2024-06-03")
        assert ended.status in (1, 2) and "No space left on device" in ended.err, ended
        # files that are reported as left in the inbox are there
        said = [name for name in ("a.csv", "b.csv") if f"{name} is left where it is" in ended.err]
        assert set(said) <= set(desk.inbox)
        (place / "fill").unlink()
        desk.day(status=1)
        assert sorted(map(int, posted(desk))) == [1, *range(100, 250), *range(300, 450)] and desk.inbox == []
    finally:
        subprocess.run(["umount", place], check=True)
