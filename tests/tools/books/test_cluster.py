"""Tests `books --scheduler`: a cluster of Dask on the loopback address, even if a worker dies or the scheduler goes away,
prints what this machine prints, byte for byte."""
import hashlib
import os
import re
import subprocess
import sys
from collections.abc import Iterator
from pathlib import Path

import pytest

from life_tools.books.runs import Task, run_once
from tests.support.clusters import Cluster, await_that
from tests.support.folders import Folder
from tests.support.program import ROOT

pytestmark = [pytest.mark.slow, pytest.mark.needs("python:distributed"), pytest.mark.timeout(900)]
VALUE = ["books", "books.csv", "value", "2010-12-31", "--totals"]


@pytest.fixture
def cluster(three: Folder) -> Iterator[Cluster]:
    room = three.path / "cluster"
    room.mkdir()
    made = Cluster(room)
    try:
        yield made
    finally:
        made.end()


def without_process(text: str) -> str:
    return re.sub("process [0-9]*", "process", text)


def test_no_scheduler(three: Folder) -> None:
    ended = three.tools(*VALUE, "--scheduler", "tcp://127.0.0.1:1")
    assert ended.status == 2 and "there is no scheduler at tcp://127.0.0.1:1" in ended.err and not ended.out, ended


def test_what_the_cluster_prints(three: Folder, cluster: Cluster) -> None:
    """For books that the workers can read, for books that are sent to them, and for a book that is in use, cut short or
    damaged."""
    there = ["--scheduler", cluster.address]
    three.printed(*VALUE[:-1], "--parts", "parts")
    wanted = three.printed(*VALUE)
    assert three.printed(*VALUE, *there) == wanted
    assert three.printed(*VALUE, "--parts", "far", "--send", *there) == wanted
    for name in ("book1", "book2", "book3"):
        assert three.read(f"far/{name}.csv") == three.read(f"parts/{name}.csv")
    three.refused("books", "books.csv", "checkpoint", *there, says="not on a cluster")
    whole = (three.path / "book2/journal.life").read_bytes()
    with three.below("book2").in_use():
        here, far = three.tools(*VALUE), three.tools(*VALUE, *there)
        assert here.status == far.status == 8 and without_process(here.out) == without_process(far.out)
    damaged = bytearray(whole)
    damaged[17 + 65 * 100] = 0
    for data, status, line in ((whole[:100], 5, "badjournal,badrecord,1"),
                               (bytes(damaged), 1, ".*9100 bytes .* byte 6517")):
        three.write("book2/journal.life", data)
        for how in (there, [*there, "--send"]):
            ended = three.tools(*VALUE, *how)
            assert ended.status == status and re.search("^tried once more: book2$", ended.err, re.M), ended
            assert re.search(f"^book2,failed,{status},{line}", ended.out, re.M), ended


def test_workers_that_die_and_a_scheduler_that_goes_away(three: Folder, cluster: Cluster) -> None:
    wanted = three.printed(*VALUE)
    slow = three.stand_in(f'touch "{three.path}/begun.$$"\nsleep 2\nexec "$life" "$@"')

    def begin() -> subprocess.Popen[bytes]:
        """Starts `books` on the cluster with a slow program, and waits until a book is begun."""
        for file in three.path.glob("begun.*"):
            file.unlink()
        run = subprocess.Popen([sys.executable, str(ROOT / "tools" / "life-tools"), *VALUE, "--scheduler", cluster.address],
                               cwd=three.path, env={**os.environ, "LIFE_PROGRAM": str(slow)}, stdout=subprocess.PIPE,
                               stderr=open(three.path / "remarks", "wb"))
        await_that(lambda: bool(list(three.path.glob("begun.*"))) or run.poll() is not None, "nothing was begun")
        return run

    run = begin()
    cluster.kill_worker(1)
    assert run.communicate()[0].decode() == wanted and run.returncode == 0
    run = begin()
    cluster.kill_worker(2)
    await_that(lambda: "has no worker left: waiting for one" in three.read("remarks"), "nothing is told of no worker")
    assert run.poll() is None
    cluster.begin_worker(3)
    assert run.communicate()[0].decode() == wanted and run.returncode == 0
    run = begin()
    cluster.scheduler.kill()
    assert not run.communicate()[0] and run.returncode == 2
    assert f"the scheduler at {cluster.address} went away" in three.read("remarks")


# --- a worker that has another program, or reads another book ---

WORDS = ("value", "2010-12-31")
NAMES = ("journal.life", "basis.csv", "g.xml")


def sum_at(path: Path) -> str:
    return hashlib.sha256(path.read_bytes()).hexdigest()


def test_a_worker_that_has_something_else(three: Folder) -> None:
    right = sum_at(three.program.path)
    sums = {name: sum_at(three.path / "book1" / name) for name in NAMES}

    def outcome(told: dict[str, str], program_sum: str = right, name: str = "book1") -> tuple[int, str]:
        found = run_once(Task(name, str(three.path / name), "basis.csv", WORDS, (str(three.program.path),), None, True,
                              program_sum, tuple(told.items())))
        return found.status, found.line

    assert outcome(sums)[0] == 0
    status, line = outcome(sums, "0" * 64)
    assert status == 2 and "has no program of the sum 0000000000000000" in line
    for name in NAMES:
        status, line = outcome({**sums, name: "0" * 64})
        assert status == 2 and f"sees another {name} than the one asked for" in line
    status, line = outcome(sums, name="book9")
    assert status == 2 and "there is no" in line
