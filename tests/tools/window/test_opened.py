"""Tests that a window opens one book or several, only reads what it shows, and leaves nothing in its temporary folder."""
import hashlib
import os
import re
import shutil
import socket
import subprocess
import sys
from pathlib import Path

import pytest

from life_tools.window.door import Door
from life_tools.window.opened import Ended, ended
from life_tools.window.server import served
from tests.support.folders import Folder
from tests.support.windows import PATIENCE, Window

pytestmark = pytest.mark.needs("python:flask")


@pytest.fixture
def two(lived: Folder, table_q: Folder, office: Folder) -> Folder:
    """A folder with a list of two books: the one with many kinds of postings, and one with a single policy."""
    shutil.copytree(lived.path, table_q.path / "one")
    office.path.rename(table_q.path / "two")
    table_q.write("books.csv", "one,one,basis.csv\ntwo,two,basis.csv\n")
    return table_q


def test_several_books(tools: Path, two: Folder) -> None:
    with Window(tools, two.path, ["--books", "books.csv"]) as window:
        assert "one" in window.page("/").text and "not opened yet" in window.page("/").text
        assert "127.22" in window.page("/2/policy?number=7001&on=2021-01-01").text
        window.page("/1/")
        rows = {row[0]: row[1:] for row in window.page("/").rows("Books")}
        assert rows["two"] == ["1", "1", "1,000.00"]
        printed = two.below("one").printed("at", rows["one"][0].replace(",", ""), "state")
        state = [line.split(",") for line in printed.splitlines()]
        covered = [row for row in state if row[0] == "policy" and row[2] in ("inforce", "paidup")]
        amount = sum(int(row[6].replace(".", "")) for row in covered)
        assert rows["one"][1:] == [f"{len(covered):,}", f"{amount // 100:,}.{amount % 100:02}"]
        total = window.page("/").rows("Books", "tfoot")[0]
        assert total[2:] == [f"{len(covered) + 1:,}", f"{amount // 100 + 1000:,}.{amount % 100:02}"]
        assert "all books" in window.page("/2/").text


def sums(folder: Path) -> dict[str, str]:
    return {str(path): hashlib.sha256(path.read_bytes()).hexdigest() for path in folder.rglob("*") if path.is_file()}


@pytest.mark.needs("strace")
def test_a_book_in_use_is_only_read(tools: Path, two: Folder, tmp_path: Path) -> None:
    """Another process has locked the journal; the window opens it only for reading, and writes nothing in the book's folder."""
    calls, before = tmp_path / "calls", sums(two.path)
    shutil.copy(tools, tmp_path / "bin-life-tools")
    wrapped = tmp_path / "traced.py"
    wrapped.write_text(f"import os, sys\nos.execvp('strace', ['strace', '-D', '-f', '-qq', '-o', {str(calls)!r}, '-e', "
                       "'trace=openat,unlink,unlinkat,rename,truncate,mkdir,chdir', sys.executable, '-B', "
                       f"{str(tools)!r}, *sys.argv[1:]])\n")
    with two.below("one").in_use():
        with Window(wrapped, two.path, ["--books", "books.csv"], temporary=tmp_path / "temporary") as window:
            for path in ("/1/", "/1/find", "/2/policy?number=7001&on=2021-01-01", "/1/audit", "/1/stands"):
                window.page(path)
    text = calls.read_text(errors="replace")
    opened = re.findall(rf'openat\(.*"{re.escape(str(two.path))}/(?:one|two)/journal\.life".*', text)
    assert opened and not [line for line in opened if re.search("O_WRONLY|O_RDWR|O_CREAT", line)]
    beside = [line for line in text.splitlines() if f'"{two.path}/one/' in line or f'"{two.path}/two/' in line]
    assert not [line for line in beside if re.search("O_WRONLY|O_RDWR|O_CREAT|unlink|rename|mkdir|truncate|chdir", line)]
    assert {path: each for path, each in sums(two.path).items() if path in before} == before


def refused(tools: Path, folder: Path, *words: str) -> str:
    (folder / "temporary").mkdir(exist_ok=True)
    ran = subprocess.run([sys.executable, "-B", str(tools), "browse", *words], cwd=folder, capture_output=True, text=True,
                         timeout=PATIENCE, env={**os.environ, "TMPDIR": str(folder / "temporary")}, check=False)
    assert ran.returncode == 2 and not ran.stdout and not list((folder / "temporary").iterdir()), ran
    return ran.stderr


def test_what_cant_be_opened(tools: Path, two: Folder) -> None:
    assert "nowhere/journal.life: No such file or directory" in refused(tools, two.path, "--folder", "nowhere")
    assert "1023" in refused(tools, two.path, "--folder", "one", "--port", "1023")
    assert "../basis.csv is no name of a basis file" in refused(tools, two.path, "--folder", "one", "--basis", "../basis.csv")
    assert "nowhere: No such file or directory" in refused(tools, two.path, "--books", "nowhere")
    with socket.socket() as taken:
        taken.bind(("127.0.0.1", 0))
        taken.listen()
        port = taken.getsockname()[1]
        assert f"port {port} can't be had" in refused(tools, two.path, "--folder", "one", "--port", str(port))


def test_a_damaged_journal_is_a_page_with_its_reason(tools: Path, two: Folder) -> None:
    book = two.below("two")
    book.journal.write_bytes(book.journal.read_bytes()[:60])
    with Window(tools, book.path) as window:
        answer = window.get("/1/")
        assert answer.status == 409 and "badjournal,badrecord,0: record 0: it is cut short" in answer.text
        assert str(two.path) not in answer.text


def test_nothing_is_left(tools: Path, lived: Folder, tmp_path: Path) -> None:
    with Window(tools, lived.path, temporary=tmp_path / "own") as window:
        window.page("/1/")
    assert window.process.returncode == 0 and not list((tmp_path / "own").iterdir())


def test_a_signal_that_comes_while_a_request_begins_ends_the_window() -> None:
    """The server goes on after an Exception, which it takes for a failed request."""
    server = served(Door(lambda environ, start: [], 0), 0)
    server.process_request = lambda request, address: ended(15, None)
    try:
        with socket.create_connection(("127.0.0.1", server.server_port)), pytest.raises(Ended):
            server.handle_request()
    finally:
        server.server_close()
