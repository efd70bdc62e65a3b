"""Tests the window's door: an address that works once and is given only to its owner, a prefix that isn't shown to other
servers of the machine, limits of connections and time, hostile requests, and what a killed window left."""
import hashlib
import html
import os
import re
import signal
import socket
import stat
import subprocess
import sys
import time
from collections.abc import Iterator
from pathlib import Path

import pytest

from tests.support.folders import Folder
from tests.support.windows import PATIENCE, Answer, Window

pytestmark = pytest.mark.needs("python:flask")
POLICY = ("default-src 'none'; style-src 'self'; img-src 'self'; frame-src 'self'; form-action 'self'; base-uri 'none'; "
          "frame-ancestors 'none'")
MOST_CONNECTIONS, WHOLE_REQUEST = 64, 15


def raw(window: Window, head: str, body: bytes = b"") -> tuple[int, str]:
    """Sends a request as it is; returns the status, which is 0 if nothing is answered, and what follows it."""
    with socket.create_connection(("127.0.0.1", window.port), PATIENCE) as line:
        line.sendall(head.encode("latin-1") + b"\r\n\r\n" + body)
        line.shutdown(socket.SHUT_WR)
        said = b"".join(iter(lambda: line.recv(65536), b""))
    first, _, rest = said.partition(b"\r\n")
    words = first.split()
    return (int(words[1]) if len(words) > 1 and words[1].isdigit() else 0), rest.decode("latin-1")


# --- the key, the cookie and the prefix ---

def test_the_address_works_once(tools: Path, lived: Folder, tmp_path: Path) -> None:
    with Window(tools, lived.path, temporary=tmp_path, is_entered=False) as window:
        assert stat.S_IMODE(os.stat(window.out).st_mode) == 0o600, "others can read the key"
        first, token = window.enter(), window.address.query
        assert first.status == 303 and token not in first.headers["Location"]
        cookie = first.headers["Set-Cookie"]
        assert f"Path={window.root}/" in cookie and "HttpOnly" in cookie and "SameSite=Strict" in cookie
        assert len(window.root) >= 16 and window.root != "/"
        window.page("/1/")
        window.cookie = ""
        again = window.ask(f"{window.root}/?{token}")
        assert again.status == 403 and "works once" in again.text and "Set-Cookie" not in again.headers
        assert window.ask("/?" + token).status == window.ask(f"/{'0' * 16}/?{token}").status == 403


def test_an_address_for_a_colleague(tools: Path, lived: Folder, tmp_path: Path) -> None:
    """A page has an address that lets somebody else in once, to the page as it is; no argument of the address can ask for
    another page."""
    with Window(tools, lived.path, temporary=tmp_path) as window:
        page = window.page("/1/find?plan=term&at=700")
        link = next(each for each in page.links() if "/share?" in each)
        told = re.search("http://[^<]*", window.page(link).page)
        assert told
        cookie, window.cookie = window.cookie, ""
        address = html.unescape(told[0]).partition(f"127.0.0.1:{window.port}")[2].strip()
        answer = window.ask(address)
        assert answer.status == 303 and answer.headers["Set-Cookie"].startswith(cookie)
        window.cookie = answer.headers["Set-Cookie"].split(";")[0]
        assert window.page(answer.headers["Location"]).rows("Policies") == page.rows("Policies")
        window.cookie = ""
        assert window.ask(address).status == 403 and window.ask(link).status == 403
        window.cookie = cookie
        assert window.ask(link.replace("of=find", "of=elsewhere")).status == 400


def test_the_key_is_not_written_to_a_pipe(tools: Path, lived: Folder, tmp_path: Path) -> None:
    """What is printed to a pipe is the path of a file that only its owner can read."""
    words = [sys.executable, "-B", str(tools), "browse", "--port", "0", "--folder", str(lived.path)]
    with subprocess.Popen(words, env={**os.environ, "TMPDIR": str(tmp_path)}, stdout=subprocess.PIPE, stderr=subprocess.DEVNULL,
                          text=True) as process:
        assert process.stdout
        path = Path(process.stdout.readline().strip())
        assert path.is_file() and stat.S_IMODE(path.stat().st_mode) == 0o600
        assert path.read_text().startswith("http://127.0.0.1:") and "?token=" in path.read_text()
        process.terminate()
        process.wait(PATIENCE)
    assert not path.exists()


# --- limits ---

def test_a_slow_request_is_ended(window: Window) -> None:
    """A byte every half second is too slow for a limit of 15 seconds; all of them would take 90."""
    begun = time.monotonic()
    with socket.create_connection(("127.0.0.1", window.port), PATIENCE) as line:
        with pytest.raises(OSError):
            for letter in b"GET / HTTP/1.1\r\nX: " + b"a" * 160:
                line.sendall(bytes([letter]))
                time.sleep(0.5)
        assert time.monotonic() - begun > WHOLE_REQUEST
    window.page("/1/")


def turned_away(held: list[socket.socket]) -> list[socket.socket]:
    """Returns the connections that were answered by 503; what others are answered isn't read."""
    found = []
    for line in held:
        line.settimeout(0.05)
        try:
            if line.recv(12, socket.MSG_PEEK) == b"HTTP/1.0 503":
                found.append(line)
        except OSError:
            continue
    return found


def test_no_more_connections_than_it_serves(window: Window) -> None:
    """A hundred connections say nothing: those beyond the limit are ended at once, and all others in time."""
    held = [socket.create_connection(("127.0.0.1", window.port), PATIENCE) for _ in range(100)]
    try:
        ends = time.monotonic() + PATIENCE
        while len(found := turned_away(held)) < 100 - MOST_CONNECTIONS and time.monotonic() < ends:
            time.sleep(0.1)
        assert len(found) == 100 - MOST_CONNECTIONS
        with open(f"/proc/{window.process.pid}/status") as status:
            threads = next(int(row.split()[1]) for row in status if row.startswith("Threads:"))
        assert threads < MOST_CONNECTIONS + 40, "a connection that isn't served holds a thread"
    finally:
        for line in held:
            line.close()
    ends = time.monotonic() + PATIENCE
    while window.ask(f"{window.root}/1/find").status == 503:
        assert time.monotonic() < ends, "ended connections still hold their places"
        time.sleep(0.1)
    window.page("/1/")


# --- what is left ---

def test_what_a_killed_window_left_goes_with_the_next(tools: Path, lived: Folder, tmp_path: Path) -> None:
    with Window(tools, lived.path, temporary=tmp_path) as killed:
        killed.page("/1/")
        killed.process.send_signal(signal.SIGKILL)
        killed.process.wait(PATIENCE)
    [left] = [each for each in tmp_path.iterdir() if each.name.startswith("life-window-")]
    os.utime(left, (time.time() - 3600,) * 2)
    ran = subprocess.run([sys.executable, "-B", str(tools), "report", "2022-12-31"], cwd=lived.path, capture_output=True,
                         text=True, env={**os.environ, "TMPDIR": str(tmp_path)}, check=False)
    assert ran.returncode == 0 and not left.exists(), ran.stderr


def test_a_window_that_is_open_keeps_its_folder(tools: Path, lived: Folder, tmp_path: Path) -> None:
    with Window(tools, lived.path, temporary=tmp_path) as one:
        one.page("/1/")
        [mine] = [each for each in tmp_path.iterdir() if each.name.startswith("life-window-")]
        assert stat.S_IMODE(mine.stat().st_mode) == 0o700
        os.utime(mine, (time.time() - 3600,) * 2)
        subprocess.run([sys.executable, "-B", str(tools), "report", "2022-12-31"], cwd=lived.path, capture_output=True,
                       env={**os.environ, "TMPDIR": str(tmp_path)}, check=True)
        one.page("/1/find")
    assert not [each for each in tmp_path.iterdir() if each.name.startswith("life-window-")]


# --- strange names and files ---

NAMES = (b"a,comma", b"a\nline", b"not-\xff-utf8", b"=1+1", b"<b>bold")
VISITED = ("/1/", "/1/stands", "/1/audit", "/1/find", "/1/report?on=2021-01-01", "/1/month", "/1/day",
           "/1/sample?on=2021-01-01&count=1&measure=terminal", "/1/letters.csv?on=2021-01-01&count=1&measure=terminal",
           "/1/statement?on1=2020-01-01&p1=0&on2=2021-01-01", "/1/report.csv?on=2021-01-01", "/1/report.xlsx?on=2021-01-01")


@pytest.mark.parametrize("name", NAMES)
def test_a_folder_with_a_strange_name(tools: Path, table_q: Folder, name: bytes) -> None:
    path = os.fsencode(table_q.path) + b"/" + name
    os.mkdir(path)
    for each in ("q.xml", "basis.csv"):
        with open(path + b"/" + each.encode(), "wb") as file:
            file.write(table_q.read(each).encode())
    Folder(Path(os.fsdecode(path)), table_q.program).post("1,issue,7001,2020-01-01,endowment,0,3,1000.00,400.00\n")
    with Window(tools, Path(os.fsdecode(path))) as window:
        for page in VISITED:
            answer = window.page(page)
            assert b"<b>bold" not in answer.body or "html" not in answer.headers["Content-Type"], page


def tells_no_path(answer: Answer, office: Folder) -> None:
    assert answer.status != 500, answer.text
    assert str(office.path.parent) not in answer.text, answer.text


def test_a_journal_that_is_taken_away(tools: Path, office: Folder) -> None:
    with Window(tools, office.path) as window:
        window.page("/1/")
        office.journal.rename(office.path / "elsewhere")
        for page in ("/1/", "/1/audit", "/1/find", "/1/newest", "/1/report?on=2021-01-01"):
            tells_no_path(window.get(page), office)
        assert "it is shorter, or it is gone" in window.get("/1/").text


def test_a_pipe_in_the_log_in_place_of_an_entry_is_passed_over(tools: Path, office: Folder) -> None:
    entry = office.path / "log" / "000001-2024-01-02-monday"
    entry.mkdir(parents=True)
    os.mkfifo(entry / "entry.json")
    with Window(tools, office.path) as window:
        for page in ("/1/", "/1/stands", "/1/held", "/1/refusals"):
            assert window.get(page).status == 200, page


def test_a_pipe_in_place_of_the_newest_run_is_a_page_with_the_reason(tools: Path, office: Folder) -> None:
    run = office.path / "log" / "runs" / "000001"
    run.mkdir(parents=True)
    os.mkfifo(run / "run.json")
    with Window(tools, office.path) as window:
        for page in ("/1/", "/1/stands"):
            answer = window.get(page)
            assert answer.status == 409, page
            assert "log/runs/000001/run.json: it is a pipe or a device" in answer.text, page
            assert str(office.path) not in answer.text, page


# --- requests that no browser of a person sends ---

def requests(it: Window) -> Iterator[tuple[str, tuple[int, str]]]:
    """Yields each request's name and its reply."""
    root, host = it.root, f"127.0.0.1:{it.port}"

    def asks(target: str, method: str = "GET", to: str = host, cookie: str = it.cookie, more: str = "",
             body: bytes = b"") -> tuple[int, str]:
        head = f"{method} {target} HTTP/1.1\r\nHost: {to}\r\nConnection: close"
        return raw(it, head + (f"\r\nCookie: {cookie}" if cookie else "") + more, body)

    page, policy, report = f"{root}/1/", "/1/policy?number=7001", "/1/report?on=2021-01-01"
    yield from ((f"a path {path}", asks(root + path)) for path in (
        "/../../../../etc/passwd", "/1/../../etc/passwd", "/1/%2e%2e/%2e%2e/etc/passwd", "/1/..%2f..%2fetc%2fpasswd",
        "//etc/passwd", "/1//etc/passwd", "/1/journal.life", "/journal.life", "/1/templates/base.html", "/1/file-1", "/%00",
        "/1/find%00", "/1/%ff%fe", "/0/", "/2/", "/99999999999999999999/", "/-1/", "/console", "/1/report.csv/../journal.life",
        "/static/window.css"))
    yield from ((f"words {words}", asks(root + words)) for words in (
        "/1/find?number=%27", "/1/find?number=1%27%20or%20%271%27=%271", "/1/find?number=%25",
        "/1/find?number=12345678901234567890", "/1/find?plan=%27;drop%20table%20policy;--", "/1/find?sort=policy;select%201",
        "/1/find?order=sideways", "/1/find?page=0", "/1/find?page=-1", "/1/find?from=2021-02-29", "/1/find?to=$(id)",
        "/1/find?at=-1", "/1/find?at=999999999999", "/1/find?at=1e3", "/1/find?at=1-xyz", "/1/find?at=1-000000000000",
        "/1/policy?number=%60id%60", "/1/policy?number=4294967296", "/1/policy?number=0", policy + "&measure=;id",
        policy + "&on=9999-99-99", report + "&p=4000001", report + "&measure=../../basis", "/1/report?on=2021-01-01%0Aid",
        "/1/movement?on1=2021-01-01&p1=2&on2=2021-01-01&p2=1", "/1/day?within=367", "/1/day?day=%3Cscript%3E",
        "/1/bases?on=2021-01-01&other=../basis.csv", "/1/bases?on=2021-01-01&other=journal.life",
        "/1/group?on=2021-01-01&by=x", "/1/moment?asof=2021-01-01&page=../../etc", "/1/moment?asof=x",
        "/1/premiums?month=2021-13", "/1/postings?year=1&kind=claim",
        "/1/moved?on1=2021-01-01&p1=0&on2=2021-01-01&line=none", "/1/find?number=1&number=2", "/1/find?unknown=1", "/?token=",
        "/1/?" + it.address.query, "/1/find?number=" + "1" * 5000))
    yield from ((f"the method {method}", asks(page, method, more="\r\nContent-Length: 3", body=b"a=b")) for method in (
        "POST", "PUT", "DELETE", "PATCH", "OPTIONS", "TRACE", "PROPFIND", "get"))
    yield from ((f"the host {to}", asks(page, to=to)) for to in (
        "example.org", f"example.org:{it.port}", "127.0.0.1", f"127.0.0.1:{it.port + 1}", f"0.0.0.0:{it.port}",
        f"[::1]:{it.port}",
        f"127.0.0.1:{it.port}.example.org", f"localhost.example.org:{it.port}"))
    token = it.address.query.partition("=")[2]
    yield from ((f"the cookie {cookie!r}", asks(page, cookie=cookie)) for cookie in (
        "none=1", it.cookie[:-1], it.cookie + "0", it.cookie.split("=")[0] + "=" + token,
        it.cookie.replace("life-window", "other"), ""))
    yield from ((f"the prefix {prefix!r}", asks(prefix + "/1/")) for prefix in ("", root[:-1], root + "0", "/" + "0" * 16))
    yield "another host's address", asks(f"http://example.org{page}")
    yield "a wrong token", asks(f"{root}/?token=" + "0" * 32, cookie="none=1")
    yield "a token and more", asks(f"{root}/?token={token}&next=http://example.org/", cookie="none=1")
    yield "no host", raw(it, f"GET {page} HTTP/1.1\r\nCookie: {it.cookie}\r\nConnection: close")


def kept(folder: Path) -> dict[str, tuple[str, int]]:
    """Returns what lies in the book's folder: names, contents, and when each file was written."""
    return {str(path): (hashlib.sha256(path.read_bytes()).hexdigest(), path.stat().st_mtime_ns)
            for path in folder.rglob("*") if path.is_file()}


def test_hostile_requests_are_answered_by_4xx(window: Window, lived: Folder) -> None:
    before, tried = kept(lived.path), 0
    for name, (status, rest) in requests(window):
        tried += 1
        assert 400 <= status < 500, f"{name}: {status}"
        lines = rest.split("\r\n\r\n")[0].split("\r\n")
        told = {key.lower(): value for key, _, value in (line.partition(": ") for line in lines)}
        assert told.get("content-security-policy") == POLICY and told.get("cache-control") == "no-store", name
    assert tried >= 90 and kept(lived.path) == before
    assert window.page("/1/find").status == 200


def test_it_listens_on_the_loopback_alone(window: Window) -> None:
    found = set()
    for name in ("tcp", "tcp6"):
        with open(f"/proc/net/{name}") as file:
            lines = [line.split() for line in file][1:]
        found |= {line[1].split(":")[0] for line in lines if line[3] == "0A" and int(line[1].split(":")[1], 16) == window.port}
    assert found == {"0100007F"}
