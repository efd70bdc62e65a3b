"""A window on a book as a browser on this machine sees it: the test opens it by its address, asks for pages, and closes it."""
from __future__ import annotations

import hashlib
import html
import http.client
import os
import re
import signal
import subprocess
import sys
import time
from dataclasses import dataclass, field
from pathlib import Path
from types import TracebackType
from typing import Mapping
from urllib.parse import urlsplit

from tests.support.program import ROOT, Program

PACKING = ROOT / "tools" / "packing" / "tools_file.py"
# the most seconds for a page on a busy machine
PATIENCE = 120


def installed(folder: Path, program: Program) -> Path:
    """Installs the tools as users have them: one file that knows the checksum of its program, with the program next to it."""
    folder.mkdir(parents=True, exist_ok=True)
    tools, content = folder / "life-tools", program.path.read_bytes()
    (folder / "life").write_bytes(content)
    (folder / "life").chmod(0o755)
    words = [str(PACKING), str(ROOT / "tools" / "life_tools"), str(tools), "0123456789abcdef", "a kit"]
    subprocess.run([sys.executable, "-B", *words, hashlib.sha256(content).hexdigest()], check=True)
    tools.chmod(0o755)
    return tools


@dataclass
class Answer:
    status: int
    headers: Mapping[str, str]
    body: bytes

    @property
    def text(self) -> str:
        page = self.body.decode("utf-8")
        page = re.sub(r"<(style|script|title)\b.*?</\1>", " ", page, flags=re.S)
        return " ".join(html.unescape(re.sub("<[^>]*>", " ", page)).split())

    @property
    def page(self) -> str:
        return self.body.decode("utf-8")

    def links(self) -> list[str]:
        """Returns the addresses that the page links to, as a browser follows them."""
        return [html.unescape(each) for each in re.findall(r'<a [^>]*?href="([^"]*)"', self.page)]

    def rows(self, caption: str, part: str = "tbody") -> list[list[str]]:
        for table in re.findall(r"<table>.*?</table>", self.page, re.S):
            named = re.search(r"<caption[^>]*>(.*?)</caption>", table, re.S)
            if named and html.unescape(named[1]).strip() == caption:
                body = re.search(rf"<{part}>(.*?)</{part}>", table, re.S)
                rows = re.findall(r"<tr[^>]*>(.*?)</tr>", body[1] if body else "", re.S)
                return [[html.unescape(re.sub("<[^>]*>", "", cell)).strip()
                         for cell in re.findall(r"<td[^>]*>(.*?)</td>", row, re.S)] for row in rows]
        raise AssertionError(f"there is no table {caption!r}: {self.text[:500]}")

    def marks(self, label: str) -> list[str]:
        for chart in re.findall(r'<svg class="chart".*?</svg>', self.page, re.S):
            if html.unescape(re.findall('aria-label="([^"]*)"', chart)[0]).startswith(label):
                return [html.unescape(each) for each in re.findall("<title>(.*?)</title>", chart)]
        raise AssertionError(f"there is no chart {label!r}")


@dataclass
class Window:
    """An open window: its address, and the cookie of whoever entered by its key."""

    tools: Path
    folder: Path
    words: list[str] = field(default_factory=list)
    env: dict[str, str] = field(default_factory=dict)
    temporary: Path | None = None
    is_entered: bool = True

    def __enter__(self) -> Window:
        self.out, self.err = self.folder.parent / "address", self.folder.parent / "remarks"
        self.temporary = self.temporary or self.folder.parent / "temporary"
        self.temporary.mkdir(parents=True, exist_ok=True)
        environment = {name: text for name, text in os.environ.items() if name not in ("LIFE_PROGRAM", "LIFE_TOOLS_ANEW")}
        environment.update(TMPDIR=str(self.temporary), **self.env)
        words = [sys.executable, "-B", str(self.tools), "browse", "--port", "0", *self.words]
        with open(self.out, "wb") as out, open(self.err, "wb") as err:
            self.process = subprocess.Popen(words, cwd=self.folder, stdout=out, stderr=err, env=environment)
        ends = time.monotonic() + PATIENCE
        while not self.out.read_text():
            assert self.process.poll() is None and time.monotonic() < ends, self.err.read_text()
            time.sleep(0.05)
        self.address = urlsplit(self.out.read_text().strip())
        self.root, self.cookie = self.address.path.rstrip("/"), ""
        if self.is_entered:
            self.enter()
        return self

    def __exit__(self, kind: type[BaseException] | None, error: BaseException | None, trace: TracebackType | None) -> None:
        if self.process.poll() is None:
            self.process.send_signal(signal.SIGTERM)
        self.process.wait(PATIENCE)

    @property
    def port(self) -> int:
        assert self.address.port
        return self.address.port

    def enter(self) -> Answer:
        """Enters by the key in the address, and keeps the cookie."""
        answer = self.ask(f"{self.root}/?{self.address.query}")
        if answer.status == 303:
            self.cookie = answer.headers["Set-Cookie"].split(";")[0]
        return answer

    def ask(self, path: str, **headers: str) -> Answer:
        line = http.client.HTTPConnection("127.0.0.1", self.port, timeout=PATIENCE)
        try:
            line.request("GET", path, headers={**({"Cookie": self.cookie} if self.cookie else {}), **headers})
            found = line.getresponse()
            return Answer(found.status, dict(found.headers.items()), found.read())
        finally:
            line.close()

    def get(self, path: str) -> Answer:
        path = path if path.startswith(self.root) else self.root + path
        ends = time.monotonic() + PATIENCE
        answer = self.ask(path)
        while answer.status in (202, 303):
            assert time.monotonic() < ends, f"{path} isn't there: {answer.text}"
            if answer.status == 303:
                path = answer.headers["Location"]
            else:
                time.sleep(0.1)
            answer = self.ask(path)
        return answer

    def page(self, path: str) -> Answer:
        """Returns a page, which must not reload by itself while somebody reads it."""
        answer = self.get(path)
        assert answer.status == 200, f"{path}: {answer.status}: {answer.text[:1500]} {self.err.read_text()[-1500:]}"
        assert "Refresh" not in answer.headers, f"{path} reloads by itself"
        return answer
