"""Tests a release that `sh life pack` packs from a copy of the repository: two packs of one revision are the same bytes,
lintian finds no error, and the stated sums are right. Then a new user's steps are tested: on a fresh Debian without the kit
the package is installed, a book is posted to, valued and shown, the next version is installed over it, and the package is
removed."""
import hashlib
import os
import re
import shutil
import subprocess
import time
from dataclasses import dataclass
from pathlib import Path
from typing import Iterator

import pytest

from tests.pages.links import wrong_links
from tests.support.browser import DESK, Browser
from tests.support.clones import copy_tracked, prove
from tests.support.folders import EXAMPLES
from tests.support.missing import need
from tests.support.program import ROOT, Program
from tests.support.tools import Ended
from tests.tools.launcher.conftest import ran

pytestmark = [pytest.mark.needs("git", "dpkg-deb", "lintian", "rt", "python:mkdocs", "python:pymdownx"), pytest.mark.slow,
              pytest.mark.alone, pytest.mark.timeout(1800)]

BY_ANYONE = ("-c", "user.name=life", "-c", "user.email=life@life.example", "-c", "commit.gpgsign=false")
NOON, LATER, NEXT_YEAR = "2026-11-29T12:00:00Z", "2026-11-29T12:00:01Z", "2027-01-01T12:00:00Z"
NEXT = "99.0.0"
# by hand: three issues and premiums, one of which comes too early, and the reserve by table Q without interest after a year
FIRST_MINUTE = """1,issue,7001,accepted,1
1,premium,7001,accepted,2
1,premium,7001,refused,tooearly,2021-01-01
1,premium,7001,accepted,3
1,value,2021-01-01,3,1
row,7001,inforce,1,127.22,127.23
total,127.22,127.23,0
watcher,1,3,3
watcher,2,3,80000
"""
COMPLETES = ". /usr/share/bash-completion/completions/life-wait && COMP_WORDS=(life-wait 5 che) COMP_CWORD=2 && _life && " \
    'echo "${COMPREPLY[@]}"'


def git(clone: Path, *words: str, when: str = NOON) -> str:
    return subprocess.run(["git", *BY_ANYONE, *words], cwd=clone, check=True, stdout=subprocess.PIPE, text=True,
                          env={**os.environ, "GIT_COMMITTER_DATE": when, "GIT_AUTHOR_DATE": when}).stdout


def commit(clone: Path, message: str, when: str = NOON) -> None:
    git(clone, "add", "-A")
    git(clone, "commit", "-q", "-m", message, when=when)


def version_of(clone: Path) -> str:
    found = re.search(r"^## ([0-9.]+) ", (clone / "CHANGELOG.md").read_text(encoding="utf-8"), re.M)
    assert found
    return found[1]


@pytest.fixture(scope="module")
def revision(program: Program, tmp_path_factory: pytest.TempPathFactory) -> Path:
    """A copy of the repository with one commit, whose program counts as proved."""
    clone = tmp_path_factory.mktemp("revision") / "clone"
    copy_tracked(clone)
    git(clone, "init", "-q")
    commit(clone, "what is packed")
    prove(clone, program.path)
    return clone


@pytest.fixture
def clone(revision: Path, tmp_path: Path, program: Program) -> Path:
    subprocess.run(["git", "clone", "-q", revision, tmp_path / "clone"], check=True)
    prove(tmp_path / "clone", program.path)
    return tmp_path / "clone"


def packed(clone: Path, env: dict[str, str] | None = None) -> Ended:
    return ran(["sh", clone / "life", "pack"], clone, env=env)


@pytest.mark.parametrize("file, old, new, is_committed, status, says", [
    ("crates/life_cli/out/life_cli", "", "", False, 69, "no proved program"),
    ("crates/policy_types/src/lib.rt", "", "// changed since the proof\n", True, 69, "no proved program"),
    ("docs/howto/clerk.md", "", "more\n", False, 70, "docs/howto/clerk.md"),
    ("CHANGELOG.md", "\n## 1", "\n## one", True, 70, "CHANGELOG.md")])
def test_what_isnt_packed(clone: Path, file: str, old: str, new: str, is_committed: bool, status: int, says: str) -> None:
    """Nothing is packed without a program, with sources that were not proved, with changes that aren't committed, or without a
    version."""
    if not new:
        (clone / file).unlink()
    else:
        text = (clone / file).read_text(encoding="utf-8")
        (clone / file).write_text(text.replace(old, new, 1) if old else text + new, encoding="utf-8")
    if is_committed:
        commit(clone, "changed", LATER)
    done = packed(clone)
    assert (done.status, done.out) == (status, "") and "nothing was packed" in done.err and says in done.err, done
    assert not list((clone / "out").glob("release/*"))


@dataclass(frozen=True)
class Release:
    """What was packed from a revision, and what `sh life pack` said."""

    version: str
    folder: Path
    said: Ended

    @property
    def names(self) -> list[str]:
        return [f"life_{self.version}_amd64.deb", f"life_{self.version}_amd64.tar.gz", f"life_{self.version}.proved.txt"]

    @property
    def package(self) -> Path:
        return self.folder / self.names[0]


@pytest.fixture(scope="module")
def release(revision: Path) -> Release:
    said = packed(revision)
    assert said.status == 0 and said.err == "", said
    return Release(version_of(revision), revision / "out" / "release", said)


def test_two_packs_are_the_same_bytes(release: Release, revision: Path, clone: Path) -> None:
    """The second pack is made in another folder, in another time zone, by a user whose files nobody else may read. CI's counts
    for other sources aren't reported."""
    (clone / "out" / "gate").write_text(f"sources: {hashlib.sha256(b'other').hexdigest()}\n12 passed, 0 failed\n")
    environment = {"TZ": "Asia/Tokyo", "LANG": "C.UTF-8", "HOME": str(clone.parent)}
    done = ran(["sh", "-c", 'umask 077; exec sh "$0/life" pack', clone], clone, env=environment)
    assert done.status == 0, done
    for name in release.names:
        assert (release.folder / name).read_bytes() == (clone / "out" / "release" / name).read_bytes(), name
        assert f"packed: out/release/{name}\n" in release.said.out


def sources_of(clone: Path) -> str:
    """Returns the checksum of the sources, computed by other means than the tool's."""
    listed = "git ls-files -z crates crates.txt HANDLES | LC_ALL=C sort -z | xargs -0 sha256sum | sha256sum"
    return ran(["sh", "-c", listed], clone).out.split()[0]


def test_what_is_said_of_the_proof(release: Release, revision: Path, program: Program) -> None:
    said = (release.folder / release.names[2]).read_text(encoding="utf-8").splitlines()
    kit, _, logic = ran(["rt", "version"], revision).out.strip().partition(" logic ")
    program_sum = hashlib.sha256(program.path.read_bytes()).hexdigest()
    sums = [f"{hashlib.sha256((release.folder / name).read_bytes()).hexdigest()}  {name}" for name in release.names[:2]]
    for line in (f"revision: {git(revision, 'rev-parse', 'HEAD').strip()}", f"kit: {kit}", f"logic: {logic}",
                 f"program: {program_sum}", f"sources: {sources_of(revision)}", *sums):
        assert line in said, line
    assert any(line.startswith("not known here") for line in said)


def test_lintian_finds_no_error(release: Release) -> None:
    done = ran(["lintian", "--allow-root", "--fail-on", "error", release.package], release.folder)
    assert done.status == 0 and not re.search("^E:", done.out + done.err, re.M), done


def test_the_tar_file_elsewhere(release: Release, program: Program, tmp_path: Path) -> None:
    assert ran(["tar", "-xzf", release.folder / release.names[1]], tmp_path).status == 0
    top = tmp_path / f"life-{release.version}"
    assert (top / "libexec" / "life" / "life-program").read_bytes() == program.path.read_bytes()
    (tmp_path / "bin").mkdir()
    (tmp_path / "bin" / "life-tools").symlink_to(top / "bin" / "life-tools")
    done = ran([top / "bin" / "life", "run"], tmp_path, (EXAMPLES / "first-issues.csv").read_text(encoding="utf-8"))
    assert (done.status, done.out) == (0, (EXAMPLES / "first-issues.transcript").read_text(encoding="utf-8")), done
    tools: list[str | Path] = ["env", "-u", "LIFE_PROGRAM", tmp_path / "bin" / "life-tools", "version"]
    done = ran(tools, tmp_path)
    assert done.status == 0 and f"version: {release.version}\n" in done.out and "life-program has this sum\n" in done.out, done
    with open(top / "libexec" / "life" / "life-program", "ab") as file:
        file.write(b"more")
    done = ran(tools, tmp_path)
    assert done.status == 1 and re.search("^wrong: ", done.out, re.M), done
    links, wrong = wrong_links(top / "share" / "doc" / "life" / "html")
    assert links > 8000 and not wrong, (links, wrong[:20])


@dataclass(frozen=True)
class Debian:
    """A fresh Debian without the kit, and the folder of a book in it."""

    top: Path

    def words(self, command: str) -> list[str | Path]:
        return ["env", "-i", "PATH=/usr/sbin:/usr/bin:/sbin:/bin", "HOME=/root", "chroot", self.top, "/bin/sh", "-c",
                f"cd /root/book && {command}"]

    def run(self, command: str) -> Ended:
        return ran(self.words(command), self.top)

    def shows(self, command: str, says: str = "", status: int = 0) -> Ended:
        done = self.run(command)
        assert done.status == status and re.search(says, done.out + done.err, re.M), (command, done)
        return done

    def files(self) -> set[str]:
        """Returns all files except those of the package manager and of the book."""
        listed = ran(["find", ".", "-xdev"], self.top).out.splitlines()
        return {name for name in listed if not re.match(r"\./(var/(lib|log|cache)/|root/book)", name)}


@pytest.fixture(scope="module")
def tree() -> Path:
    """A fresh Debian as a tar file. If debootstrap isn't installed, the test fails in CI; if the tree can't be made, such as
    when no mirror replies, the test is skipped."""
    need("debootstrap")
    made = ran(["sh", ROOT / "tests" / "release" / "fresh_tree.sh"], ROOT)
    if made.status != 0:
        pytest.skip(made.out.strip())
    return Path(made.out.strip())


@pytest.fixture
def fresh(tree: Path, release: Release, tmp_path: Path) -> Debian:
    """A fresh Debian in which the package is installed, with the examples in the folder of a book."""
    debian = Debian(tmp_path / "fresh")
    (debian.top / "root" / "book").mkdir(parents=True)
    assert ran(["tar", "-C", debian.top, "-xf", tree], tmp_path).status == 0
    (tmp_path / "before").write_text("\n".join(sorted(debian.files())))
    assert not (debian.top / "opt" / "rattle").exists()
    shutil.copy(release.package, debian.top / "root" / "life.deb")
    debian.shows("dpkg -i ../life.deb", re.escape(f"Setting up life ({release.version})"))
    debian.shows("dpkg --verify life && cp /usr/share/doc/life/examples/* .")
    return debian


@pytest.mark.root
def test_a_new_user_posts_and_values(fresh: Debian) -> None:
    assert fresh.run("life run <first-minute.csv").out == FIRST_MINUTE
    for command, says in (("life-wait 5 state", "^count,3$"),
                          ("life-tools version", "^program: /usr/libexec/life/life-program has this sum$"),
                          ("life-tools at 3 state 7001", "^entry,3,premium,"),
                          ("life-tools report 2021-01-01", "^endowment .* 127.22  *127.23 "),
                          (f"bash -c '{COMPLETES}'", "^checkpoint$"),
                          ("gzip -dc /usr/share/man/man1/life-wait.1.gz", "^.TH LIFE 1"),
                          ("gzip -dc /usr/share/man/man1/life-tools.1.gz", "^.SS position"),
                          ("ls /usr/share/doc/life/html", "^index.html$")):
        fresh.shows(command, says)


@pytest.fixture
def browser(tmp_path: Path) -> Iterator[Browser]:
    opened = Browser(DESK, tmp_path)
    yield opened
    opened.close()


@pytest.mark.root
@pytest.mark.browser
def test_the_window_opens_in_a_browser(fresh: Debian, browser: Browser, tmp_path: Path) -> None:
    """The browser runs outside the fresh Debian: the token disappears from the address, and a policy is found with its
    reserve."""
    fresh.run("life run <first-minute.csv")
    with open(tmp_path / "address", "w", encoding="utf-8") as out:
        window = subprocess.Popen([str(word) for word in fresh.words("exec life-tools browse --port 0")], stdout=out)
    try:
        until = time.monotonic() + 60
        while not (tmp_path / "address").read_text().endswith("\n") and time.monotonic() < until:
            time.sleep(0.1)
        browser.open((tmp_path / "address").read_text().strip())
        book = browser.driver.current_url.partition("?")[0]
        assert "key" not in browser.driver.current_url and "token" not in browser.driver.current_url
        browser.open(f"{book}find?number=7001")
        browser.says("7001")
        browser.open(f"{book}policy?number=7001&on=2021-01-01")
        browser.says("127.22", "127.23")
    finally:
        window.terminate()
        window.wait()


@pytest.mark.root
def test_the_tools_name_what_they_miss(fresh: Debian) -> None:
    fresh.run("life run <first-minute.csv")
    fresh.shows("life-tools export pandas journal.life frames", "apt-get install python3-pandas", 2)
    fresh.shows("life-tools report 2021-01-01 --xlsx book.xlsx", "apt-get install python3-openpyxl", 2)
    (fresh.top / "usr" / "bin" / "python3").rename(fresh.top / "usr" / "bin" / "python3.away")
    fresh.shows("life-tools version", "apt-get install python3$", 2)


@pytest.mark.root
def test_the_next_version_and_away_again(fresh: Debian, clone: Path, release: Release, program: Program, tmp_path: Path) -> None:
    changelog = clone / "CHANGELOG.md"
    text = changelog.read_text(encoding="utf-8")
    changelog.write_text(text.replace("\n## ", f"\n## {NEXT} (2027-01-01)\n\n- What comes next.\n\n## ", 1), encoding="utf-8")
    commit(clone, "the next version", NEXT_YEAR)
    # now CI's counts for these sources are known
    (clone / "out" / "gate").write_text(f"sources: {sources_of(clone)}\n12 passed, 0 failed\n")
    assert packed(clone).status == 0
    assert "12 passed, 0 failed" in (clone / "out" / "release" / f"life_{NEXT}.proved.txt").read_text().splitlines()
    fresh.run("life run <first-minute.csv")
    state = fresh.run("life state")
    shutil.copy(clone / "out" / "release" / f"life_{NEXT}_amd64.deb", fresh.top / "root" / "life.deb")
    fresh.shows("dpkg -i ../life.deb", re.escape(f"Unpacking life ({NEXT}) over ({release.version})"))
    fresh.shows("dpkg --verify life && life-tools version", f"^version: {NEXT}$")
    after = fresh.run("life state")
    assert (after.status, after.out) == (0, state.out) and "count,3" in state.out, after
    fresh.shows("rm -r /root/life.deb /root/book; apt-get remove -y life", re.escape(f"Removing life ({NEXT})"))
    left = fresh.files() - set((tmp_path / "before").read_text().splitlines())
    assert not {name for name in left if not name.startswith("./tmp/")}, sorted(left)[:5]
