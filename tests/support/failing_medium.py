"""A medium whose writes fail when a test says so: a file system on a loop device over a file that is made immutable.

The mounts are in the mount namespace of a process of the test, and end with that process; so the mounts of the machine stay as
they are. The files of a mount are reached by /proc/PID/root.
"""
from __future__ import annotations

import ctypes
import re
import subprocess
import time
from contextlib import contextmanager
from dataclasses import dataclass, field
from pathlib import Path
from types import TracebackType
from typing import Iterator

import pytest

from tests.support.missing import need

MEBIBYTE = 1 << 20
LIBC = ctypes.CDLL(None)
# the flags of sync_file_range: wait for what is being written, write, and wait for that
SYNC_ALL = 7


@dataclass(frozen=True)
class System:
    """A kind of file system, the command that makes one, and a size that this command accepts."""

    name: str
    maker: tuple[str, ...]
    mebibytes: int = 64


SYSTEMS = (
    System("ext4", ("mkfs.ext4", "-q", "-F")),
    System("ext4 without a journal", ("mkfs.ext4", "-q", "-F", "-O", "^has_journal")),
    System("xfs", ("mkfs.xfs", "-q", "-f"), 320),
    System("btrfs", ("mkfs.btrfs", "-q", "-f"), 128),
)
# the file system that holds the medium and its copies: on it a file can be made immutable, wherever the test's folder lies
HOLDER = System("ext4", ("mkfs.ext4", "-q", "-F"), 8192)


def called(*words: str) -> str:
    return subprocess.run(words, check=True, capture_output=True, text=True).stdout.strip()


def make(image: Path, system: System) -> None:
    need(system.maker[0])
    with open(image, "wb") as file:
        file.truncate(system.mebibytes * MEBIBYTE)
    called(*system.maker, str(image))


@dataclass
class Mounts:
    """Mounts that no other process sees."""

    folder: Path
    held: subprocess.Popen[str] = field(init=False)

    def __enter__(self) -> Mounts:
        # this process ends when the test does, because the end of the test closes its standard input
        words = ["unshare", "--mount", "--propagation", "private", "sh", "-c", "echo mounts; read -r end"]
        self.held = subprocess.Popen(words, stdin=subprocess.PIPE, stdout=subprocess.PIPE, stderr=subprocess.PIPE, text=True)
        assert self.held.stdout
        if self.held.stdout.readline() != "mounts\n":
            _, said = self.held.communicate()
            pytest.skip(f"no mounts of its own can be had here: {said.strip()}")
        return self

    def __exit__(self, kind: type[BaseException] | None, wrong: BaseException | None, trace: TracebackType | None) -> None:
        self.held.communicate()

    def mount(self, image: Path, name: str) -> Path:
        """Mounts the file system of a file on the folder of this name, and returns the path by which its files are reached."""
        at = self.folder / name
        at.mkdir(exist_ok=True)
        device = called("losetup", "--find", "--show", str(image))
        try:
            called("nsenter", f"--target={self.held.pid}", "--mount", "mount", device, str(at))
        finally:
            # the loop device is released once nothing is mounted on it
            called("losetup", "--detach", device)
        return Path(f"/proc/{self.held.pid}/root{at}")

    def unmount(self, name: str) -> None:
        called("nsenter", f"--target={self.held.pid}", "--mount", "umount", str(self.folder / name))


def new_files(mounts: Mounts, image: Path, name: str, system: System) -> Path:
    """Mounts a new file system and returns the path of its files. If it can't be mounted, the test is skipped, even where CI
    is set, because neither a loop device nor a kernel's file system is a package that could be installed."""
    make(image, system)
    try:
        return mounts.mount(image, name)
    except subprocess.CalledProcessError as wrong:
        pytest.skip(f"{system.name} on a loop device can't be had here: {wrong.stderr.strip()}")


class Medium:
    """A file system whose medium can fail, mounted at `files`. A copy of the medium is examined after the medium is unmounted,
    and is mounted alone, since some systems refuse to mount what they take for the same file system a second time."""

    def __init__(self, mounts: Mounts, system: System) -> None:
        self.mounts = mounts
        self.holder = new_files(mounts, mounts.folder / "holder", "held", HOLDER)
        # the file is removed now, so that nothing is left of it once it is unmounted
        (mounts.folder / "holder").unlink()
        self.image = self.holder / "medium"
        self.files = new_files(mounts, self.image, "files", system)
        self.copies = 0

    def fail(self) -> None:
        called("chattr", "+i", str(self.image))

    def heal(self) -> None:
        called("chattr", "-i", str(self.image))

    def copy(self) -> Path:
        self.copies += 1
        to = self.holder / f"copy-{self.copies}"
        called("cp", "--sparse=always", str(self.image), str(to))
        return to

    def write_back(self) -> bool:
        """Has the system write everything it keeps to the medium. Returns whether this and all earlier writes succeeded."""
        return subprocess.run(["sync", "--file-system", str(self.files)], capture_output=True, check=False).returncode == 0

    def write_back_from(self, name: str, at: int) -> None:
        """Has the system write a file to the medium from this byte on, and nothing before it."""
        with open(self.files / name, "rb") as file:
            assert LIBC.sync_file_range(file.fileno(), ctypes.c_int64(at), ctypes.c_int64(0), SYNC_ALL) == 0

    def within(self, *words: str) -> list[str]:
        """Returns a command that runs in the folder of the files, in the namespace in which they are mounted, so that full
        paths work, too."""
        folder = str(self.mounts.folder / "files")
        return ["nsenter", f"--target={self.mounts.held.pid}", "--mount", "sh", "-c", 'cd "$0" && exec "$@"', folder, *words]

    def unmount(self) -> None:
        self.mounts.unmount("files")

    @contextmanager
    def files_on(self, copy: Path) -> Iterator[Path]:
        """Mounts a copy of the medium, and yields the path of its files."""
        yield self.mounts.mount(copy, "copy")
        self.mounts.unmount("copy")


class StoppedRun:
    """A run of the program that strace stops after the n-th write to a file."""

    def __init__(self, words: list[str], folder: Path, log: Path, script: Path, n: int) -> None:
        stop = ["-e", "trace=pwrite64", "-e", f"inject=pwrite64:signal=SIGSTOP:when={n}"]
        with open(script, "rb") as given:
            self.traced = subprocess.Popen(["strace", "-f", "-qq", "-o", str(log), *stop, *words], cwd=folder, stdin=given,
                                           stdout=subprocess.PIPE, stderr=subprocess.PIPE, text=True)
        self.process = self.stopped(log)

    def stopped(self, log: Path) -> int:
        while self.traced.poll() is None:
            found = re.search(r"^(\d+) .*stopped by SIGSTOP", log.read_text() if log.exists() else "", re.M)
            if found:
                return int(found[1])
            time.sleep(0.02)
        raise AssertionError(f"it ended before it was stopped: {self.traced.communicate()}")

    def go_on(self) -> tuple[int, str]:
        """Lets the run go on to its end, and returns its exit status and what it printed."""
        called("kill", "-CONT", str(self.process))
        out, _ = self.traced.communicate()
        return self.traced.returncode, out

    def kill(self) -> None:
        called("kill", "-KILL", str(self.process))
        self.traced.communicate()
