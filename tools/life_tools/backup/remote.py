"""Copies to another machine: rsync over ssh sends there what the copy on this machine has more.

`rsync --append-verify` would rewrite a file whose beginning differs. Therefore the checksums of the bytes that both have are
compared first, and nothing is sent if they differ.
"""
from __future__ import annotations

import os
import re
import shlex
import subprocess
from dataclasses import dataclass

from life_tools.backup.copies import FILES, PREFIX, SEAL, Differs, seal_in_copy, sum_of
from life_tools.common.formats import Wrong, demand, opened
from life_tools.journal.seals import is_sum

SSH = "ssh -o BatchMode=yes -o ConnectTimeout=20"
# HOST:FOLDER or USER@HOST:FOLDER
PLACE = re.compile(r"((?:[^@:/\s-][^@:/\s]*@)?[^@:/\s-][^@:/\s]*):(.+)")
# prints what the other machine has: the length of its file, and how many bytes of it were sealed
SIZES = ("mkdir -p {0}/{1} && cd {0} && if [ -e {2} ]; then stat -c %s {2}; else echo 0; fi && "
         "if [ -e {3} ]; then sed -n 's/^front,\\([0-9]*\\),.*/\\1/p' {3}; else echo 0; fi")
SUM = "cd {0} && head -c {1} {2} | sha256sum"
CUT = "cd {0} && truncate -s {1} {2} && sync {2}"
SYNCED = "cd {0} && sync -f {1} && head -c {2} {1} | sha256sum"


def is_place(to: str) -> bool:
    """Returns whether the argument names a folder on another machine, by rsync's rule.

    A local name with a colon needs ./ before it.
    """
    return ":" in to.partition("/")[0]


@dataclass(frozen=True)
class Place:
    """A folder on another machine, and the command that connects to it."""

    host: str
    folder: str
    ssh: str

    @property
    def shown(self) -> str:
        return f"{self.host}:{self.folder}"

    def asked(self, command: str, *values: object) -> list[str]:
        """Runs a command on the other machine and returns the words that it prints."""
        words = [*shlex.split(self.ssh), self.host, command.format(shlex.quote(self.folder), *values)]
        ran = run(words)
        if ran.returncode:
            raise Wrong(f"{self.shown}: {last_line(ran.stderr) or f'status {ran.returncode}'}; nothing more was copied")
        return ran.stdout.split()

    def sum_of_first(self, size: int) -> str:
        found = self.asked(SUM, size, PREFIX)[:1]
        demand(found and is_sum(found[0]), f"{self.shown}: sha256sum there prints no sum")
        return found[0]

    def send(self, *words: str) -> None:
        target = f"{self.host}:{self.folder}/"
        ran = run(["rsync", "--times", f"--rsh={self.ssh}", *words, target])
        if ran.returncode:
            raise Wrong(f"{self.shown}: rsync: {last_line(ran.stderr)}; the next backup goes on")


def run(words: list[str]) -> subprocess.CompletedProcess[str]:
    try:
        return subprocess.run(words, stdin=subprocess.DEVNULL, capture_output=True, text=True, errors="replace", check=False)
    except OSError as error:
        raise Wrong(f"{words[0]}: {error.strerror}: apt-get install rsync openssh-client") from error


def last_line(text: str) -> str:
    return next(reversed(text.strip().splitlines()), "")


def place_in(to: str, ssh: str) -> Place:
    found = PLACE.fullmatch(to)
    if not found:
        raise Wrong(f"{to} names no folder of another machine: HOST:FOLDER or USER@HOST:FOLDER is wanted")
    return Place(found[1], found[2], ssh)


def demand_same(place: Place, here: str, size: int) -> None:
    """Raises Differs unless both files begin with the same `size` bytes."""
    with opened(here) as file:
        if size and sum_of(file, size) != place.sum_of_first(size):
            raise Differs(f"{place.shown}/{PREFIX}: its first {size} bytes aren't those of {here}; nothing was sent. Keep both, "
                          "and find out which of them was changed")


def fit_end(place: Place, here: str, size: int, there: int, sealed: int) -> None:
    """Cuts the other machine's file back to its sealed bytes if the bytes after them differ from this machine's."""
    if there > sealed:
        with opened(here) as file:
            is_same = there <= size and sum_of(file, there) == place.sum_of_first(there)
        if not is_same:
            place.asked(CUT, sealed, PREFIX)


def send_copy(folder: str, place: Place) -> int:
    """Sends what the other machine's copy lacks, and returns how many bytes of the journal that was."""
    seal = seal_in_copy(folder)
    demand(seal, f"{folder} has no seal")
    assert seal
    sizes = place.asked(SIZES, FILES, PREFIX, SEAL)
    demand(len(sizes) == 2 and all(size.isdecimal() for size in sizes), f"{place.shown}/{SEAL} is no seal")
    there, sealed = map(int, sizes)
    here = os.path.join(folder, PREFIX)
    if there < sealed or seal.size < sealed:
        raise Differs(f"{place.shown} has a seal of {sealed} bytes, and {there} bytes; here are {seal.size}; nothing was sent")
    demand_same(place, here, sealed)
    fit_end(place, here, seal.size, there, sealed)
    place.send("--append-verify", here)
    place.send("--recursive", "--modify-window=-1", "--exclude=.*.part", os.path.join(folder, FILES))
    found = place.asked(SYNCED, PREFIX, seal.size)[:1]
    if found != [seal.sum]:
        raise Wrong(f"{place.shown}/{PREFIX} isn't what was sent; its seal is as it was before")
    place.send("--ignore-times", os.path.join(folder, SEAL))
    place.asked("cd {0} && sync -f {1}", SEAL)
    return seal.size - sealed


def fetch_copy(place: Place, to: str) -> None:
    """Fetches a copy from the other machine into a folder."""
    ran = run(["rsync", "--recursive", "--times", f"--rsh={place.ssh}", f"{place.host}:{place.folder}/", to])
    if ran.returncode:
        raise Wrong(f"{place.shown}: rsync: {last_line(ran.stderr)}")
