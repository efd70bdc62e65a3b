"""Runs `life` for the tools: the proved program, and only on copies of a journal or with commands that post nothing."""
from __future__ import annotations

import hashlib
import os
import re
import sys
from functools import lru_cache
from typing import NamedTuple

from life_tools.common.formats import bytes_of, demand, remark
from life_tools.common.revisions import built_with

# what every page, sheet and file prints if it was made with a program other than the one that these tools belong to
UNPROVED = "not the proved program"

# names of the program beside these tools: with its wrapper, and from before there was a wrapper
BESIDE = ("life-program", "life")


def program_beside(folder: str) -> str | None:
    """Returns the path of the program in a folder of programs, or None if it is not installed there."""
    places = (os.path.join(folder, name) for name in BESIDE)
    return next((place for place in places if os.path.isfile(place) and os.access(place, os.X_OK)), None)


# --- which program is asked, and whether it is the proved one ---

class Program(NamedTuple):
    """The program that is run: the arguments that begin a run, its SHA-256, and why it is not the proved program, or ""."""

    words: tuple[str, ...]
    sum: str
    why: str
    path: str = ""

    @property
    def is_proved(self) -> bool:
        return not self.why

    def told(self) -> str:
        """Returns the name of the program for a sheet: the revision of the installation if there is one, and otherwise the
        SHA-256."""
        built = built_with()
        if self.why:
            return f"SHA-256 {self.sum or 'unknown'}, {UNPROVED}"
        return f"revision {built['revision']}" if built else f"SHA-256 {self.sum}"

    def facts(self) -> dict[str, str]:
        """Returns the facts for a page or a workbook; the second one is there only if the program is not the proved one."""
        return {"program": self.told(), **({UNPROVED: self.why} if self.why else {})}


def clone() -> str:
    """Returns the folder of the clone that contains these tools; it means nothing for installed tools."""
    folder = os.path.dirname(os.path.abspath(__file__))
    return os.path.dirname(os.path.dirname(os.path.dirname(folder)))


def program_of_clone() -> str:
    return os.path.join(clone(), "crates", "life_cli", "out", "life_cli")


def noted_sum() -> str:
    """Returns the SHA-256 of the proved program that these tools belong to, or "" if none is known.

    Installed tools contain it. In a clone, `sh life prove` notes it; if nothing is noted, it is that of the clone's own program.
    """
    built = built_with()
    if built:
        return built["sum"]
    note = os.path.join(clone(), "out", "proved")
    if os.path.isfile(note):
        found = re.search("^program: ([0-9a-f]{64})$", bytes_of(note).decode("ascii", "replace"), re.M)
        return found[1] if found else ""
    return sum_of_program(program_of_clone()) if os.path.isfile(program_of_clone()) else ""


@lru_cache(maxsize=None)
def sum_of_program(path: str) -> str:
    return hashlib.sha256(bytes_of(path)).hexdigest()


def why_unproved(found: str) -> str:
    """Returns why a program with this SHA-256 is not the proved program of these tools, or "" if it is."""
    noted = noted_sum()
    if found and found == noted:
        return ""
    if not noted:
        return f"the program that was asked has the SHA-256 {found}, and these tools know no proved program"
    return f"the program that was asked has the SHA-256 {found}, and the proved program of these tools {noted}"


@lru_cache(maxsize=None)
def asked_by(words: tuple[str, ...], path: str) -> Program:
    """Returns the program that these arguments run. If it is not the proved one, a remark states that once."""
    if not os.path.isfile(path):
        return Program(words, "", f"there is no proved program {path}: sh life prove", path)
    found = sum_of_program(path)
    program = Program(words, found, why_unproved(found), path)
    if not program.is_proved:
        remark(f"life-tools: {UNPROVED}: {path}: {program.why}")
    return program


def program_asked(given: str | None = None) -> Program:
    """Returns the program to run: the given one, else that of LIFE_PROGRAM, else the one beside these tools, else the clone's
    launcher."""
    told = given or os.environ.get("LIFE_PROGRAM")
    if told:
        demand(os.path.isfile(told), f"{told} is no program")
        return asked_by((os.path.abspath(told),), os.path.abspath(told))
    here = os.path.dirname(os.path.realpath(sys.argv[0]))
    beside = program_beside(here)
    if beside:
        return asked_by((beside,), beside)
    launcher = os.path.join(os.path.dirname(here), "life")
    demand(os.path.isfile(launcher), "there is no program `life` beside these tools: name it by LIFE_PROGRAM or --life")
    return asked_by(("sh", launcher), os.path.join(os.path.dirname(launcher), "crates", "life_cli", "out", "life_cli"))


def life_command(given: str | None = None) -> list[str]:
    """Returns the arguments that begin a run of the program."""
    return list(program_asked(given).words)


def program_file() -> str:
    """Returns the path of the program file, also if a run would start it through the clone's launcher."""
    command = life_command()
    if len(command) == 1:
        return command[0]
    program = os.path.join(os.path.dirname(command[-1]), "crates", "life_cli", "out", "life_cli")
    demand(os.path.isfile(program), f"there is no proved program {program}: sh life prove")
    return program


def demand_as_installed() -> None:
    """Raises Wrong if installed tools would run a program other than their own; for several books none may take its place."""
    is_that = built_with() is None or program_asked().is_proved
    demand(is_that, f"{program_file()} isn't the program that these tools were installed with")
