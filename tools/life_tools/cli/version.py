"""Prints the version and the revision of these tools, and whether the program
beside them is the one they belong to.

    life-tools version

The status is 1 if it is not, if a clone's program is not the proved one of its
sources, or if LIFE_PROGRAM names another program than the proved one.
"""
from __future__ import annotations

import argparse
import hashlib
import os
import re
import subprocess
import sys

from life_tools.common.formats import Wrong, bytes_of
from life_tools.common.program import program_asked, program_beside
from life_tools.common.revisions import built_with, of_clone

# returns whether a clone's program is the one that was proved from its sources, as its launcher decides it
IS_CURRENT = 'root=$0; . "$root/tools/launcher/shared.sh"; is_current "$1"'


def arguments(parser: argparse.ArgumentParser) -> None:
    pass


def version_of(clone: str) -> str:
    """Returns the newest version of a clone's changelog."""
    found = re.search(r"^## (\S+)", bytes_of(os.path.join(clone, "CHANGELOG.md")).decode("utf-8", "replace"), re.M)
    if not found:
        raise Wrong(f"{clone}/CHANGELOG.md has no version")
    return found[1]


def tell_of_clone(clone: str) -> int:
    print(f"version: {version_of(clone)}, not installed: the tools of the clone {clone}")
    print(f"revision: {of_clone() or 'unknown: there is no repository'}")
    program = os.path.join(clone, "crates", "life_cli", "out", "life_cli")
    if not os.path.isfile(program):
        print(f"wrong: there is no proved program {program}: sh life prove")
        return 1
    print(f"sum: {hashlib.sha256(bytes_of(program)).hexdigest()}")
    if subprocess.run(["sh", "-c", IS_CURRENT, clone, program], check=False).returncode:
        print(f"wrong: {program} isn't noted as proved from these sources: sh life prove")
        return 1
    print(f"program: {program} is the one that was proved from these sources")
    return 0


def tell_of_installed(here: str, built: dict[str, str]) -> int:
    for name in ("version", "revision", "kit", "sum"):
        print(f"{name}: {built[name]}")
    beside = program_beside(here)
    if beside is None:
        raise Wrong(f"there is no program in {here}")
    program = os.path.realpath(beside)
    found = hashlib.sha256(bytes_of(program)).hexdigest()
    if found != built["sum"]:
        print(f"wrong: {program} has the sum {found}")
        return 1
    print(f"program: {program} has this sum")
    return 0


def run(options: argparse.Namespace) -> int:
    here = os.path.dirname(os.path.realpath(sys.argv[0]))
    built = built_with()
    status = tell_of_clone(os.path.dirname(here)) if built is None else tell_of_installed(here, built)
    return max(status, tell_of_asked()) if os.environ.get("LIFE_PROGRAM") else status


def tell_of_asked() -> int:
    """Prints whether the program named by LIFE_PROGRAM, which all tools then run, is the proved one. Returns 1 if it is not."""
    asked = program_asked()
    print(f"wrong: LIFE_PROGRAM names another program: {asked.why}" if asked.why
          else f"asked: LIFE_PROGRAM names the proved program, SHA-256 {asked.sum}")
    return 0 if asked.is_proved else 1
