"""Copies of the repository, and of its program as if it had just been proved."""
import os
import shutil
import subprocess
from pathlib import Path

from tests.support.program import ROOT

NOTE = 'root=$0 && launcher=$root/tools/launcher && . "$launcher/shared.sh" && ' \
    'note_proof "$root/crates/life_cli/out/life_cli" "$(sources_sum)"'


def copy_tracked(to: Path, *names: str) -> None:
    """Copies the tracked files of these names and below these folders, or all, as far as they are there."""
    tracked = subprocess.run(["git", "ls-files", "-z", *names], cwd=ROOT, stdout=subprocess.PIPE, check=True).stdout
    there = [name for name in tracked.split(b"\0") if name and os.path.exists(os.path.join(os.fsencode(ROOT), name))]
    to.mkdir(parents=True, exist_ok=True)
    subprocess.run(["xargs", "-0", "cp", "--parents", "-p", "-t", to], cwd=ROOT, input=b"\0".join(there), check=True)


def note_proof(clone: Path) -> None:
    """Notes the program and the sources of a clone as those of a proof."""
    subprocess.run(["sh", "-c", NOTE, clone], check=True, stderr=subprocess.DEVNULL)


def prove(clone: Path, program: Path) -> None:
    """Puts a program where the launcher looks for the proved one, and notes it."""
    out = clone / "crates" / "life_cli" / "out"
    out.mkdir(exist_ok=True)
    shutil.copy(program, out / "life_cli")
    note_proof(clone)
