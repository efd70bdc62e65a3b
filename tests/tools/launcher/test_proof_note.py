"""Tests that only the proved program, with the sources from which it was proved, is run, installed or packed. Both are
recognized by their SHA-256, whatever the times of their files are."""
import os
import re
import shutil
from pathlib import Path

import pytest

from tests.support.clones import note_proof
from tests.tools.launcher.conftest import ran


def is_run(clone: Path) -> bool:
    done = ran(["sh", clone / "life", "generate", "1", "1", "1"], clone)
    assert done.status in (0, 69) and (done.out == "") == (done.status == 69), done
    return done.status == 0


def changed_and_older(path: Path) -> None:
    """Adds a byte at the end of a file, and sets the time that the file had."""
    times = os.stat(path)
    with open(path, "ab") as file:
        file.write(b"\n")
    os.utime(path, ns=(times.st_atime_ns, times.st_mtime_ns))


@pytest.mark.parametrize("name", ["crates/life_cli/src/main.rt", "crates/policy_machine/specs", "crates/posting_journal/proofs",
                                  "crates/life_cli/out/life_cli", "crates.txt"])
def test_another_source_or_program_isnt_run(clone: Path, name: str) -> None:
    path = clone / name
    path = min(each for each in path.rglob("*") if each.is_file()) if path.is_dir() else path
    before = path.read_bytes()
    assert is_run(clone)
    changed_and_older(path)
    assert not is_run(clone)
    for words in (["install", str(clone.parent / "bin")], ["pack"]):
        done = ran(["sh", clone / "life", *words], clone)
        assert done.status == 69 and done.out == "", done
    # the same bytes again, in the newest of all files
    path.write_bytes(before)
    assert is_run(clone)


def test_a_newer_time_proves_nothing(clone: Path) -> None:
    changed_and_older(clone / "crates/life_cli/src/main.rt")
    os.utime(clone / "crates/life_cli/out/life_cli")
    assert not is_run(clone)


def test_what_no_proof_reads_may_change(clone: Path) -> None:
    for path in (clone / "crates/measure/src").rglob("*.rt"):
        changed_and_older(path)
    assert is_run(clone)


def test_a_source_that_was_changed_during_the_proof_isnt_noted(clone: Path) -> None:
    os.remove(clone / "out" / "proved")
    changed_and_older(clone / "crates/life_cli/src/main.rt")
    script = '. tools/launcher/shared.sh; before=$(sources_sum); echo >>crates/life_cli/src/main.rt; ' \
        'note_proof crates/life_cli/out/life_cli "$before"'
    assert ran(["sh", "-c", f"root=$PWD; {script}"], clone).status != 0
    assert not is_run(clone)
    note_proof(clone)
    assert is_run(clone)


def test_the_kit_is_that_of_the_proof(clone: Path) -> None:
    note = (clone / "out" / "proved").read_text()
    (clone / "out" / "proved").write_text(re.sub("^kit: .*$", "kit: rattle-kit-99z logic 0123456789abcdef", note, flags=re.M))
    done = ran(["sh", clone / "life", "install", clone.parent / "bin"], clone)
    assert done.status == 0 and "kit: rattle-kit-99z logic 0123456789abcdef\n" in done.out, done
    done = ran([clone.parent / "bin" / "life-tools", "version"], clone)
    assert "kit: rattle-kit-99z logic 0123456789abcdef\n" in done.out, done


def test_an_installation_that_was_killed_leaves_nothing_for_long(clone: Path) -> None:
    """The next installation removes what a killed one left, but keeps a folder of such a name that somebody else made."""
    bin_, share = clone.parent / "home" / "bin", clone.parent / "home" / "share"
    for left, files in ((bin_ / ".life.Abc123", ("life-program", "life")), (share / ".life.xyzXYZ", ("life.1",)),
                        (bin_ / ".life.theirs", ("notes",))):
        left.mkdir(parents=True)
        for each in files:
            (left / each).write_text("x")
    done = ran(["sh", clone / "life", "install", bin_], clone)
    assert done.status == 0, done
    assert sorted(os.listdir(bin_)) == [".life.theirs", "life", "life-program", "life-tools", "life-wait"]
    assert sorted(os.listdir(share)) == ["bash-completion", "man"]


def test_an_installation_that_fails_leaves_no_folder(clone: Path) -> None:
    home = clone.parent / "home"
    (home / "share" / "man" / "man1" / "life.1").mkdir(parents=True)
    done = ran(["sh", clone / "life", "install", home / "new" / "bin"], clone, env={"PATH": os.environ["PATH"]})
    assert done.status == 0
    shutil.rmtree(home)
    (clone / "tools" / "installed" / "life.1").unlink()
    done = ran(["sh", clone / "life", "install", home / "new" / "bin"], clone)
    assert done.status == 70 and "nothing was installed" in done.err and not home.exists(), done
