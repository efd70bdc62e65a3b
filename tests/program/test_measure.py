"""Tests the program `measure`, run once for each of its commands: it prints the right lines, and counts the turns and postings
of each caller."""
import resource
import subprocess
from pathlib import Path

import pytest

from tests.program.office import example
from tests.support.missing import lacks
from tests.support.program import ROOT

MEASURE = ROOT / "crates" / "measure" / "out" / "measure"


@pytest.fixture(autouse=True)
def built() -> None:
    if not MEASURE.exists():
        lacks("the program that measures isn't built; rt ci does that")


def prints(folder: Path, words: str, kibibytes: int = 0) -> tuple[int, str]:
    """Returns the status and the output, with the address space limited to this number of KiB unless it is 0."""
    def limit() -> None:
        if kibibytes:
            resource.setrlimit(resource.RLIMIT_AS, (kibibytes * 1024, kibibytes * 1024))
    ran = subprocess.run([MEASURE, *words.split()], cwd=folder, stdin=subprocess.DEVNULL, capture_output=True, timeout=120,
                         preexec_fn=limit, check=False)
    return ran.returncode, ran.stdout.decode()


def test_readers(tmp_path: Path) -> None:
    (tmp_path / "g.xml").write_text(example("g.xml"))
    (tmp_path / "basis.csv").write_text("1900-01-01,g.xml,400\n2000-01-01,g.xml,300\n")
    (tmp_path / "falling.csv").write_text("2000-01-01,g.xml,400\n1900-01-01,g.xml,300\n")
    assert prints(tmp_path, "tables 2 g.xml basis.csv falling.csv") == (
        0, "table,g.xml,0,120\nbasis,basis.csv,2\nbasis,falling.csv,NotRising(2)\n")
    assert prints(tmp_path, "tables 0 g.xml") == (0, "table,g.xml,unread\n")


@pytest.mark.parametrize("words, line", [
    # the sums of a program in plain Rust (bench/plain_value.rs), and sums that enclosed those of exact fractions
    ("reserves 1 1000", "reserves,1000,0,24895851521,24895852195"),
    ("projections 1 1000 40", "projections,1000,0,33280649834,33280649923"),
    ("turns 1 1000", "turns,1,1000"), ("turns 32 100", "turns,32,3200"), ("sleeping 8 80", "sleeping,8,80"),
    # one version of each policy is left of many, even if one policy has four million
    ("versions 1000 10 20 0", "versions,1000,10000,18497"), ("versions 1000 10 20 1", "versions,1000,1000,18497"),
    ("versions 1 4000000 500 0", "versions,1,4000000,24951"), ("versions 1 4000000 500 1", "versions,1,1,24951"),
    ("versions 0 10 10 1", "versions,0,0,0")])
def test_a_line(words: str, line: str, tmp_path: Path) -> None:
    assert prints(tmp_path, words) == (0, line + "\n")
    assert not (tmp_path / "journal.life").exists()


def test_postings(tmp_path: Path) -> None:
    assert prints(tmp_path, "postings 8 80") == (0, "postings,8,80\n")
    assert (tmp_path / "journal.life").stat().st_size == 18 + 80 * 65


@pytest.mark.parametrize("kibibytes", [40000, 80000, 120000])
def test_versions_without_memory(kibibytes: int, tmp_path: Path) -> None:
    """If the memory for a version is refused, sooner or later, the run ends with status 9."""
    assert prints(tmp_path, "versions 4000000 1 0 0", kibibytes) == (9, "")


@pytest.mark.parametrize("words", ["", "turns 0 1", "turns 33 1", "postings 1", "reserves 1", "versions 1 1 1", "tables", "no"])
def test_other_arguments(words: str, tmp_path: Path) -> None:
    assert prints(tmp_path, words) == (2, "")
