"""Tests that the crates stand in layers: each crate stands only on crates above its own heading in crates.txt, and on no
library that it doesn't use."""
import re
from pathlib import Path

import pytest

from tests.language.source import CRATES, ROOT, layers, libraries, sources_of

ARCHITECTURE = ROOT / "docs" / "development" / "architecture.md"


# Libraries that no file of the crate names. Their types pass through the crate, or a macro of another crate names them; only a
# proof shows whether one can be removed.
UNNAMED = {
    "shared_office": ["posting_journal"],
    "cash_projection": ["office_state"],
    "transcript_text": ["snapshot_value"],
    "script_run": ["snapshot_value"],
    "life_app": ["snapshot_value"],
    "life_cli": ["stating_modes", "script_run", "valuing_modes"],
    "base_tests": ["memory_requests", "indexmap"],
    "journal_tests": ["memory_requests"],
    "table_tests": ["memory_requests"],
    "basis_tests": ["memory_requests"],
    "reader_tests": ["memory_requests"],
    "reserve_tests": ["memory_requests"],
    "office_tests": ["memory_requests"],
    "program_tests": ["memory_requests"],
    "measure": ["memory_requests"],
}


def below_or_beside(found: list[tuple[str, list[tuple[str, list[str]]]]]) -> list[str]:
    """Returns the crates that stand on a crate below their heading, or under the same heading."""
    ours = {crate for _, crates in found for crate, _ in crates}
    above: set[str] = set()
    wrong = []
    for heading, crates in found:
        wrong += [f"{crate} stands on {library}, under {heading!r}" for crate, below in crates for library in below
                  if library in ours and library not in above]
        above |= {crate for crate, _ in crates}
    return wrong


def is_used(crate: str, library: str) -> bool:
    """Returns whether a file of the crate names the library, in code, in a contract, in a definition or in a proof."""
    said = re.compile(rf"\b{library}::|Rattle\.{library}\.")
    files = (file for part in ("src", "specs", "proofs") for file in (CRATES / crate / part).rglob("*") if file.is_file())
    return any(said.search(file.read_text(encoding="utf-8")) for file in files)


def for_contracts_alone(crate: str) -> list[str]:
    """Returns the libraries of the crate that only contracts, definitions and proofs name."""
    lines = (line for source in sources_of(crate) for line in source.file.read_text(encoding="utf-8").splitlines())
    code = "\n".join(line for line in lines if not line.lstrip().startswith("//"))
    return [library for library in libraries()[crate] if is_used(crate, library) and not re.search(rf"\b{library}::", code)]


def marked() -> dict[str, list[str]]:
    """Returns the libraries that the comments of crates.txt mark as cited by contracts alone, by crate."""
    text = (ROOT / "crates.txt").read_text(encoding="utf-8")
    found = re.findall(r"^(\w+)[^:#\n]*:[^#\n]*# for contracts alone: (.*)$", text, re.M)
    return {crate: names.split() for crate, names in found}


def test_each_crate_stands_only_on_crates_above_its_heading() -> None:
    assert below_or_beside(layers()) == []


def test_a_crate_on_one_beside_it_is_reported() -> None:
    assert below_or_beside([("1. Low", [("one", []), ("two", ["one"])])]) == ["two stands on one, under '1. Low'"]


@pytest.mark.parametrize("crate", libraries())
def test_each_library_of_a_crate_is_used(crate: str) -> None:
    assert [library for library in libraries()[crate] if not is_used(crate, library)] == UNNAMED.get(crate, [])


def test_the_libraries_that_contracts_alone_name_are_marked() -> None:
    assert marked() == {crate: names for crate in libraries() if (names := for_contracts_alone(crate))}


def test_a_superfluous_library_is_reported() -> None:
    assert not is_used("money_core", "lane_runner") and is_used("lane_runner", "turn_lock")


def test_each_folder_of_crates_is_listed() -> None:
    assert {folder.name for folder in CRATES.iterdir()} == set(libraries())


def test_tests_stand_in_crates_of_tests_alone() -> None:
    """A crate with tests in it is proved twice."""
    tested = {source.crate for crate in libraries() for source in sources_of(crate)
              if "#[test]" in source.file.read_text(encoding="utf-8")}
    assert {crate for crate in tested if not crate.endswith("_tests")} == set()


def test_the_handles_are_those_that_may_be_used() -> None:
    assert (ROOT / "HANDLES").read_text(encoding="utf-8") == "Handles allowed: Threads, Wait.\n"


def named_files(page: str) -> list[tuple[str, list[Path]]]:
    """Returns the lines of a page that name files of crates, each with these files."""
    found = ((line, re.findall(r"`(\w+/(?:src|specs|proofs)/[\w/.]*)`", line)) for line in page.splitlines())
    return [(line, [CRATES / name for name in names]) for line, names in found if names]


def test_each_file_of_a_crate_that_the_architecture_names_is_there() -> None:
    page = ARCHITECTURE.read_text(encoding="utf-8")
    assert [file for _, files in named_files(page) for file in files if not file.exists()] == []


def test_each_function_in_a_table_of_the_architecture_is_in_the_files_beside_it() -> None:
    rows = [(line.split("|"), files) for line, files in named_files(ARCHITECTURE.read_text(encoding="utf-8"))
            if line.startswith("|") and all(file.is_file() for file in files)]
    wrong = []
    for cells, files in rows:
        code = "".join(file.read_text(encoding="utf-8") for file in files)
        wrong += [f"{name}: {cells[2].strip()}" for name in re.findall(r"`(?:\w+::)?(\w+)`", cells[1])
                  if not re.search(rf"\bfn {name}\b", code)]
    assert wrong == []
