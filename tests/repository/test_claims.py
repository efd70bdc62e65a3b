"""Tests that what pages quote is in the code: the theorem's clauses, the limits, and the names of the scripts that measure a
figure again."""
import re
from pathlib import Path

import pytest

from tests.language.source import CRATES, ROOT

THEOREM = ROOT / "docs" / "proof" / "theorem.md"
LIMITS = ROOT / "docs" / "reference" / "limits.md"
FIGURES = ROOT / "docs" / "development" / "figures.md"
# a figure of the page of limits, and the constants of the code that it states
CONSTANTS = [
    ("commands in a journal", ["4,000,000"], ["policy_types/src/command.rt MOST_COMMANDS"]),
    ("length of a script", ["16,777,216"], ["script_run/src/intake.rt MOST_SCRIPT_BYTES"]),
    ("`value` lines in a script", ["16"], ["command_csv/src/fields.rt MOST_VALUATIONS"]),
    ("lanes of a script", ["8"], ["command_csv/src/fields.rt LAST_LANE"]),
    ("valuations under way in one run", ["16"], ["office_state/src/held.rt MOST_PINS"]),
    ("age at issue; age at the end of cover", ["129", "131"],
     ["policy_types/src/command.rt LAST_ISSUE_AGE", "policy_types/src/command.rt END_AGE"]),
    ("a basis or a table file", ["4,194,304"], ["basis_book/src/file.rt LONGEST_FILE"]),
    ("rows of a basis; interest", ["1,000"], ["basis_book/src/row.rt MOST_ROWS"]),
    ("worker threads of `value` and `project`", ["64"], ["command_csv/src/fields.rt MOST_WORKERS"]),
]
MIB = re.compile(r"([0-9,]+) bytes \(([0-9]+) MiB\)")


def in_one_line(text: str) -> str:
    return re.sub(r"\s+", " ", text).strip()


@pytest.fixture(scope="module")
def proved() -> str:
    """Returns the definitions and the code of all crates in one line, with a function's clauses written as the fields of a
    record are."""
    files = [file for part in ("specs", "src") for file in sorted(CRATES.glob(f"*/{part}/**/*"))
             if file.suffix in (".antt", ".rt")]
    text = in_one_line(" ".join(file.read_text(encoding="utf-8") for file in files))
    return re.sub(r"\bensures (\w+) \{ ", r"\1 : ", re.sub(r"\bpub ", "", text))


def quoted(page: str) -> list[str]:
    """Returns the lines of a page's blocks, each run of blanks as one blank."""
    blocks = re.findall(r"^```text\n(.*?)^```", page, re.S | re.M)
    return [in_one_line(line) for block in blocks for line in block.splitlines() if line.strip()]


def test_each_line_of_the_theorem_stands_in_the_code(proved: str) -> None:
    lines = quoted(THEOREM.read_text(encoding="utf-8"))
    assert len(lines) > 30 and [line for line in lines if line not in proved] == []


def test_a_changed_line_of_the_theorem_is_reported(proved: str) -> None:
    page = THEOREM.read_text(encoding="utf-8").replace("exits : status ≡ status_of ending", "exits : ending ≡ ending", 1)
    assert [line for line in quoted(page) if line not in proved] == ["exits : ending ≡ ending"]


def value_of(constant: str) -> int:
    file, name = constant.split()
    found = re.search(rf"\bconst {name}: \w+ = ([0-9_]+);", (CRATES / file).read_text(encoding="utf-8"))
    assert found, constant
    return int(found[1])


@pytest.mark.parametrize("what, figures, constants", CONSTANTS, ids=[what for what, _, _ in CONSTANTS])
def test_a_limit_is_that_of_the_code(what: str, figures: list[str], constants: list[str]) -> None:
    row = re.search(rf"^\| {re.escape(what)} \| ([^|]*) \|", LIMITS.read_text(encoding="utf-8"), re.M)
    assert row and re.findall(r"(?<![0-9,])[0-9][0-9,]*", row[1])[:len(figures)] == figures, what
    assert [value_of(constant) for constant in constants] == [int(figure.replace(",", "")) for figure in figures]


@pytest.mark.parametrize("page", sorted((ROOT / "docs").rglob("*.md")), ids=lambda page: str(page.relative_to(ROOT)))
def test_bytes_and_mib_are_the_same(page: Path) -> None:
    pairs = MIB.findall(page.read_text(encoding="utf-8"))
    assert [each for each in pairs if int(each[0].replace(",", "")) != int(each[1]) << 20] == []


@pytest.mark.parametrize("page", ["docs/howto/clerk.md", "docs/reference/script.md", "docs/reference/limits.md"])
def test_no_page_has_another_limit_of_a_script_or_a_file(page: str) -> None:
    sizes = set(re.findall(r"\b([0-9]+) MiB\b", (ROOT / page).read_text(encoding="utf-8")))
    assert sizes <= {str(value_of("script_run/src/intake.rt MOST_SCRIPT_BYTES") >> 20),
                     str(value_of("basis_book/src/file.rt LONGEST_FILE") >> 20)}


def test_what_takes_a_figure_again_is_there() -> None:
    """Each figure of the page that names its measurement is measured by bench/, and bench/ measures nothing else."""
    files = [file for file in (ROOT / "bench").iterdir() if file.is_file()]
    text, code = FIGURES.read_text(encoding="utf-8"), "".join(file.read_text(encoding="utf-8") for file in files)
    taken = set(re.findall(r"`figures\.py ([a-z]+)`", text))
    known = set(re.findall(r"^@figure\ndef (\w+)\(", code, re.M))
    assert taken == known, taken ^ known
    named = {name for name in re.findall(r"`((?:plain|measure|worst)_\w*\.\w+)", text)}
    assert named <= {file.name for file in files}
    used = {"figures.py", "timing.py", *re.findall(r"^import (\w+)$", code, re.M)}
    assert [file.name for file in files if not (f'plain("{file.stem}")' in code or {file.name, file.stem} & used)] == []
