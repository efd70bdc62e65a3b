"""Tests the logic that the pages claim: it must be the one by which the program was proved, as recorded at the proof."""
from pathlib import Path

import pytest

from packing.claimed_logic import claims_in, main, noted_logic
from tests.support.program import ROOT

ONE, OTHER = "0123456789abcdef", "fedcba9876543210"


@pytest.fixture
def clone(tmp_path: Path) -> Path:
    (tmp_path / "docs" / "proof").mkdir(parents=True)
    (tmp_path / "out").mkdir()
    (tmp_path / "README.md").write_text(f"It is proved by the logic `{ONE}`, and 0011223344556677 is another number.\n")
    (tmp_path / "docs" / "proof" / "review.md").write_text(f"rt version    the kit and its logic: {OTHER}\n")
    (tmp_path / "docs" / "index.md").write_text("The logic is the prover's.\n")
    return tmp_path


def note(clone: Path, logic: str) -> None:
    (clone / "out" / "proved").write_text(f"program: {'0' * 64}\nkit: rattle-kit-99z logic {logic}\nrevision: none\n")


def test_a_page_that_claims_another_logic_is_named(clone: Path, capsys: pytest.CaptureFixture[str]) -> None:
    assert main(["--check"], str(clone)) == 2
    note(clone, ONE)
    assert main(["--check"], str(clone)) == 1
    assert capsys.readouterr().err.splitlines()[-1] == \
        f"docs/proof/review.md claims the logic {OTHER}, and the program is proved by {ONE}"


def test_the_noted_logic_is_written(clone: Path) -> None:
    note(clone, OTHER)
    assert main([], str(clone)) == 0 and main(["--check"], str(clone)) == 0
    assert (clone / "README.md").read_text() == f"It is proved by the logic `{OTHER}`, and 0011223344556677 is another number.\n"


def test_the_pages_claim_one_logic() -> None:
    """It is also the logic of the recorded proof, if the clone has one."""
    claims = claims_in(str(ROOT))
    assert {"README.md", "CHANGELOG.md", "docs/proof/index.md"} <= set(claims)
    numbers = set().union(*claims.values())
    assert len(numbers) == 1 and noted_logic(str(ROOT)) in (*numbers, None), claims
